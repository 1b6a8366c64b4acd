One that is stopped while it unpacks leaves nothing, and what one leaves that is killed the next one removes.

Stopped.
  $ make_tree; killed TERM; waits_for no_parts

Killed.
  $ fresh; killed KILL; given ./kahn; waits_for no_parts
  RIGHT kahn TREE/release/out/kahn
