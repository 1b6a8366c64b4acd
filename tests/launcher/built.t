What was built here runs if it is written down that it is of these sources.

A program that was built otherwise.
  $ make_tree; cd tree/crates/kahn/out; tells "BUILT kahn" kahn; mine .; cd "$OLDPWD"; given ./kahn
  RIGHT kahn TREE/release/out/kahn

A program that was built here.
  $ given bash -c 'top=$PWD; source release/program.sh; read_sources; stamp kahn "$standing"'; given ./kahn
  BUILT kahn TREE/crates/kahn/out/kahn

What all can write of it.
  $ chmod 666 "$tree/crates/kahn/out/kahn.sha256"; given ./kahn; chmod 644 "$tree/crates/kahn/out/kahn.sha256"
  RIGHT kahn TREE/release/out/kahn

A program that was built later.
  $ echo "# more" >> "$tree/crates/kahn/out/kahn"; given ./kahn; truncate -s -7 "$tree/crates/kahn/out/kahn"
  RIGHT kahn TREE/release/out/kahn

A program of sources that are older than it.
  $ echo "// more" >> "$source"; touch -d 2020-01-01 "$source"; given ./kahn
  kahn: these sources have no release:
  [5]
