Values alone (--plain).

Values alone after a byte order mark.
  $ printf '\357\273\2771\r\n2' | kahn_live examples/double.kahn --plain A,B
  2
  4
The values of the input alone.
  $ printf '\357\273\2771\r\n2' | kahn_live examples/double.kahn --plain A,A
  1
  2
Values alone, and an end mark.
  $ printf '7 7 9\n' | kahn_live runs.kahn --plain RAW --at-end RAW=-1
  2
  7
  1
  9
A line of values that is refused.
  $ printf '1\nA: 2\n3\n' | kahn_live examples/double.kahn --plain A
  2
  6
  ! examples/double.kahn: input line 2: not a value: `A:`; a name stands before the values alone, and with --plain nowhere
  ! end 1 double: waits on A after 7
  ! finished 7
  [1]
A line of values that is passed over.
  $ printf '1\n2 x\n3\n' | kahn_live examples/double.kahn --plain A --keep-going
  2
  6
  ! examples/double.kahn: input line 2: not a value: `x`; values are numbers, `true` and `false`
Values alone, and no such input.
  $ printf '1\n' | kahn_live examples/double.kahn --plain Z
  ! examples/double.kahn: --plain: no such channel: `Z`; input channels: `A`
  ! examples/double.kahn: bare numbers are taken with --plain A
  [6]
Values alone, and an output for the input.
  $ printf '1\n' | kahn_live examples/double.kahn --plain B
  ! examples/double.kahn: --plain: not an input channel: `B`; input channels: `A`
  ! examples/double.kahn: bare numbers are taken with --plain A
  [6]
Values of a stream alone, of lines with names.
  $ printf 'A: 1\nA: 2 3\n' | kahn_live examples/double.kahn --plain ,B
  2
  4
  6
Values of a stream alone, of a line without a name.
  $ printf '1\n' | kahn_live examples/double.kahn --plain ,B
  ! examples/double.kahn: input line 1: not a name and a colon: `1`; a line begins with the name of a channel
  ! examples/double.kahn: bare numbers are taken with --plain A
  ! end 1 double: waits on A after 1
  ! finished 1
  [1]
Values alone, and no such output.
  $ printf '1\n' | kahn_live examples/double.kahn --plain A,Z
  ! examples/double.kahn: --plain: no such channel: `Z`; channels: `A` and `B`
  [6]
Values alone, and an output in the other letter case.
  $ printf '1\n' | kahn_live examples/double.kahn --plain A,b
  ! examples/double.kahn: --plain: no such channel: `b`; did you mean `B`?
  [6]
Values alone, and a watched channel.
  $ printf '1\n' | kahn_live examples/double.kahn --plain A --watch A
  2
  ! kahn_live: --watch does nothing with --plain; write --plain INPUT,NAME
Values alone, and a watched channel.
  $ printf '1\n' | kahn_live examples/double.kahn --plain A,B --watch A
  2
  ! kahn_live: --watch does nothing with --plain; write --plain INPUT,NAME
Values alone, and one after them.
  $ printf '1\n' | kahn_live examples/double.kahn --plain A --at-end 7
  2
  14
Values alone, and negative ones after them.
  $ printf '1\n' | kahn_live examples/double.kahn --plain A --at-end -1 --at-end '-2 -3'
  2
  -2
  -4
  -6
Values of one of two inputs.
  $ printf '1\n' | kahn_live examples/merge.kahn --plain LEFT
  ! examples/merge.kahn: --plain feeds LEFT alone; no line feeds RIGHT
Values of the other one of two inputs.
  $ printf '1\n' | kahn_live examples/merge.kahn --plain RIGHT
  ! examples/merge.kahn: --plain feeds RIGHT alone; no line feeds LEFT
