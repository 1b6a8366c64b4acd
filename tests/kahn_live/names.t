Which channels lines are for: no name, an empty one, and a gap between names.

A line after those of the input, with an output alone.
  $ printf 'A: 1\n' | kahn_live examples/double.kahn --out B --at-end 'A: 5'
  2
  10
A name and a value.
  $ printf 'A: 1\n' | kahn_live examples/double.kahn --out B --at-end A=5
  2
  10
The short form.
  $ printf 'A: 1\n' | kahn_live examples/double.kahn --plain ,B --at-end 'A: 5'
  2
  10
A value without a name.
  $ printf 'A: 1\n' | kahn_live examples/double.kahn --out B --at-end 5
  ! examples/double.kahn: --at-end: not a name and a colon: `5`; a line begins with the name of a channel
  ! examples/double.kahn: bare numbers are taken with --plain A
  [6]
An empty word for an input is as if the option weren't there.
  $ printf 'A: 5\n' | kahn_live examples/double.kahn --in ''
  B: 10
An empty word for an input, and lines that a value on its own doesn't fit.
  $ printf '1\n' | kahn_live examples/double.kahn --in ''
  ! examples/double.kahn: input line 1: not a name and a colon: `1`; a line begins with the name of a channel
  ! examples/double.kahn: bare numbers are taken with --plain A
  ! end 1 double: waits on A after 1
  ! finished 1
  [1]
An empty word for an input, and an output.
  $ printf 'A: 1\n' | kahn_live examples/double.kahn --in '' --out B --at-end 'A: 5'
  2
  10
An empty word for an output.
  $ printf '1\n' | kahn_live examples/double.kahn --in A --out ''
  2
An empty word for an output alone.
  $ printf 'A: 1\n' | kahn_live examples/double.kahn --out ''
  B: 2
An empty word for both.
  $ printf 'A: 1\n' | kahn_live examples/double.kahn --plain ''
  B: 2
No name on one side of the comma, and on neither.
  $ printf '1\n' | kahn_live examples/double.kahn --plain A,
  2
  $ printf 'A: 1\n' | kahn_live examples/double.kahn --plain ,
  B: 2
Empty words, and the short form.
  $ printf '1\n' | kahn_live examples/double.kahn --in '' --out '' --plain A,B
  2
No channel has an empty name.
  $ printf 'A: 1\n' | kahn_live examples/double.kahn --watch ''
  ! examples/double.kahn: --watch: no such channel; channels: `A` and `B`
  [6]
Rows of two channels, with a gap between their names.
  $ printf '1 2\n3,,4\n' | kahn_live examples/merge.kahn --in LEFT,,RIGHT
  1
  2
  3
No name between commas.
  $ printf '1 2\n' | kahn_live examples/merge.kahn --in ,
  ! examples/merge.kahn: --plain: not one value for each channel
  ! examples/merge.kahn: bare numbers are taken with --plain LEFT
  [6]
