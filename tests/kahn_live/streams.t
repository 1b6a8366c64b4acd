Files, streams and arguments of kahn_live. (What needs pipes that stay open is in tests/test_live.py.)

No such channel to watch.
  $ kahn_live examples/double.kahn --watch Z
  ! examples/double.kahn: --watch: no such channel: `Z`; channels: `A` and `B`
  [6]
No program.
  $ kahn_live nothing
  ! kahn: cannot read nothing
  ! kahn_live: there is no such file
  [5]
A text that is no program.
  $ echo 'begin' > bad.kahn; kahn_live bad.kahn
  ! kahn: 2:1: text ends too early
  ! kahn_explain bad.kahn says more
  [1]
Arguments that are refused: none.
  $ kahn_live 2> error
  [2]
  $ head -n 1 error
  error: the following required arguments were not provided:
Arguments that are refused: examples/double.kahn --step 0.
  $ kahn_live examples/double.kahn --step 0 2> error
  [2]
  $ head -n 1 error
  error: invalid value '0' for '--step <N>': 0 is not in 1..=281474976710655
Arguments that are refused: examples/double.kahn --bound 1.
  $ kahn_live examples/double.kahn --bound 1 2> error
  [2]
  $ head -n 1 error
  error: unexpected argument '--bound' found
The help.
  $ kahn_live --help | grep -c -e '--step <N>'
  1
A reader that goes: then the program ends, and says nothing.
  $ yes 'A: 1' | timeout 200 kahn_live examples/double.kahn | head -n 1; echo ${PIPESTATUS[1]}
  B: 2
  0
The same, values alone.
  $ yes 1 | timeout 200 kahn_live examples/double.kahn --plain A | head -n 1; echo ${PIPESTATUS[1]}
  2
  0
A full disk.
  $ printf 'A: x\nA: 1\n' | kahn_live examples/double.kahn > /dev/full
  ! examples/double.kahn: input line 1: not a value: `x`; values are numbers, `true` and `false`
  ! kahn: report could not be written
  [5]
