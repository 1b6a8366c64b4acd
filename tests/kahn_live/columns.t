Values alone, by --in and --out.

One channel: any number of values on a line.
  $ printf '1 2\n3\n' | kahn_live examples/double.kahn --in A --out B
  2
  4
  6
What goes out alone, of lines with names; and the input alone, where the first stream goes out.
  $ printf 'A: 1\nA: 2\n' | kahn_live examples/double.kahn --out B
  2
  4
  $ printf '1\n' | kahn_live examples/double.kahn --in A
  2
A program from standard input, which has no input channel.
  $ kahn_live - --out HAMMING < examples/hamming.kahn | head -n 3
  1
  2
  3
Both forms at once: the long one is read.
  $ printf '1\n' | kahn_live examples/double.kahn --in A --plain Z
  2
