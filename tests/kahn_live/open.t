In pipes that stay open: each line of output is there before the next line of input is sent.

Lines as they come, a blank one, two values, and lines that are refused.
  $ begin examples/double.kahn; ask 1 'A: 1'; ask 1 'A: 2'; ask 1 '' 'A: 3 4' 'A:'; ask 2 'Z: 1' 'B: 1' 'A: true' 'A: 1 x' 'A 1' 'A: 5' $'A: 6\r'; over
  B: 2
  B: 4
  B: 6 8
  B: 10
  B: 12
  ! examples/double.kahn: input line 6: no such channel: `Z`; input channels: `A`
  ! examples/double.kahn: input line 7: not an input channel: `B`; input channels: `A`
  ! examples/double.kahn: input line 8: kind does not agree: `true`; wanted a number
  ! examples/double.kahn: input line 9: not a value: `x`; values are numbers, `true` and `false`
  ! examples/double.kahn: input line 10: not a name and a colon: `1`; a colon stands behind the name
  ! end 1 double: waits on A after 19
  ! finished 19
  [1]

A watched channel, with quanta of 1, 2 and 1,000.
  $ for quantum in 1 2 1000; do begin examples/double.kahn --watch A --quantum $quantum; ask 2 'A: 1 2'; ask 2 'A: 3'; over; done
  A: 1 2
  B: 2 4
  A: 3
  B: 6
  A: 1 2
  B: 2 4
  A: 3
  B: 6
  A: 1 2
  B: 2 4
  A: 3
  B: 6

A step goes on by a blank line.
  $ begin examples/double.kahn --step 3; ask 1 'A: 1 2 3'; ask 1 ''; ask 0 ''; over
  B: 2
  B: 4
  B: 6
  ! examples/double.kahn: input line 1: wants more events than --step allows, and goes on with the next line

One step alone.
  $ begin examples/double.kahn --step 3; ask 1 'A: 1 2 3'; over
  B: 2
  ! examples/double.kahn: input line 1: wants more events than --step allows, and goes on with the next line
  ! stopped by the bound: 1 process wants more events
  ! 1 double wants more, after 4 events
  ! end 1 double: wants more after 4
  ! stopped by bound 4
  [3]

What is new goes out before a line that takes long.
  $ begin slow.kahn --plain A --step 281474976710655; ask 2 1 2 500000000000; kill $live
  1
  2

Values alone.
  $ begin examples/double.kahn --plain A; ask 1 1; ask 3 '' '2 3' $'\t4 \r'; over
  2
  4
  6
  8

A fault while others go on is reported at once, and once.
  $ begin shared.kahn --plain A; ask 1 5 0 7; until [ -s errors ]; do sleep 0.05; done; sleep 0.1; cat errors; kill $live
  20
  shared.kahn: input line 2: 2 part has a fault: division
