What is told stands behind what is new: here both streams are one.

A line that is refused, and one more like it.
  $ printf 'A: 1\nA: x\nA: y\nA: 2\n' | kahn_live examples/double.kahn 2>&1
  B: 2
  examples/double.kahn: input line 2: not a value: `x`; values are numbers, `true` and `false`
  B: 4
  examples/double.kahn: and 1 line more like it
  end 1 double: waits on A after 7
  finished 7
  [1]
A line that wants more events than a part may do, and how the run ended.
  $ printf 'A: 1 2\nA: 3\n' | kahn_live examples/double.kahn --step 4 2>&1
  B: 2
  examples/double.kahn: input line 1: wants more events than --step allows, and goes on with the next line
  B: 4 6
  stopped by the bound: 1 process wants more events
  1 double wants more, after 9 events
  end 1 double: wants more after 9
  stopped by bound 9
  [3]
A process that has a fault while another goes on.
  $ printf 'A: 5\nA: 0\nA: 7\n' | kahn_live shared.kahn 2>&1
  B: 20
  D: 5
  D: 0
  shared.kahn: input line 2: 2 part has a fault: division
  D: 7
  1 process has a fault
  1 share waits on A at 2:85, an input
  shared.kahn:3:72: error: 2 part has a fault, division
   3 |   process part(integer in U; integer out V); begin repeat send 100 div wait(U) on V end;
     |                                                                        ^^^^^^^
  end 1 share: waits on A after 13
  end 2 part: fault division after 5
  finished 18
A run that ends by itself behind its last value.
  $ printf '1\n9223372036854775807\n' | kahn_live examples/double.kahn --in A 2>&1
  2
  examples/double.kahn: input line 2: 1 double has a fault: overflow
  1 process has a fault
  examples/double.kahn:3:25: error: 1 double has a fault, overflow
   3 |   begin repeat send 2 * wait(U) on W end;
     |                         ^^^^^^^
  end 1 double: fault overflow after 5
  finished 5
The last lines can't be sent: those of a line at the end, and of a program without an input.
  $ kahn_live examples/double.kahn --at-end A=1 < /dev/null > /dev/full
  ! kahn: report could not be written
  [5]
  $ kahn_live examples/sieve.kahn < /dev/null > /dev/full
  ! kahn: report could not be written
  [5]
