kahn_test writes files of values, and compares runs with them.

Values that are new.
  $ mkdir networks; cp debounce.* networks; kahn_test --update networks
  ok 1 - debounce.kahn
  # wrote networks/debounce.values
  ok 2 - debounce
  1..2

The same values.
  $ cat networks/debounce.values; kahn_test networks
  AT: 0 111 307
  STATE: 0 1 0
  ok 1 - debounce.kahn
  ok 2 - debounce
  1..2

One that isn't the same, and what it needs.
  $ sed -i 's/ 20)/ 95)/' networks/debounce.kahn; kahn_test networks
  ok 1 - debounce.kahn
  not ok 2 - debounce
  # AT:2 is 202, wanted 111
  # STATE:3 doesn't come: 2 values, wanted 3
  # AT:2 = 202 needs TIME: 11 of 14, LEVEL: 11 of 14
  # events of 1 debounce: 36 of 47
  1..2
  [1]

A process more, and the values are the same.
  $ sed 's/channel NUMBERS;/channel NUMBERS, COPIES;/; s/square(NUMBERS,/copy(NUMBERS, COPIES) par square(COPIES,/; s/  process square/  process copy(integer in U; integer out W); begin repeat send wait(U) on W end;\n&/' examples/squares.kahn > squares.kahn
  > cp examples/squares.values .; kahn_test squares.kahn; kahn squares.kahn | diff - examples/squares.report | grep -c '^[<>]'
  ok 1 - squares.kahn
  ok 2 - squares
  1..2
  5

The values alone, with the status of kahn.
  $ kahn_test --values examples/go-back-n.kahn examples/go-back-n.input
  DELIVERED: 10 20 30 40 50 60 70 80 90 100 110 120 130 140 150 160 170 180 190 200
  SENT: 70
  $ kahn_test --values examples/noise.kahn --bound 9
  NOISE: 71 94 86 37
  [3]

A stream that goes on.
  $ cp examples/sample.kahn .; echo 'print f: 0 1 0 1 0 ..' > sample.values; kahn_test sample.kahn
  ok 1 - sample.kahn
  ok 2 - sample
  1..2
  $ echo 'print f: 0 1 0 2 ..' > sample.values; kahn_test sample.kahn
  ok 1 - sample.kahn
  not ok 2 - sample
  # print f:4 is 1, wanted 2
  # 1 f:4 = 1 needs X: 2, Y: 2, Z: 2, T1: 1, T2: 1
  # events of 1 f: 15, 2 g: 6, 3 h: 4, 4 h: 4
  1..2
  [1]

One that ends.
  $ cp examples/squares.kahn .; echo 'SQUARES: 0 1 4 9 16 25 ..' > squares.values; kahn_test squares.kahn
  ok 1 - squares.kahn
  not ok 2 - squares
  # SQUARES:6 doesn't come: 5 values, wanted 6 or more
  # SQUARES:6 never comes
  1..2
  [1]

A network that never stops, and whose values don't say so.
  $ cp examples/noise.kahn .; echo 'NOISE: 71 94' > noise.values; kahn_test noise.kahn
  ok 1 - noise.kahn
  not ok 2 - noise
  # NOISE:3 is 86, wanted no more than 2 values
  # status 3, wanted 0
  # stopped by the bound: 1 process wants more events
  # 1 noise wants more, after 1000000 events
  # NOISE:3 = 86 needs no values
  # events of 1 noise: 6
  1..2
  [1]
  $ kahn_test --update noise.kahn; cat noise.values
  ok 1 - noise.kahn
  # wrote noise.values
  ok 2 - noise
  1..2
  NOISE: 71 94 86 37 41 83 61 5 91 31 71 7 47 49 13 39 69 94 23 95 ..

It says so, and is stopped earlier.
  $ printf '# the first ones\nNOISE: 71 94 ..\nbound 10\n' > noise.values; kahn_test noise.kahn; kahn_test --update noise.kahn; cat noise.values
  ok 1 - noise.kahn
  ok 2 - noise
  1..2
  ok 1 - noise.kahn
  ok 2 - noise
  1..2
  # the first ones
  NOISE: 71 94 ..
  bound 10

A value that doesn't come within the bound.
  $ printf 'NOISE: 71 94 86 37 ..\nbound 6\n' > noise.values; kahn_test noise.kahn
  ok 1 - noise.kahn
  not ok 2 - noise
  # NOISE:4 doesn't come: 3 values, wanted 4 or more
  # NOISE:4 doesn't come within the bound
  1..2
  [1]

A protocol whose window is too large: it gets nowhere.
  $ kahn_build examples/go-back-n.kahn --set sender.WINDOW=5 > go-back-n.kahn; cp examples/go-back-n.{input,values} .; kahn_test go-back-n.kahn
  ok 1 - go-back-n.kahn
  not ok 2 - go-back-n
  # DELIVERED:18 doesn't come: 17 values, wanted 20
  # SENT:1 doesn't come: 0 values, wanted 1
  # status 3, wanted 0
  # stopped by the bound: 1 process wants more events
  # 1 sender wants more, after 348266 events
  # DELIVERED:18 doesn't come within the bound
  1..2
  [1]

A network without a stream that never stops.
  $ echo 'begin process turn(); begin integer I; repeat I := (I + 1) mod 7 end; turn() end' > turn.kahn; kahn_test --lax --update turn.kahn; cat turn.values; kahn_test --lax turn.kahn; echo status 0 > turn.values; kahn_test --lax turn.kahn
  ok 1 - turn.kahn
  # wrote turn.values
  ok 2 - turn
  1..2
  status 3
  ok 1 - turn.kahn
  ok 2 - turn
  1..2
  ok 1 - turn.kahn
  not ok 2 - turn
  # status 3, wanted 0
  # stopped by the bound: 1 process wants more events
  # 1 turn wants more, after 1000000 events
  1..2
  [1]

A deadlock.
  $ cp examples/control.* .; sed -i /status/d control.values; kahn_test control.kahn
  ok 1 - control.kahn
  not ok 2 - control
  # status 7, wanted 0
  # deadlock: 1 err, 2 ctl and 3 plant wait on one another
  # 3 of the 4 values of SET were never taken
  1..2
  [1]
  $ kahn_test --update control.kahn; cat control.values
  ok 1 - control.kahn
  # wrote control.values
  ok 2 - control
  1..2
  HEAT:
  status 7

A fault of arithmetic.
  $ cp examples/fibonacci.kahn .; echo 'FIBONACCI: 0 1 1 ..' > fibonacci.values; kahn_test fibonacci.kahn
  ok 1 - fibonacci.kahn
  not ok 2 - fibonacci
  # status 8, wanted 0
  # 1 process has a fault
  # 1 of the 93 values of FIRST was never taken
  1..2
  [1]
  $ kahn_test --update fibonacci.kahn; cat fibonacci.values
  ok 1 - fibonacci.kahn
  # wrote fibonacci.values
  ok 2 - fibonacci
  1..2
  FIBONACCI: 0 1 1 ..
  status 8

Prints of equal processes, and what one needs.
  $ cp examples/sieve.* .; sed -i 's/^print sift 3: 5/print sift 3: 6/' sieve.values; kahn_test sieve.kahn
  ok 1 - sieve.kahn
  not ok 2 - sieve
  # print sift 3:1 is 5, wanted 6
  # 4 sift:1 = 5 needs NUMBERS: 4 of 119, ODD: 2 of 59, NOT_BY_3: 1 of 39
  # events of 1 count: 8 of 239, 2 sift: 10 of 298, 3 sift: 5 of 158, 4 sift: 2 of 110
  1..2
  [1]

An output that is gone, and a new one.
  $ network add; echo 'C: 2 3 4' > networks/add.values; kahn_test networks/add.kahn
  ok 1 - add.kahn
  not ok 2 - add
  # B: no line has it; --update adds one
  # C: no such output
  1..2
  [1]
  $ kahn_test --update networks/add.kahn; cat networks/add.values
  ok 1 - add.kahn
  # wrote networks/add.values
  ok 2 - add
  1..2
  B: 2 3 4

Too many values, none, and none wanted.
  $ echo 'B: 2 3' > networks/add.values; kahn_test networks/add.kahn | sed -n 3p; echo 'B:' > networks/add.values; kahn_test networks/add.kahn | sed -n 3p
  # B:3 is 4, wanted no more than 2 values
  # B:1 is 2, wanted no more than 0 values
  $ network none ''; echo 'B: 2' > networks/none.values; kahn_test networks/none.kahn; kahn_test --update networks/none.kahn > /dev/null; cat networks/none.values
  ok 1 - none.kahn
  not ok 2 - none
  # B:1 doesn't come: 0 values, wanted 1
  # B:1 never comes
  1..2
  B:

Values are compared as texts: two large ones.
  $ network large '9007199254740991 9007199254740992'; echo 'B: 9007199254740992 9007199254740992' > networks/large.values; kahn_test networks/large.kahn | sed -n 3p
  # B:2 is 9007199254740993, wanted 9007199254740992

Cases: with their own input, with that of the program, and a program whose name looks like one.
  $ rm -r networks; network a; network a.b 7; echo 'A: 5' > networks/a.c.input; kahn_test --update networks; kahn_test networks; head networks/*.values
  ok 1 - a.b.kahn
  # wrote networks/a.b.values
  ok 2 - a.b
  ok 3 - a.kahn
  # wrote networks/a.values
  ok 4 - a
  # wrote networks/a.c.values
  ok 5 - a.c
  1..5
  ok 1 - a.b.kahn
  ok 2 - a.b
  ok 3 - a.kahn
  ok 4 - a
  ok 5 - a.c
  1..5
  ==> networks/a.b.values <==
  B: 8
  
  ==> networks/a.c.values <==
  B: 6
  
  ==> networks/a.values <==
  B: 2 3 4
  $ printf 'B: 2 ..\n' > networks/a.d.values; kahn_test networks/a.kahn
  ok 1 - a.kahn
  ok 2 - a
  ok 3 - a.c
  ok 4 - a.d
  1..4

A program that is refused.
  $ cp examples/squares.kahn broken.kahn; cp examples/squares.values broken.values; sed -i 's/begin send/begin sent/' broken.kahn; kahn_test broken.kahn; kahn_test --update broken.kahn > /dev/null || diff broken.values examples/squares.values
  not ok 1 - broken.kahn
  # broken.kahn:3:41: error: `sent` is no keyword; did you mean `send`?
  #  3 |   begin integer I; while I < N do begin sent I on W; I := I + 1 end end;
  #    |                                         ^^^^
  #    = fix: replace `sent` with `send`
  # broken.kahn:3:46: note: expected `:=`, found `I`
  #  3 |   begin integer I; while I < N do begin sent I on W; I := I + 1 end end;
  #    |                                              ^
  not ok 2 - broken
  # broken.kahn:3:41: error: `sent` is no keyword; did you mean `send`?
  #  3 |   begin integer I; while I < N do begin sent I on W; I := I + 1 end end;
  #    |                                         ^^^^
  #    = fix: replace `sent` with `send`
  # broken.kahn:3:46: note: expected `:=`, found `I`
  #  3 |   begin integer I; while I < N do begin sent I on W; I := I + 1 end end;
  #    |                                              ^
  1..2

An input that is refused.
  $ network x '1 x'; cp networks/x.kahn networks/x.input .; echo 'B: 2' > x.values; kahn_test x.kahn | sed 's/: not a value.*/: not a value/'
  ok 1 - x.kahn
  not ok 2 - x
  # x.input:1:6: error: not a value
  #  1 | A: 1 x
  #    |      ^
  1..2

A program with a warning.
  $ cp examples/squares.* .; sed -i 's/  count(/  process unused(); begin end;\n  count(/' squares.kahn; kahn_test squares.kahn; kahn_test --lax squares.kahn
  not ok 1 - squares.kahn
  # squares.kahn:6:11: warning: process has no instance
  #  6 |   process unused(); begin end;
  #    |           ^^^^^^
  ok 2 - squares
  1..2
  ok 1 - squares.kahn
  ok 2 - squares
  1..2

Results as JUnit XML.
  $ network '<&"' 4; rm networks/[ax]*; kahn_test --update networks > /dev/null; network wrong; echo 'B: 2' > networks/wrong.values; kahn_test --junit tests.xml networks > /dev/null; cat tests.xml
  <?xml version="1.0" encoding="UTF-8"?>
  <testsuite name="kahn" tests="4" failures="1">
  <testcase classname="networks/&lt;&amp;&quot;.kahn" name="&lt;&amp;&quot;.kahn"></testcase>
  <testcase classname="networks/&lt;&amp;&quot;.kahn" name="&lt;&amp;&quot;"></testcase>
  <testcase classname="networks/wrong.kahn" name="wrong.kahn"></testcase>
  <testcase classname="networks/wrong.kahn" name="wrong"><failure>B:2 is 3, wanted no more than 1 values
  B:2 = 3 needs A: 2 of 3
  events of 1 add: 6 of 10</failure></testcase>
  </testsuite>

prove runs it on each program.
  % command -v prove > /dev/null || { echo "there is no prove"; false; }
  $ mkdir good; cp examples/squares.* examples/s[io]*.* good; prove -e kahn_test --ext .kahn good | sed 's/[0-9]* wallclock.*//'; prove -e kahn_test --ext .kahn networks 2>&1 | tail -n 1
  good/sieve.kahn .... ok
  good/sorting.kahn .. ok
  good/squares.kahn .. ok
  All tests successful.
  Files=3, Tests=6,  
  Result: PASS
  Result: FAIL
