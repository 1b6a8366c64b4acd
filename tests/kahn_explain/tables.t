Tables of all that the channels carried (--trace).

A table of one channel.
  $ kahn_explain examples/count.kahn --trace
  place,W
  1,0
  2,1
  3,2
A table of the sample network, stopped.
  $ kahn_explain examples/sample.kahn --bound 60 --workers 1 --quantum 10 --trace
  place,X,Y,Z,T1,T2,print 1 f
  1,0,0,1,0,1,0
  2,1,0,1,0,1,1
  3,0,0,1,0,1,0
  4,1,,,,,1
  5,0,,,,,0
  6,1,,,,,1
  ! stopped by the bound: 2 processes want more events
  ! 3 h wants more, after 8 events
  !   = 1 f and 2 g wait because of it
  ! 4 h wants more, after 8 events
  ! --bound N with a greater N lets the run go on
  ! stopped by bound 60
  [3]
A table beside a ring.
  $ ln -s "$TOP/crates/kahn_explain/data/ring.kahn" ring.kahn; kahn_explain ring.kahn --trace
  place,A,B,C,RES,TICK,LOG
  1,,,,,0,
  2,,,,,1,
  3,,,,,2,
  4,,,,,3,
  5,,,,,4,
  ! deadlock: 1 stage, 2 stage and 3 tap wait on one another
  ! 4 of the 5 values of TICK were never taken
  ! ring.kahn:7:17: error: 1 stage waits on A from 3 tap, in a deadlock: for ever
  !  7 |     repeat send wait(U) + 1 on W
  !    |                 ^^^^^^^
  !    = this ring wants a first value (let one of its processes send before it waits), or one of them takes more than another sends: kahn_explain --trace shows what came
  !    = 5 sink waits because of it: for ever
  ! ring.kahn:7:17: error: 2 stage waits on B from 1 stage, in a deadlock: for ever
  !  7 |     repeat send wait(U) + 1 on W
  !    |                 ^^^^^^^
  ! ring.kahn:12:23: error: 3 tap waits on C from 2 stage, in a deadlock: for ever
  !  12 |     repeat begin I := wait(U); send I on T; send I on W end
  !     |                       ^^^^^^^
  ! finished 16
  [7]
A table of logical values and prints.
  $ kahn_explain marked.kahn --input <(printf 'A: 3 4 -5\nNONE: true FALSE\n') --trace
  place,A,ODD,B,NONE,LAST,print 1 mark,print 2 tell
  1,3,true,3,true,true,true,0
  2,4,false,4,false,false,false,
  3,-5,false,-5,,,false,
A table of a process that reads a channel that it writes.
  $ kahn_explain examples/alarm.kahn --input examples/alarm.input --trace | head -n 3
  place,TIME,HEAT,PAST,MEANS,HOT,COOL
  1,10,213,213,213,14,18
  2,11,219,219,216,,
A table without a value.
  $ kahn_explain fault.kahn --bound 0 --trace
  place,A,B,W
  ! stopped by the bound: 3 processes want more events
  ! 1 copy wants more, after 0 events
  ! 2 divide wants more, after 0 events
  ! 3 count wants more, after 0 events
  ! --bound N with a greater N lets the run go on
  ! stopped by bound 0
  [3]
A table without a column.
  $ kahn_explain none.kahn --trace
  place
A table of a text that is refused.
  $ cp "$TOP/tests/mistakes/a-sign-for-becomes.kahn" .; kahn_explain a-sign-for-becomes.kahn --trace
  ! a-sign-for-becomes.kahn:8:9: error: expected `:=`, found `=`
  !  8 |       I = wait(U);
  !    |         ^
  !    = fix: replace `=` with `:=`
  [1]
A table with an input that is refused.
  $ echo 'W: 1' > values; kahn_explain examples/count.kahn --input values --trace
  ! values:1:1: error: not an input channel; there is no input channel
  !  1 | W: 1
  !    | ^
  [1]
A reader that goes.
  $ echo "A: $(seq -s ' ' 200000)" > many
  $ { kahn_explain input.kahn --input many --trace; echo $? > status; } | head -n 1; cat status
  place,A,B,W
  5
A table on a full disk.
  $ kahn_explain marked.kahn --trace > /dev/full
  ! kahn_explain: report could not be written
  [5]
