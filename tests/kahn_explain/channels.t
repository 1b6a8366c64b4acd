How many values each channel carried (--channels).

A table of one channel.
  $ kahn_explain examples/count.kahn --channels
  channel,from,to,sent,taken,left
  W,1 count,,3,0,3
A table of three rates.
  $ kahn_explain examples/rates.kahn --input examples/rates.input --channels
  channel,from,to,sent,taken,left
  SIGNAL,,1 low_pass,13,13,0
  LOW,1 low_pass,2 take_first,13,13,0
  HALF,2 take_first,3 resample,7,7,0
  RESAMPLED,3 resample,,9,0,9
The same with other words.
  $ kahn_explain examples/rates.kahn --input examples/rates.input --channels --quantum 1 --workers 16 | tail -n 1
  RESAMPLED,3 resample,,9,0,9
Values that nobody took.
  $ echo 'begin integer input channel A; integer output channel B; process q(integer in U; integer out W);' > five
  $ echo 'begin integer I; while I < 5 do begin send wait(U) on W; I := I + 1 end end; q(A, B) end' >> five
  $ kahn_explain five --input <(echo 'A: 1 2 3 4 5 6 7 8') --channels
  channel,from,to,sent,taken,left
  A,,1 q,8,5,3
  B,1 q,,5,0,5
What is told of them without a table.
  $ kahn_explain five --input <(echo 'A: 1 2 3 4 5 6 7 8')
  no deadlock and no fault
  3 of the 8 values of A were never taken
  finished 16
  $ kahn_explain five --input <(echo 'A: 1 2 3 4 5 6') | head -n 2
  no deadlock and no fault
  1 of the 6 values of A was never taken
  $ kahn_explain five --input <(echo 'A: 1 2 3 4 5') | head -n 2
  no deadlock and no fault
  finished 16
One value, and the first of two channels.
  $ echo 'begin integer input channel A, B; process q(integer in U, V); begin end; q(A, B) end' > two
  $ kahn_explain two --input <(echo 'B: 7') | grep 'never taken'
  the value of B was never taken
  $ kahn_explain two --input <(printf 'A: 1\nB: 7\n') | grep 'never taken'
  the value of A was never taken
  $ kahn_explain two --input <(printf 'A: 1\nB: 7 8\n') | grep 'B was taken'
  none of the 2 values of B was taken
After want of memory, who lets values lie.
  $ {
  >   echo 'begin integer input channel A; integer channel C; integer output channel B; process fast(integer out W);'
  >   echo 'begin integer I; repeat begin I := I + 1; send I on W end end; process slow(integer in U, V; integer out W);'
  >   echo 'begin repeat send wait(V) + wait(U) on W end; fast(C) par slow(C, A, B) end'
  > } > slow
  $ (ulimit -v 20000; kahn_explain slow --bound 100000000 | sed -n '1p; 2s/[0-9][0-9]*/N/p')
  stopped for want of memory: 1 process wants more events
  C holds N values that 2 slow hasn't taken
Not of a run that goes on.
  $ kahn_explain five --input <(echo 'A: 1 2 3 4 5 6 7 8') --bound 3 | head -n 2
  stopped by the bound: 1 process wants more events
  1 q wants more, after 3 events
A table beside a ring.
  $ ln -s "$TOP/crates/kahn_explain/data/ring.kahn" ring.kahn; kahn_explain ring.kahn --channels 2> why
  channel,from,to,sent,taken,left
  A,3 tap,1 stage,0,0,0
  B,1 stage,2 stage,0,0,0
  C,2 stage,3 tap,0,0,0
  RES,3 tap,5 sink,0,0,0
  TICK,4 gen,5 sink,5,1,4
  LOG,5 sink,,0,0,0
  [7]
  $ head -n 1 why
  deadlock: 1 stage, 2 stage and 3 tap wait on one another
A table of no event.
  $ kahn_explain fault.kahn --bound 0 --channels 2> why
  channel,from,to,sent,taken,left
  A,3 count,2 divide,0,0,0
  B,2 divide,1 copy,0,0,0
  W,1 copy,,0,0,0
  [3]
A table without a row.
  $ kahn_explain none.kahn --channels
  channel,from,to,sent,taken,left
Texts that are refused.
  $ ln -s "$TOP/tests/mistakes/a-sign-for-becomes.kahn" bad.kahn; kahn_explain bad.kahn --channels 2>&1 > table | head -n 1; cat table
  bad.kahn:8:9: error: expected `:=`, found `=`
