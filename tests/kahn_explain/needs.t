What values need (--needs), and which are the first that need one (--wakes).

A value in three rates: the latency of a filter, a decimator and a resampler.
  $ kahn_explain examples/rates.kahn --input examples/rates.input --needs RESAMPLED:4
  RESAMPLED:4 = 83 needs SIGNAL: 7 of 13, LOW: 7 of 13, HALF: 4 of 7
  events of 1 low_pass: 21 of 40, 2 take_first: 18 of 34, 3 resample: 17 of 37
All values of the output.
  $ kahn_explain examples/rates.kahn --input examples/rates.input --needs RESAMPLED
  place,value,SIGNAL,LOW,HALF,RESAMPLED,1 low_pass,2 take_first,3 resample
  1,0,3,3,2,0,9,8,5
  2,20,3,3,2,0,9,8,7
  3,47,5,5,3,0,15,13,12
  4,83,7,7,4,0,21,18,17
  5,87,7,7,4,0,21,18,19
  6,80,9,9,5,0,27,23,24
  7,60,11,11,6,0,33,28,29
  8,5,11,11,6,0,33,28,31
  9,-43,13,13,7,0,39,33,36
A place after the last.
  $ kahn_explain examples/rates.kahn --input examples/rates.input --needs RESAMPLED:10
  RESAMPLED:10 never comes
A value of a channel between processes.
  $ kahn_explain examples/rates.kahn --input examples/rates.input --needs HALF:1
  HALF:1 = 0 needs SIGNAL: 1 of 13, LOW: 1 of 13
  events of 1 low_pass: 3 of 40, 2 take_first: 3 of 34
A value that needs no input, of a process alone.
  $ kahn_explain examples/count.kahn --needs W:2
  W:2 = 1 needs no values
  events of 1 count: 4 of 7
A network that goes on for ever has no whole run.
  $ kahn_explain examples/hamming.kahn --bound 100 --needs HAMMING:3
  HAMMING:3 = 3 needs ALL: 3, FOR_2: 2, FOR_3: 1, FOR_5: 1, TWICE: 2, THRICE: 1, FIVE_TIMES: 1, BY_2_OR_3: 2, LATER: 2
  events of 1 put_before: 7, 2 share: 15, 3 multiply: 6, 4 multiply: 3, 5 multiply: 3, 6 merge: 7, 7 merge: 7
A value of a print stream.
  $ kahn_explain examples/sample.kahn --bound 1000 --needs 1:2
  1 f:2 = 1 needs Y: 1, Z: 1
  events of 1 f: 7, 3 h: 1, 4 h: 1
A value in a ring of waits.
  $ kahn_explain "$TOP/crates/kahn_explain/data/ring.kahn" --needs RES:1
  RES:1 never comes: processes that it waits for wait on one another
A table of a line without values.
  $ kahn_explain "$TOP/crates/kahn_explain/data/ring.kahn" --needs RES
  place,value,A,B,C,RES,TICK,LOG,1 stage,2 stage,3 tap,4 gen,5 sink
A bound that is too small.
  $ kahn_explain examples/rates.kahn --input examples/rates.input --bound 20 --needs RESAMPLED:4
  RESAMPLED:4 doesn't come within the bound
  [3]
A table up to the bound.
  $ kahn_explain examples/rates.kahn --input examples/rates.input --bound 30 --needs RESAMPLED
  place,value,SIGNAL,LOW,HALF,RESAMPLED,1 low_pass,2 take_first,3 resample
  1,0,3,3,2,0,9,8,5
  2,20,3,3,2,0,9,8,7
  [3]
Names that aren't there.
  $ kahn_explain examples/rates.kahn --input examples/rates.input --needs RESAMPLE:4
  ! kahn_explain: --needs RESAMPLE:4: no such channel; did you mean `RESAMPLED`?
  [1]
  $ kahn_explain examples/rates.kahn --input examples/rates.input --needs 4:1
  ! kahn_explain: --needs 4:1: no such channel; channels: `SIGNAL`, `LOW`, `HALF` and `RESAMPLED`
  [1]
An input.
  $ kahn_explain examples/rates.kahn --input examples/rates.input --needs SIGNAL:4
  ! kahn_explain: --needs SIGNAL:4: an input needs nothing else
  [1]
No place.
  $ kahn_explain examples/rates.kahn --input examples/rates.input --needs RESAMPLED:0
  ! kahn_explain: --needs RESAMPLED:0: places are counted from 1
  [1]

The first value that needs one of an input, in three rates.
  $ kahn_explain examples/rates.kahn --input examples/rates.input --wakes SIGNAL:5
  RESAMPLED:3 = 47 needs SIGNAL: 5 of 13, LOW: 5 of 13, HALF: 3 of 7
  events of 1 low_pass: 15 of 40, 2 take_first: 13 of 34, 3 resample: 12 of 37
The first value of the input.
  $ kahn_explain examples/rates.kahn --input examples/rates.input --wakes SIGNAL
  RESAMPLED:1 = 0 needs SIGNAL: 3 of 13, LOW: 3 of 13, HALF: 2 of 7
  events of 1 low_pass: 9 of 40, 2 take_first: 8 of 34, 3 resample: 5 of 37
A value that isn't there.
  $ kahn_explain examples/rates.kahn --input examples/rates.input --wakes SIGNAL:14
  RESAMPLED: no value needs it
Outputs and prints.
  $ kahn_explain marked.kahn --input <(echo 'A: 3 4 -5') --wakes A:2
  B:2 = 4 needs A: 2 of 3
  events of 1 mark: 10 of 16
  LAST: no value needs it
  1 mark:2 = false needs A: 2 of 3
  events of 1 mark: 8 of 16
  2 tell: no value needs it
A bound that is too small.
  $ kahn_explain examples/rates.kahn --input examples/rates.input --bound 30 --wakes SIGNAL:5
  RESAMPLED: no value needs it within the bound
  [3]
A name that isn't there, and one that isn't an input.
  $ kahn_explain examples/rates.kahn --input examples/rates.input --wakes SIGNA:5
  ! kahn_explain: --wakes SIGNA:5: no such channel; did you mean `SIGNAL`?
  [1]
  $ kahn_explain examples/rates.kahn --input examples/rates.input --wakes LOW:5
  ! kahn_explain: --wakes LOW:5: not an input channel
  [1]
