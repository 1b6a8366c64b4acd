Where a command names a place of the text, it is the place in the file that the line is from. (tests/test_build.py has 100 mistakes.)

A mistake in a library.
  $ sed 's/X := wait/X = wait/' examples/library/debounce.kahn > debounce.kahn; files[1]=debounce.kahn; kahn_build "${files[@]}" -- kahn_explain --input use.input
  debounce.kahn:6:7: error: expected `:=`, found `=`
   6 |     X = wait(U);
     |       ^
     = fix: replace `=` with `:=`
  [1]
  $ kahn_build use.kahn debounce.kahn -- kahn
  ! kahn: debounce.kahn:6:7: this cannot stand here
  [1]

In the program, before and after the first begin.
  $ sed 's/^begin/begin x/' use.kahn > wrong.kahn; kahn_build wrong.kahn $library/*.kahn -- kahn_explain
  wrong.kahn:2:7: error: unexpected `x`
   2 |       x
     |       ^
     = fix: remove `x`
  wrong.kahn:3:3: note: expected `(`, found `integer`
   3 |   integer input channel A;
     |   ^^^^^^^
  [1]
  $ sed 's/  debounce(A/  debounce(B/' use.kahn > wrong.kahn; kahn_build wrong.kahn "${files[@]:1}" -- kahn_explain
  wrong.kahn:13:12: error: name is not declared; did you mean `A`?
   13 |   debounce(B, CLEAN, 2) par median(CLEAN, PAST, SMOOTH, PAST, 3)
      |            ^
  [1]

A place within a note: in the same file, and in another one.
  $ sed 's/median of the last/median; of the last/' examples/library/median.kahn > median.kahn; kahn_build use.kahn median.kahn -- kahn_explain
  median.kahn:1:103: error: character is not of the language; numbers are whole, and no `.` stands in a name or behind the last `end`
   1 | h value of U the median; of the last N values, or of all so far at the beginning. Of an even number of values it is the
     |                                                                                 ^
     = the comment at 1:1 ends with the `;` at 1:46
  [1]
  $ printf 'process p(integer in U);\nbegin integer I, X; repeat if I = 0 then X := wait(U) else X := wait(U) end;\n' > p.kahn; echo 'begin integer input channel A; p(A) end' > a.kahn; kahn_build a.kahn p.kahn -- kahn_explain
  p.kahn:2:15: warning: name is read, and never assigned: it is always 0
   2 | begin integer I, X; repeat if I = 0 then X := wait(U) else X := wait(U) end;
     |               ^
  no deadlock and no fault
  1 p waits on A at p.kahn:2:47 or p.kahn:2:65, an input, to which nothing came: --input FILE brings values
  finished 1

An input has its own places.
  $ echo 'A: 1 x' > x.input; kahn_build "${files[@]}" -- kahn_explain --input x.input | sed 's/: not a value.*/: not a value/'
  x.input:1:6: error: not a value
   1 | A: 1 x
     |      ^

A deadlock over two libraries, and a fault.
  $ for n in 1 2; do printf '\n\n  process p%d(integer in U; integer out W);\n  begin repeat send wait(U) div 0 on W end;' $n > p$n.kahn; done; echo 'begin integer channel A, B; p1(A, B) par p2(B, A) end' > ring.kahn; kahn_build ring.kahn p1.kahn p2.kahn -- kahn_explain
  p1.kahn:4:33: warning: divisor is always 0
   4 |   begin repeat send wait(U) div 0 on W end;
     |                                 ^
  p2.kahn:4:33: warning: divisor is always 0
   4 |   begin repeat send wait(U) div 0 on W end;
     |                                 ^
  deadlock: 1 p1 and 2 p2 wait on one another
  p1.kahn:4:21: error: 1 p1 waits on A from 2 p2, in a deadlock: for ever
   4 |   begin repeat send wait(U) div 0 on W end;
     |                     ^^^^^^^
     = this ring wants a first value (let one of its processes send before it waits), or one of them takes more than another sends: kahn_explain --trace shows what came
  p2.kahn:4:21: error: 2 p2 waits on B from 1 p1, in a deadlock: for ever
   4 |   begin repeat send wait(U) div 0 on W end;
     |                     ^^^^^^^
  finished 2
  [7]
  $ echo 'begin integer input channel A; integer channel B; integer output channel C; p1(A, B) par p2(B, C) end' > fault.kahn; kahn_build fault.kahn p1.kahn p2.kahn -- kahn_explain --input use.input
  p1.kahn:4:33: warning: divisor is always 0
   4 |   begin repeat send wait(U) div 0 on W end;
     |                                 ^
  p2.kahn:4:33: warning: divisor is always 0
   4 |   begin repeat send wait(U) div 0 on W end;
     |                                 ^
  1 process has a fault
  14 of the 15 values of A were never taken
  p1.kahn:4:33: error: 1 p1 has a fault, division
   4 |   begin repeat send wait(U) div 0 on W end;
     |                                 ^
     = 2 p2 waits because of it: for ever
  finished 3
  [8]
  $ kahn_build fault.kahn p1.kahn p2.kahn -- kahn_draw | grep -o 'tooltip="[^"]*"'; echo 1 | kahn_build fault.kahn p1.kahn p2.kahn -- kahn_live --plain A --strict
  tooltip="p1 at fault.kahn:1:77"
  tooltip="p2 at fault.kahn:1:90"
  ! fault.kahn: input line 1: 1 p1 has a fault: division
  ! 1 process has a fault
  ! p1.kahn:4:33: error: 1 p1 has a fault, division
  !  4 |   begin repeat send wait(U) div 0 on W end;
  !    |                                 ^
  !    = 2 p2 waits because of it: for ever
  ! end 1 p1: fault division after 2
  ! end 2 p2: waits on B after 1
  ! finished 3
  [8]

The program's name where there is no line.
  $ echo x | kahn_build fault.kahn p1.kahn p2.kahn -- kahn_live --plain A
  ! fault.kahn: input line 1: not a value: `x`; values are numbers, `true` and `false`
  ! end 1 p1: waits on A after 1
  ! end 2 p2: waits on B after 1
  ! finished 2
  [1]
