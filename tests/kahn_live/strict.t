Runs that no line can change any more, and statuses of rings and faults (--strict).

A ring of waits, values alone.
  $ yes 100 | kahn_live control.kahn --plain SET
  ! deadlock: 1 err, 2 ctl and 3 plant wait on one another
  ! control.kahn:2:76: error: 1 err waits on Y from 3 plant, in a deadlock: for ever
  !  2 |   process err(integer in R, Y; integer out E); begin repeat send wait(R) - wait(Y) on E end;
  !    |                                                                            ^^^^^^^
  !    = this ring wants a first value (let one of its processes send before it waits), or one of them takes more than another sends: kahn_explain --trace shows what came
  ! control.kahn:3:63: error: 2 ctl waits on E from 1 err, in a deadlock: for ever
  !  3 |   process ctl(integer in E; integer out U); begin repeat send wait(E) div 2 on U end;
  !    |                                                               ^^^^^^^
  ! control.kahn:5:42: error: 3 plant waits on U from 2 ctl, in a deadlock: for ever
  !  5 |   begin integer S; repeat begin S := S + wait(U); send S on Y; send S on O end end;
  !    |                                          ^^^^^^^
  ! end 1 err: waits on Y after 2
  ! end 2 ctl: waits on E after 1
  ! end 3 plant: waits on U after 1
  ! finished 4
The same of lines with names, and strictly: the status alone differs.
  $ said() { yes "$1" | kahn_live control.kahn "${@:2}" 2>&1; echo status $?; }; said 100 --plain SET > told
  > said 'SET: 100' | diff - told; for it in '100 --plain SET' SET:100; do said $it --strict | diff -U0 told - | grep '^[-+][^-+]'; done
  -status 0
  +status 7
  -status 0
  +status 7
A ring beside what waits on an input is told when it comes up.
  $ printf '1\n2\n' | kahn_live beside.kahn --plain A
  1
  3
  ! beside.kahn: input line 0: deadlock: 1 copy and 2 copy wait on one another
  ! deadlock: 1 copy and 2 copy wait on one another
  ! beside.kahn:2:64: error: 1 copy waits on X from 2 copy, in a deadlock: for ever
  !  2 |   process copy(integer in U; integer out W); begin repeat send wait(U) on W end;
  !    |                                                                ^^^^^^^
  !    = this ring wants a first value (let one of its processes send before it waits), or one of them takes more than another sends: kahn_explain --trace shows what came
  ! beside.kahn:2:64: error: 2 copy waits on Y from 1 copy, in a deadlock: for ever
  !  2 |   process copy(integer in U; integer out W); begin repeat send wait(U) on W end;
  !    |                                                                ^^^^^^^
  ! 3 sum waits on A at 3:84, an input
  !   = 4 copy waits because of it
  ! end 1 copy: waits on X after 1
  ! end 2 copy: waits on Y after 1
  ! end 3 sum: waits on A after 7
  ! end 4 copy: waits on Z after 7
  ! finished 16
A ring that comes up later is told behind what was new, once.
  $ printf 'C: 5\nA: 1 2\nC: 6\nA: 3\nC: 7\n' | kahn_live later.kahn 2>&1 | head -n 5
  B: 5
  later.kahn: input line 2: deadlock: 1 join and 2 copy wait on one another
  B: 6
  B: 7
  deadlock: 1 join and 2 copy wait on one another
The same, strictly.
  $ said() { printf '1\n2\n' | kahn_live beside.kahn --plain A "$@" 2>&1; echo status $?; }; diff -U0 <(said) <(said --strict) | grep '^[-+][^-+]'
  -status 0
  +status 7
A fault before a ring, strictly.
  $ printf '9223372036854775807\n1\n' | kahn_live beside.kahn --plain A --strict
  9223372036854775807
  ! beside.kahn: input line 0: deadlock: 1 copy and 2 copy wait on one another
  ! beside.kahn: input line 2: 3 sum has a fault: overflow
  ! 1 process has a fault; deadlock: 1 copy and 2 copy wait on one another
  ! beside.kahn:2:64: error: 1 copy waits on X from 2 copy, in a deadlock: for ever
  !  2 |   process copy(integer in U; integer out W); begin repeat send wait(U) on W end;
  !    |                                                                ^^^^^^^
  !    = this ring wants a first value (let one of its processes send before it waits), or one of them takes more than another sends: kahn_explain --trace shows what came
  ! beside.kahn:2:64: error: 2 copy waits on Y from 1 copy, in a deadlock: for ever
  !  2 |   process copy(integer in U; integer out W); begin repeat send wait(U) on W end;
  !    |                                                                ^^^^^^^
  ! beside.kahn:3:84: error: 3 sum has a fault, overflow
  !  3 | rocess sum(integer in U; integer out W); begin integer S; repeat begin S := S + wait(U); send S on W end end;
  !    |                                                                                 ^^^^^^^
  !    = 4 copy waits because of it: for ever
  ! end 1 copy: waits on X after 1
  ! end 2 copy: waits on Y after 1
  ! end 3 sum: fault overflow after 5
  ! end 4 copy: waits on Z after 4
  ! finished 11
  [8]
Nothing amiss, strictly.
  $ printf '1\n' | kahn_live examples/double.kahn --plain A --strict
  2
What waits on one that has ended, strictly.
  $ printf '7 7 9\n' | kahn_live piped.kahn --plain RAW --at-end -1 --strict
  2
  7
  1
  9
A refused line, strictly.
  $ printf '1\nx\n' | kahn_live examples/double.kahn --plain A --strict
  2
  ! examples/double.kahn: input line 2: not a value: `x`; values are numbers, `true` and `false`
  ! end 1 double: waits on A after 4
  ! finished 4
  [1]
