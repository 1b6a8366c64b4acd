Rows, by --in with several names: one value for each channel.

Blanks, tabs and commas between, and the lines of Windows.
  $ cat > sums.kahn << END
  > begin integer input channel A, B; logical input channel C; integer output channel X;
  > process add(integer in U, V; integer out W);
  > begin repeat send wait(U) + wait(V) on W end;
  > process drain(logical in U); begin logical L; repeat L := wait(U) end;
  > add(A, B, X) par drain(C)
  > end
  > END
  $ printf '1,10\n2 20\n3\t30\n  4 , 40 \r\n' | kahn_live sums.kahn --in A,B --out X
  11
  22
  33
  44
The names in another order, and a blank among them; the last row has no line feed.
  $ printf '1,10,true\n2,20,FALSE' | kahn_live sums.kahn --in 'B, A,C' --out X
  11
  22
A row that isn't whole, or has more, feeds nothing; nor does one of which one value can't be taken.
  $ printf '1,10\n2\n3,30,300\n4,x\ny,5\n6,60\n' | kahn_live sums.kahn --in A,B --out X
  11
  66
  ! sums.kahn: input line 2: not one value for each channel
  ! sums.kahn: and 1 line more like it
  ! sums.kahn: input line 4: not a value: `x`; values are numbers, `true` and `false`
  ! sums.kahn: and 1 line more like it
  ! end 1 add: waits on A after 9
  ! end 2 drain: waits on C after 1
  ! finished 10
  [1]
A kind that doesn't agree.
  $ printf '1,10,1\n' | kahn_live sums.kahn --in A,B,C --out X --keep-going
  ! sums.kahn: input line 1: kind does not agree: `1`; wanted `true` or `false`
A blank row feeds nothing.
  $ printf '1,2\n\n , \n3,4\n' | kahn_live sums.kahn --in A,B
  3
  7
No such channel, one that is no input, and no name at all: before the first row is read.
  $ yes 1,2 | kahn_live sums.kahn --in A,Z
  ! sums.kahn: --plain: no such channel: `Z`; input channels: `A`, `B` and `C`
  ! sums.kahn: bare numbers are taken with --plain A
  [6]
  $ yes 1,2 | kahn_live sums.kahn --in X,A
  ! sums.kahn: --plain: not an input channel: `X`; input channels: `A`, `B` and `C`
  ! sums.kahn: bare numbers are taken with --plain A
  [6]
  $ yes 1,2 | kahn_live sums.kahn --in ,
  ! sums.kahn: --plain: not one value for each channel
  ! sums.kahn: bare numbers are taken with --plain A
  [6]
Values at the end, by their names.
  $ printf '1,2\n' | kahn_live sums.kahn --in A,B --at-end A=3 --at-end B=4
  3
  7
A byte order mark before the first row.
  $ printf '\357\273\2771,2\n' | kahn_live sums.kahn --in A,B
  3
The same channel twice: two of its values in each row.
  $ printf '1,2\n3,4\n' | kahn_live add.kahn --in A,A
  1
  3
  6
  10
Rows of output, by --out with several names: each goes out once all its values are there, the streams in any order.
  $ cat > both.kahn << END
  > begin integer input channel A, B; integer output channel X, Y; logical output channel Z; integer channel S;
  > process twice(integer in U; integer out W); begin repeat send 2 * wait(U) on W end;
  > process odd(integer in U; integer out S; logical out W);
  > begin integer N; repeat begin N := wait(U); send N on S; send N mod 2 = 1 on W end end;
  > odd(A, S, Z) par twice(S, X) par twice(B, Y)
  > end
  > END
  $ printf '1,10\n-2,20\n' | kahn_live both.kahn --in A,B --out X,Z,Y
  2,true,20
  -4,false,40
  $ printf 'A: 1 2 3\nB: 10\nB: 20 30\nA: 4\nB: 40 50\n' | kahn_live both.kahn --plain ,Y,X
  20,2
  40,4
  60,6
  80,8
  ! both.kahn: values are left without the others of their row
An inner channel as the first, an input, and the same one twice; a blank behind a comma.
  $ printf 'A: 1 2\n' | kahn_live both.kahn --out 'S, X'
  1,2
  2,4
  $ printf '1\n2\n' | kahn_live both.kahn --plain A,A,X,X
  1,2,2
  2,4,4
  ! both.kahn: --plain feeds A alone; no line feeds B
Values without their row are left, and those of a run that is stopped short come later.
  $ printf 'A: 1\nB: 10 20\nB 30\nB 40\n' | kahn_live both.kahn --out X,Y --keep-going
  2,20
  ! both.kahn: input line 3: not a name and a colon: `30`; a colon stands behind the name
  ! both.kahn: and 1 line more like it
  ! both.kahn: values are left without the others of their row
  $ printf 'A: 1 2 3\nB: 10 20 30\n\n\n\n\n\n\n\n' | kahn_live both.kahn --out X,Y --step 4
  2,20
  4,40
  6,60
  ! both.kahn: input line 1: wants more events than --step allows, and goes on with the next line
No stream of one of them, and no name.
  $ yes 1 | kahn_live both.kahn --in A --out X,Q
  ! both.kahn: --plain: no such channel: `X,Q`; channels: `A`, `B`, `X`, `Y` and `Z`, and 1 channel more
  [6]
  $ yes 1 | kahn_live both.kahn --in A --out X,S
  ! both.kahn: --plain: no such channel: `X,S`; channels: `A`, `B`, `X`, `Y` and `Z`, and 1 channel more
  [6]
  $ yes 1 | kahn_live both.kahn --in A --out ,
  ! both.kahn: --plain: no such channel: `,`; channels: `A`, `B`, `X`, `Y` and `Z`, and 1 channel more
  [6]
