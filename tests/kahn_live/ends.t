Lines that are fed at the end (--at-end): in order, and refused as others are.

No end mark.
  $ printf 'RAW: 7 7\nRAW: 9' | kahn_live runs.kahn
  RUNS: 2 7
An end mark.
  $ printf 'RAW: 7 7\nRAW: 9' | kahn_live runs.kahn --at-end RAW=-1
  RUNS: 2 7
  RUNS: 1 9
Several lines at the end.
  $ printf 'A: 1\n' | kahn_live examples/double.kahn --at-end A=2 --at-end 'A=3 4'
  B: 2
  B: 4
  B: 6 8
No line is taken if one of them can't be, and the first such line is reported.
  $ printf 'A: 1\n' | kahn_live examples/double.kahn --keep-going --at-end A=2 --at-end Z=1 --at-end Z=2
  ! examples/double.kahn: --at-end: no such channel: `Z`; input channels: `A`
  [6]
  $ printf 'A: 1\n' | kahn_live examples/double.kahn --keep-going --at-end A=2 --at-end B=1 --at-end Z=2
  ! examples/double.kahn: --at-end: not an input channel: `B`; input channels: `A`
  [6]
  $ printf 'A: 1\n' | kahn_live examples/double.kahn --keep-going --at-end A=2 --at-end A=true --at-end Z=2
  ! examples/double.kahn: --at-end: kind does not agree: `true`; wanted a number
  [6]
  $ printf 'A: 1\n' | kahn_live examples/double.kahn --keep-going --at-end A=2 --at-end A=1=2 --at-end Z=2
  ! examples/double.kahn: --at-end: not a value: `1=2`; values are numbers, `true` and `false`
  [6]
  $ printf 'A: 1\n' | kahn_live examples/double.kahn --keep-going --at-end A=2 --at-end A --at-end Z=2
  ! examples/double.kahn: --at-end: not a name and a colon; a colon stands behind the name
  [6]
A value at the end that is refused, before all else.
  $ yes 1 | kahn_live examples/double.kahn --plain A --at-end x
  ! examples/double.kahn: --at-end: not a value: `x`; values are numbers, `true` and `false`
  [6]
Of more channels than five the first five are named, and how many more there are.
A line of no channel among A,B,C,D,E.
  $ cat > several.kahn << END
  > begin integer input channel A,B,C,D,E; integer output channel O;
  > process first(integer in U; integer out W); begin repeat send wait(U) on W end;
  > process drain(integer in U); begin integer X; repeat X := wait(U) end;
  > first(A, O) par drain(B) par drain(C) par drain(D) par drain(E)
  > end
  > END
  $ kahn_live several.kahn --at-end ZZZ=1
  ! several.kahn: --at-end: no such channel: `ZZZ`; input channels: `A`, `B`, `C`, `D` and `E`
  [6]
A line of no input among A,B,C,D,E.
  $ kahn_live several.kahn --at-end O=1
  ! several.kahn: --at-end: not an input channel: `O`; input channels: `A`, `B`, `C`, `D` and `E`
  [6]
A line of no channel among A,B,C,D,E,F.
  $ cat > several.kahn << END
  > begin integer input channel A,B,C,D,E,F; integer output channel O;
  > process first(integer in U; integer out W); begin repeat send wait(U) on W end;
  > process drain(integer in U); begin integer X; repeat X := wait(U) end;
  > first(A, O) par drain(B) par drain(C) par drain(D) par drain(E) par drain(F)
  > end
  > END
  $ kahn_live several.kahn --at-end ZZZ=1
  ! several.kahn: --at-end: no such channel: `ZZZ`; input channels: `A`, `B`, `C`, `D` and `E`, and 1 channel more
  [6]
A line of no input among A,B,C,D,E,F.
  $ kahn_live several.kahn --at-end O=1
  ! several.kahn: --at-end: not an input channel: `O`; input channels: `A`, `B`, `C`, `D` and `E`, and 1 channel more
  [6]
A line of no channel among A,B,C,D,E,F,G.
  $ cat > several.kahn << END
  > begin integer input channel A,B,C,D,E,F,G; integer output channel O;
  > process first(integer in U; integer out W); begin repeat send wait(U) on W end;
  > process drain(integer in U); begin integer X; repeat X := wait(U) end;
  > first(A, O) par drain(B) par drain(C) par drain(D) par drain(E) par drain(F) par drain(G)
  > end
  > END
  $ kahn_live several.kahn --at-end ZZZ=1
  ! several.kahn: --at-end: no such channel: `ZZZ`; input channels: `A`, `B`, `C`, `D` and `E`, and 2 channels more
  [6]
A line of no input among A,B,C,D,E,F,G.
  $ kahn_live several.kahn --at-end O=1
  ! several.kahn: --at-end: not an input channel: `O`; input channels: `A`, `B`, `C`, `D` and `E`, and 2 channels more
  [6]
Too many values at the end shows only when they are fed.
  $ { printf 'A:' && yes ' 1' | head -n 1048576 | tr -d '\n'; } | kahn_live examples/double.kahn --step 1 --at-end 'A=1 2'
  ! examples/double.kahn: input line 1: wants more events than --step allows, and goes on with the next line
  ! examples/double.kahn: --at-end: too many values
  ! stopped by the bound: 1 process wants more events
  ! 1 double wants more, after 2 events
  ! end 1 double: wants more after 2
  ! stopped by bound 2
  [3]
