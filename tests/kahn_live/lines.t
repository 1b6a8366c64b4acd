Lines of standard input that kahn_live takes and refuses.

A step that two lines use up.
  $ printf 'A: 1\nA: 2\n' | kahn_live examples/double.kahn --step 1
  B: 2
  ! examples/double.kahn: input line 1: wants more events than --step allows, and goes on with the next line
  ! stopped by the bound: 1 process wants more events
  ! 1 double wants more, after 3 events
  ! end 1 double: wants more after 3
  ! stopped by bound 3
  [3]
A name in the other letter case.
  $ printf 'a: 1\n' | kahn_live examples/double.kahn
  ! examples/double.kahn: input line 1: no such channel: `a`; did you mean `A`?
  ! end 1 double: waits on A after 1
  ! finished 1
  [1]
A program without input goes on by itself, and takes no line.
  $ kahn_live examples/count.kahn --step 3
  W: 0
  W: 1 2
A source ends when its reader goes.
  $ timeout 200 kahn_live numbers.kahn --step 1000 | head -n 1 | cut -c 1-6; echo ${PIPESTATUS[0]}
  W: 0 1
  0
The same, values alone.
  $ timeout 200 kahn_live numbers.kahn --step 1000 --plain ,W | head -n 2; echo ${PIPESTATUS[0]}
  0
  1
  0
A program without input.
  $ kahn_live examples/count.kahn
  W: 0 1 2
A print stream.
  $ printf 'A: 1\nA: 2 3' | kahn_live add.kahn
  print 1 add: 1
  print 1 add: 3 6
A line that isn't UTF-8.
  $ printf 'A: 1\200\nA: 7\n' | kahn_live examples/double.kahn
  B: 14
  ! examples/double.kahn: input line 1: not UTF-8
  ! end 1 double: waits on A after 4
  ! finished 4
  [1]
A line that is too long.
  $ { printf 'A: 1' && head -c 16777213 /dev/zero | tr '\0' ' ' && printf '\nA: 7\n'; } | kahn_live examples/double.kahn
  B: 14
  ! examples/double.kahn: input line 1: line is too long
  ! end 1 double: waits on A after 4
  ! finished 4
  [1]
The longest line.
  $ { printf 'A: 1' && head -c 16777212 /dev/zero | tr '\0' ' ' && printf '\nA: 7\n'; } | kahn_live examples/double.kahn
  B: 2
  B: 14
A refused line.
  $ printf 'A: 1\nA: x\nA: 3\n' | kahn_live examples/double.kahn
  B: 2
  B: 6
  ! examples/double.kahn: input line 2: not a value: `x`; values are numbers, `true` and `false`
  ! end 1 double: waits on A after 7
  ! finished 7
  [1]
A refused line that is passed over.
  $ printf 'A: 1\nA: x\nA: 3\n' | kahn_live examples/double.kahn --keep-going
  B: 2
  B: 6
  ! examples/double.kahn: input line 2: not a value: `x`; values are numbers, `true` and `false`
A refused line, and a step used up.
  $ printf 'A: 1 2 3\nno line\n' | kahn_live examples/double.kahn --step 3
  B: 2
  ! examples/double.kahn: input line 1: wants more events than --step allows, and goes on with the next line
  ! examples/double.kahn: input line 2: not a name and a colon: `line`; a colon stands behind the name
  ! stopped by the bound: 1 process wants more events
  ! 1 double wants more, after 4 events
  ! end 1 double: wants more after 4
  ! stopped by bound 4
  [3]
A byte order mark.
  $ printf '\357\273\277A: 1\r\n\357\273\277A: 2\r\n' | kahn_live examples/double.kahn
  B: 2
  ! examples/double.kahn: input line 2: not a name and a colon: `..`; in it stands a byte order mark (EF BB BF)
  ! end 1 double: waits on A after 4
  ! finished 4
  [1]
What is shown of a word: no control or format character, 40 bytes and the rest of a character, and what is wanted.
  $ printf 'A: 21.5\n' | kahn_live examples/double.kahn 2>&1 > /dev/null | sed -n 's/.*not a value: //p'
  `21.5`; numbers are whole: count tenths or hundredths, as 185 for 18.5
  $ printf 'A: \033[31m\n' | kahn_live examples/double.kahn 2>&1 > /dev/null | sed -n 's/.*not a value: //p'
  `..`; blanks stand between values, and no commas, brackets or quotation marks
  $ printf 'A: 1\177\n' | kahn_live examples/double.kahn 2>&1 > /dev/null | sed -n 's/.*not a value: //p'
  `1..`; values are numbers, `true` and `false`
  $ printf 'A: \302\2331\n' | kahn_live examples/double.kahn 2>&1 > /dev/null | sed -n 's/.*not a value: //p'
  `..`; in it stands a character that isn't of ASCII
  $ printf 'A: 1234567890123456789012345678901234567890\n' | kahn_live examples/double.kahn 2>&1 > /dev/null | sed -n 's/.*not a value: //p'
  `1234567890123456789012345678901234567890`; it is past 64 bits
  $ printf 'A: 12345678901234567890123456789012345678901\n' | kahn_live examples/double.kahn 2>&1 > /dev/null | sed -n 's/.*not a value: //p'
  `1234567890123456789012345678901234567890..`; it is past 64 bits
  $ printf 'A: 123456789012345678901234567890123456789\303\251x\n' | kahn_live examples/double.kahn 2>&1 > /dev/null | sed -n 's/.*not a value: //p'
  `123456789012345678901234567890123456789é..`; in it stands a character that isn't of ASCII
  $ printf 'A: 1\342\200\2562\n' | kahn_live examples/double.kahn 2>&1 > /dev/null | sed -n 's/.*not a value: //p'
  `1..`; in it stands a character that isn't of ASCII
  $ printf 'A: \342\200\2131\n' | kahn_live examples/double.kahn 2>&1 > /dev/null | sed -n 's/.*not a value: //p'
  `..`; in it stands a character that isn't of ASCII
  $ printf 'A: 1\302\260\n' | kahn_live examples/double.kahn 2>&1 > /dev/null | sed -n 's/.*not a value: //p'
  `1°`; in it stands a character that isn't of ASCII
Bare numbers.
  $ printf '1\n2\n3\n4\n' | kahn_live examples/double.kahn
  ! examples/double.kahn: input line 1: not a name and a colon: `1`; a line begins with the name of a channel
  ! examples/double.kahn: bare numbers are taken with --plain A
  ! examples/double.kahn: and 3 lines more like it
  ! end 1 double: waits on A after 1
  ! finished 1
  [1]
Lines that are refused for several reasons.
  $ printf 'HEAT\n1\nA: 1\n2\n3\nA: x\nA: y\n' | kahn_live examples/double.kahn
  B: 2
  ! examples/double.kahn: input line 1: not a name and a colon; a colon stands behind the name
  ! examples/double.kahn: input line 2: not a name and a colon: `1`; a line begins with the name of a channel
  ! examples/double.kahn: bare numbers are taken with --plain A
  ! examples/double.kahn: input line 4: not a name and a colon: `2`; a line begins with the name of a channel
  ! examples/double.kahn: and 1 line more like it
  ! examples/double.kahn: input line 6: not a value: `x`; values are numbers, `true` and `false`
  ! examples/double.kahn: and 1 line more like it
  ! end 1 double: waits on A after 4
  ! finished 4
  [1]
Two programs in one pipe.
  $ printf 'A: 1\nA: 2\n' | kahn_live examples/double.kahn | grep --line-buffered '^B' | sed -u 's/^B/A/' | kahn_live examples/double.kahn
  B: 4
  B: 8
Where no process waits on an input any more no line is read.
  $ echo 'begin integer input channel A; integer output channel W; process one(integer in U; integer out V); begin send wait(U) on V end; one(A, W) end' > one
  $ yes 'A: 1' | timeout 200 kahn_live one; echo ${PIPESTATUS[1]}
  W: 1
  0
