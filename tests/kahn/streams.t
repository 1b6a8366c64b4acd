Files, streams and arguments of kahn. (Want of memory for arguments is in tests/test_streams.py.)

A program on standard input.
  $ kahn < examples/count.kahn
  W: 0 1 2
  end 1 count: ended after 7
  finished 7
A program in a file.
  $ kahn examples/count.kahn
  W: 0 1 2
  end 1 count: ended after 7
  finished 7
A run that its bound stops.
  $ kahn examples/count.kahn --bound 6
  W: 0 1 2
  end 1 count: wants more after 6
  stopped by bound 6
  [3]
All options.
  $ kahn --workers=16 --quantum 1 examples/double.kahn --bound 281474976710655 --watch=A --input examples/double.input
  A: 1 2 3
  B: 2 4 6
  end 1 double: waits on A after 10
  finished 10
The version is that of the newest changes.
  $ for name in kahn kahn_live kahn_draw kahn_explain; do
  >   diff <($name --version) <(sed -n "s/^## \([0-9.]*\)$/$name \1/p" "$TOP/CHANGELOG.md" | head -n 1)
  > done

Standard input that isn't UTF-8.
  $ printf 'begin \377' > bytes; kahn < bytes
  ! kahn: standard input is not UTF-8
  [5]
A program that isn't UTF-8.
  $ kahn bytes
  ! kahn: bytes is not UTF-8
  [5]
An input that isn't UTF-8.
  $ printf 'A: 1\200\n' > input; kahn examples/double.kahn --input input
  ! kahn: input is not UTF-8
  [5]

A program that isn't there.
  $ kahn nothing
  ! kahn: cannot read nothing
  [5]
An input that isn't there.
  $ kahn examples/double.kahn --input nothing
  ! kahn: cannot read nothing
  [5]
The program is read before the input.
  $ kahn nothing --input bytes
  ! kahn: cannot read nothing
  [5]
A folder as the program.
  $ mkdir folder; kahn folder
  ! kahn: cannot read folder
  [5]
A folder as the input.
  $ kahn examples/double.kahn --input folder
  ! kahn: cannot read folder
  [5]
A folder as standard input.
  $ kahn < folder
  ! kahn: cannot read standard input
  [5]
No standard input.
  $ kahn <&-
  ! kahn: cannot read standard input
  [5]
A program that may not be read; root may read all.
  $ touch closed; chmod 000 closed; if [ "$(id -u)" = 0 ]; then kahn nothing; else kahn closed; fi 2>&1 | sed 's/closed/nothing/'
  kahn: cannot read nothing

A program of 1,048,577 bytes.
  $ head -c 1048577 /dev/zero | tr '\0' ' ' > long; kahn long
  ! kahn: program text is too long
  [1]
A program of 1,048,576 bytes.
  $ { cat examples/count.kahn; head -c $((1048576 - $(wc -c < examples/count.kahn))) /dev/zero | tr '\0' ' '; } > most; kahn most
  W: 0 1 2
  end 1 count: ended after 7
  finished 7
An input of 16,777,217 bytes.
  $ head -c 16777217 /dev/zero | tr '\0' '\n' > long; kahn examples/double.kahn --input long
  ! kahn: input text is too long
  [1]
An input of 16,777,216 bytes.
  $ head -c 16777216 /dev/zero | tr '\0' '\n' > most; kahn examples/double.kahn --input most
  B:
  end 1 double: waits on A after 1
  finished 1

A text that ends too early.
  $ printf 'begin' > text; kahn text
  ! kahn: 1:6: text ends too early
  [1]
Two writers.
  $ echo 'begin integer output channel W; process s(integer out A); begin send 1 on A end; s(W) par s(W) end' | kahn
  ! kahn: 1:93: channel has two writers
  [1]
A line of the input without a colon.
  $ printf 'A: 1\n\nB 2\n' > input; kahn examples/double.kahn --input input
  ! kahn: input line 3: not a name and a colon
  [1]
An entry of no channel.
  $ printf 'A: 1\nQ: 2\n' > input; kahn examples/double.kahn --input input
  ! kahn: input entry 2: no such channel
  [1]
A watched channel that isn't declared.
  $ kahn examples/count.kahn --watch Q
  ! kahn: watched channel is not declared
  [6]

A full disk.
  $ kahn examples/count.kahn > /dev/full
  ! kahn: report could not be written
  [5]
No standard output.
  $ kahn examples/count.kahn >&-
  ! kahn: report could not be written
  [5]
A pipe that nobody reads.
  $ { sleep 2; kahn examples/count.kahn; echo $? > status; } | true; cat status
  5
  ! kahn: report could not be written
A fault beside a pipe that nobody reads.
  $ { sleep 2; kahn examples/double.kahn --input long_values; echo $? > status; } | true; cat status
  5
  ! kahn: cannot read long_values
A pipe that is read in part.
  $ echo "A: $(seq -s ' ' 0 199999)" > values
  $ { kahn examples/double.kahn --input values --bound 281474976710655; echo $? > status; } | head -c 10 > some; cat status
  5
  ! kahn: report could not be written
A fault line on a full disk changes no status.
  $ kahn nothing 2> /dev/full
  [5]
No standard error changes no status.
  $ kahn text 2>&-
  [1]
A word that isn't UTF-8.
  $ kahn $'\377'
  ! error: a word of the command line is not UTF-8
  [2]
