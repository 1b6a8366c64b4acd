Files, streams and arguments of kahn_explain.

A text of a million bytes.
  $ { cat "$TOP/tests/mistakes/a-sign-for-becomes.kahn"; head -c 1000000 /dev/zero | tr '\0' ' '; } > long; kahn_explain long
  long:8:9: error: expected `:=`, found `=`
   8 |       I = wait(U);
     |         ^
     = fix: replace `=` with `:=`
  [1]
What comes after a limit is past it too: 260 instances.
  $ { echo 'begin process p(); begin end;'; printf 'p() par\n%.0s' $(seq 259); echo 'p() end'; } > past; kahn_explain past
  past:258:1: error: limit is exceeded; a program has at most 1024 channels and 256 instances
   258 | p() par
       | ^
  
  and 3 faults more
  [1]
Changes are looked for in texts of up to 8,192 lexemes.
  $ echo "begin process p(); begin $(printf 'print 1;%.0s' $(seq 2725)) I = 1 end; p() end;" > most; kahn_explain most | tail -n 1
     = fix: replace `=` with `:=`
8,193 lexemes.
  $ echo "begin process p(); begin $(printf 'print 1;%.0s' $(seq 2725)); I = 1 end; p() end;" > more; kahn_explain more | sed 's/print 1;//g'
  more:1:21830: error: expected `:=`, found `=`
   1 | t 1;; I = 1 end; p() end;
     |                                                                                 ^
     = a statement begins with `send`, `print`, `if`, `while`, `repeat` or `begin`, or assigns to a name: `X := X + 1`, `X := wait(C)`
A block of 340,000 statements.
  $ echo "begin process p(); begin integer I; $(printf 'I:=I;%.0s;' $(seq 170000)) end; p() end" > long; kahn_explain long
  no deadlock and no fault
  finished 0
Of 100,000 names that are never used 20 are reported.
  $ echo "begin process p(); begin integer $(printf 'I%d, ' $(seq 99999)) I; end; p() end" > long; kahn_explain long > output
  $ grep -c 'warning: name is never used' output; tail -n 3 output
  20
  and 99980 warnings more
  no deadlock and no fault
  finished 0
Of 60,000 operations that can have failed 20 are reported.
  $ echo "begin process p(); begin integer A; $(printf 'A:=1 div 0;%.0s' $(seq 60000)) end; p() end" > long; kahn_explain long > output
  [8]
  $ grep -c 'error: 1 p has a fault, division' output; grep -c 'note: or here' output; tail -n 2 output
  1
  19
  and 59980 places more
  finished 0
A text that is too long.
  $ head -c 1048577 /dev/zero | tr '\0' ' ' > long; kahn_explain long
  ! kahn: program text is too long
  ! kahn_explain: it may have at most 1048576 bytes
  [1]
A file that isn't there.
  $ kahn_explain nothing
  ! kahn: cannot read nothing
  ! kahn_explain: there is no such file
  [5]
An input that isn't there.
  $ kahn_explain input.kahn --input nothing
  ! kahn: cannot read nothing
  ! kahn_explain: there is no such file
  [5]
A folder.
  $ mkdir folder; kahn_explain folder
  ! kahn: cannot read folder
  ! kahn_explain: it is a folder
  [5]
A folder as input.
  $ kahn_explain input.kahn --input folder
  ! kahn: cannot read folder
  ! kahn_explain: it is a folder
  [5]
A path through a file.
  $ kahn_explain two.kahn/a
  ! kahn: cannot read two.kahn/a
  ! kahn_explain: its path leads through what is no folder
  [5]
A link to itself.
  $ ln -s turned turned; kahn_explain turned
  ! kahn: cannot read turned
  ! kahn_explain: its path has too many symbolic links
  [5]
A name that is too long.
  $ name=$(printf 'a%.0s' $(seq 300)); kahn_explain $name 2>&1 | sed "s/$name/NAME/"; exit ${PIPESTATUS[0]}
  kahn: cannot read NAME
  kahn_explain: its name is too long
  [5]
A file that isn't UTF-8.
  $ printf '\377' > bytes; kahn_explain bytes
  ! kahn: bytes is not UTF-8
  [5]
A file that may not be read. Root may read all, so its rights are taken away first.
  $ cp one.kahn closed; chmod 000 closed; cp "$(command -v kahn_explain)" .; user=()
  > [ "$(id -u)" != 0 ] || user=(setpriv --inh-caps=-all --bounding-set=-all); "${user[@]}" ./kahn_explain closed
  ! kahn: cannot read closed
  ! kahn_explain: there is no permission to read it
  [5]
An empty text.
  $ kahn_explain
  <stdin>:1:1: error: expected `begin`, found the end of the text
   1 | 
     | ^
     = a program is like `begin integer output channel B; process p(integer out W); begin send 1 on W end; p(B) end`
  [1]
An input of no channel.
  $ echo 'NONE: 1' > values; kahn_explain one.kahn --input values
  values:1:1: error: no such channel; there is no input channel
   1 | NONE: 1
     | ^^^^
  [1]
An input that is too long.
  $ head -c 16777217 /dev/zero | tr '\0' ' ' > long; kahn_explain input.kahn --input long
  ! kahn: input text is too long
  ! kahn_explain: it may have at most 16777216 bytes
  [1]
A full disk.
  $ kahn_explain one.kahn > /dev/full
  ! kahn_explain: report could not be written
  [5]

Arguments that are refused.
  $ kahn_explain a b 2> error
  [2]
  $ head -n 1 error
  error: unexpected argument 'b' found
  $ kahn_explain --workers 0 2> error
  [2]
  $ head -n 1 error
  error: invalid value '0' for '--workers <N>': 0 is not in 1..=16
  $ kahn_explain --watch A 2> error
  [2]
  $ head -n 1 error
  error: unexpected argument '--watch' found
  $ kahn_explain --report x 2> error
  [2]
  $ head -n 1 error
  error: unexpected argument '--report' found
The help.
  $ kahn_explain --help | grep -c 'for ever'
  3
Standard input by its minus, as program and as input.
  $ kahn_explain - < "$TOP/examples/squares.kahn" | tail -n 1 | sed 's/ .*//'
  finished
  $ printf 'A: 1\n' | kahn_explain "$TOP/examples/double.kahn" --input - | tail -n 1 | sed 's/ .*//'
  finished
Texts that are looked at, and not run.
  $ kahn_explain "$TOP/examples/sieve.kahn" --check
  $ ln -s "$TOP/tests/mistakes/a-sign-for-becomes.kahn" bad.kahn; kahn_explain bad.kahn --check | head -n 1
  bad.kahn:8:9: error: expected `:=`, found `=`
  $ kahn_explain bad.kahn --check > /dev/null
  [1]
  $ printf 'A: x\n' | kahn_explain "$TOP/examples/double.kahn" --check --input - > /dev/null
  [1]
