kahn_build makes one text of a program, libraries and values, and runs a command on it.

The text.
  $ kahn_build examples/library/tests/delay.kahn examples/library/delay.kahn
  begin
  comment: delays a stream by N values. FIRST comes N times, then what comes on U;
  process delay(integer in U; integer out W; integer N, FIRST);
  begin
    while N > 0 do begin send FIRST on W; N := N - 1 end;
    repeat send wait(U) on W
  end;
        integer input channel A; integer output channel B; delay(A, B, 2, -1) end

The program alone, and with a value.
  $ kahn_build use.kahn | cmp - use.kahn; kahn_build examples/go-back-n.kahn --set sender.WINDOW=3 > three.kahn; diff three.kahn examples/go-back-n.kahn | grep '^<'
  <   sender(DATA, ACKS_LEFT, PENDING, FRAMES, PENDING, SENT, 3) par line(FRAMES, FRAMES_LEFT, 2, 3)

A command and its status.
  $ kahn_build "${files[@]}" -- kahn --input use.input | head -n 1; kahn_build "${files[@]}" -- kahn --input use.input --bound 9 > /dev/null
  DELIVERED: 0 0 1 1 1 1 1 9 9 9 9 9 9 9
  [3]
  $ kahn_build "${files[@]}" -- kahn_live --plain A < <(sed 's/A: //; s/ /\n/g' use.input) | xargs
  0 0 1 1 1 1 1 9 9 9 9 9 9 9

All instances of a process, one of them, and the last value of several.
  $ kahn_build examples/go-back-n.kahn --set line.EACH=9 --set 4.EACH=-8 --set=4.EACH=8 | grep 'par line'
    sender(DATA, ACKS_LEFT, PENDING, FRAMES, PENDING, SENT, 4) par line(FRAMES, FRAMES_LEFT, 2, 9)
    par receiver(FRAMES_LEFT, ACKS, DELIVERED) par line(ACKS, ACKS_LEFT, 1, 8)

A sweep: the frames of each window.
  $ for n in 2 3 4; do kahn_build examples/go-back-n.kahn --set sender.WINDOW=$n -- kahn --input examples/go-back-n.input | sed -n "s/SENT/$n/p"; done
  2: 34
  3: 29
  4: 70

What isn't there.
  $ kahn_build use.kahn --set a.W=1
  ! kahn_build: no such instance: `a`; there are 1 debounce, 2 median, 3 sender, 4 line, 5 receiver
  [1]
  $ kahn_build "${files[@]}" --set debounce.W=1
  ! kahn_build: debounce takes no value `W`; it takes TIMES
  [1]
  $ kahn_build "${files[@]}" --set sender.HELD=1
  ! kahn_build: sender takes no value `HELD`; it takes WINDOW
  [1]
  $ kahn_build use.kahn --set 1.TIMES=1
  ! kahn_build: debounce isn't declared
  [1]
  $ kahn_build "${files[@]}" --set 6.N=1
  ! kahn_build: no such instance: `6`; there are 1 debounce, 2 median, 3 sender, 4 line, 5 receiver
  [1]
  $ kahn_build "${files[@]}" --set receiver.N=1
  ! kahn_build: receiver takes no value `N`; it takes none
  [1]

Words that aren't a value of an instance.
  $ for word in sender.WINDOW sender=3 sender.WINDOW=x .N=3 1.2=3 'sender.WINDOW=3;'; do kahn_build use.kahn --set "$word"; done
  ! kahn_build: not PROCESS.NAME=VALUE: `sender.WINDOW`
  ! kahn_build: not PROCESS.NAME=VALUE: `sender=3`
  ! kahn_build: not PROCESS.NAME=VALUE: `sender.WINDOW=x`
  ! kahn_build: not PROCESS.NAME=VALUE: `.N=3`
  ! kahn_build: not PROCESS.NAME=VALUE: `1.2=3`
  ! kahn_build: not PROCESS.NAME=VALUE: `sender.WINDOW=3;`
  [2]
  $ kahn_build; kahn_build use.kahn --se 2> said; cat said; kahn_build use.kahn --set; kahn_build use.kahn --
  kahn_build: no such option: --se
  ! kahn_build: there is no program; --help says more
  ! kahn_build: --set needs PROCESS.NAME=VALUE
  ! kahn_build: -- needs a command
  [2]
  $ kahn_build --help | head -n 1; kahn_build --version | sed 's/ [0-9.]*$/ is/'
  Makes one program text of a program, libraries and values, and may run a command on it.
  kahn_build is

Files that can't be read, and a command that isn't there.
  $ kahn_build use.kahn nothing.kahn
  ! kahn_build: cannot read nothing.kahn
  [5]
  $ mkdir folder; kahn_build folder
  ! kahn_build: cannot read folder
  [5]
  $ kahn_build use.kahn -- nothing
  ! kahn_build: there is no command nothing
  [127]
  $ kahn_build examples/library/delay.kahn use.kahn; kahn_build use.kahn examples/count.kahn
  ! kahn_build: examples/library/delay.kahn is a library; the program comes first
  ! kahn_build: examples/count.kahn is a program; libraries have only declarations
  [1]

Names of files, and comments, literals and brackets in odd places.
  $ mkdir -p 'a b=c'; printf 'comment begin end; Begin comment; integer output channel A; comment process p(;\nprocess p(integer out\nW; comment integer K; integer N, M; logical L); begin if L then send N + M on W end; p(A, - comment ; 7,8 , false) End ;' > 'a b=c/&\x.kahn'
  > kahn_build 'a b=c/&\x.kahn' --set p.N=3 --set 1.L=true; echo; kahn_build './a b=c/&\x.kahn' --set p.M=-8 --set p.L=true --set 1.N=0 -- kahn | head -n 1; kahn_build 'a b=c/&\x.kahn' --set p.L=5 -- kahn
  comment begin end; Begin
                           comment; integer output channel A; comment process p(;
  process p(integer out
  W; comment integer K; integer N, M; logical L); begin if L then send N + M on W end; p(A, 3 comment ; ,8 , true) End ;
  A: -8
  ! kahn: a b=c/&\x.kahn:3:109: kind does not agree
  [1]
  $ cp examples/library/delay.kahn ./-d.kahn; kahn_build examples/library/tests/delay.kahn ./-d.kahn --set delay.FIRST=4 -- kahn --input examples/library/tests/delay.input | head -n 1
  B: 4 4 1 2 3

Texts of Windows, without a last line feed, and on one line.
  $ printf 'begin\r\n  integer input channel A; integer output channel B;\r\n  delay(A, B, 1, 5)\r\nend' > crlf.kahn; sed 's/$/\r/' examples/library/delay.kahn | head -c -2 > lib.kahn; kahn_build crlf.kahn lib.kahn --set delay.FIRST=6 | od -An -c | tail -n 3
     t       c   h   a   n   n   e   l       B   ;  \r  \n        
     d   e   l   a   y   (   A   ,       B   ,       1   ,       6
     )  \r  \n   e   n   d
  $ kahn_build crlf.kahn lib.kahn -- kahn_explain --input examples/double.input | head -n 1
  no deadlock and no fault; all input was taken
  $ printf 'begin integer output channel A;' > cut.kahn; kahn_build cut.kahn lib.kahn -- kahn
  ! kahn: cut.kahn:1:32: text ends too early
  [1]
  $ printf 'begin integer output channel A' > cut.kahn; kahn_build cut.kahn lib.kahn -- kahn; printf 'begin' > cut.kahn; kahn_build cut.kahn -- kahn; : > cut.kahn; kahn_build cut.kahn lib.kahn -- kahn
  ! kahn: cut.kahn:1:31: text ends too early
  ! kahn: cut.kahn:1:6: text ends too early
  ! kahn: cut.kahn:1:1: text ends too early
  [1]

A program text from a pipe.
  $ kahn_build <(cat use.kahn) $library/{debounce,median,go-back-n}.kahn -- kahn --input use.input | head -n 1
  DELIVERED: 0 0 1 1 1 1 1 9 9 9 9 9 9 9

A link to it, and programs that aren't on the path.
  $ mkdir alone; cp "$TOP/kahn_build" alone; ln -s "$(command -v kahn)" alone; ln -s alone/kahn_build linked; PATH=/usr/bin:/bin ./linked "${files[@]}" -- kahn --input use.input | head -n 1
  DELIVERED: 0 0 1 1 1 1 1 9 9 9 9 9 9 9

Lines go out as they come, and a reader may go away.
  $ { echo 1; sleep 3; } | kahn_build examples/double.kahn -- kahn_live --plain A | { read -r line; echo $line $((SECONDS < 3)); }; kahn_build examples/noise.kahn --set 1.SEED=2 -- kahn_live --out NOISE | head -n 3
  2 1
  42
  88
  25

Nothing is left in the folder of temporary files.
  $ mkdir temporary; TMPDIR=$PWD/temporary kahn_build use.kahn -- cat > /dev/null; TMPDIR=$PWD/temporary kahn_build use.kahn --set a.B=1 2> /dev/null; ls -A temporary
