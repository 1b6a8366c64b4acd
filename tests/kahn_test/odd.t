Files and words that kahn_test has to refuse, or to take as they are.

Names.
  $ for name in 'a b' '-x' 'c # skip' $'n\nl' 'e=f' 'g*h' '[ab]' '$(touch HERE)' "it's"; do network "$name"; done; kahn_test --update networks | grep -v '^ok'
  # wrote networks/$(touch HERE).values
  # wrote networks/-x.values
  # wrote networks/[ab].values
  # wrote networks/a b.values
  # wrote networks/c # skip.values
  # wrote networks/e=f.values
  # wrote networks/g*h.values
  # wrote networks/it's.values
  # wrote networks/n?l.values
  1..18
  $ kahn_test networks; ls HERE 2> /dev/null
  ok 1 - $(touch HERE).kahn
  ok 2 - $(touch HERE)
  ok 3 - -x.kahn
  ok 4 - -x
  ok 5 - [ab].kahn
  ok 6 - [ab]
  ok 7 - a b.kahn
  ok 8 - a b
  ok 9 - c \# skip.kahn
  ok 10 - c \# skip
  ok 11 - e=f.kahn
  ok 12 - e=f
  ok 13 - g*h.kahn
  ok 14 - g*h
  ok 15 - it's.kahn
  ok 16 - it's
  ok 17 - n?l.kahn
  ok 18 - n?l
  1..18
  [2]
  $ cd networks; kahn_test -- -x.kahn e=f.kahn; kahn_test ./-x.kahn; kahn_test | tail -n 1
  ok 1 - -x.kahn
  ok 2 - -x
  ok 3 - e=f.kahn
  ok 4 - e=f
  1..4
  ok 1 - -x.kahn
  ok 2 - -x
  1..2
  1..18

Texts of Windows, with a byte order mark.
  $ rm -r networks; network crlf; sed -i 's/$/\r/' networks/*; printf '\357\273\277# words\r\n\r\nB: 2 3 4\r\n' > networks/crlf.values; kahn_test networks
  ok 1 - crlf.kahn
  ok 2 - crlf
  1..2
  $ kahn_test --update networks; printf 'B: 2 3\r\nbound 99\r\nstatus 0\r\n' > networks/crlf.values; kahn_test networks | sed -n 3,4p
  ok 1 - crlf.kahn
  # wrote networks/crlf.values
  ok 2 - crlf
  1..2
  # B:3 is 4, wanted no more than 2 values
  # B:3 = 4 needs A: 3 of 3

Lines that aren't of a file of values.
  $ network lines; printf 'B: 2 3 4\nstatus ok\nB 2\nB: 3\nbound 5\nbound 6\n  # words\n' > networks/lines.values; kahn_test networks/lines.kahn; kahn_test --update networks/lines.kahn | grep -c wrote
  ok 1 - lines.kahn
  not ok 2 - lines
  # line 2: expected `NAME: 1 2`, `print PROCESS: 1`, `status 7`, `bound 100` or `# words`, each once
  # line 3: expected `NAME: 1 2`, `print PROCESS: 1`, `status 7`, `bound 100` or `# words`, each once
  # line 4: expected `NAME: 1 2`, `print PROCESS: 1`, `status 7`, `bound 100` or `# words`, each once
  # line 6: expected `NAME: 1 2`, `print PROCESS: 1`, `status 7`, `bound 100` or `# words`, each once
  1..2
  0
  [1]

What isn't a value, and a bound that kahn doesn't take.
  $ network words; printf 'B: 2 3, 4\n' > networks/words.values; kahn_test networks/words.kahn; printf 'B: .. 2\nC: 02 3 # all\nbound 999999999999999999\n' > networks/words.values; kahn_test networks/words.kahn
  ok 1 - words.kahn
  not ok 2 - words
  # line 1: not a value: `3,`
  1..2
  ok 1 - words.kahn
  not ok 2 - words
  # line 1: not a value: `..`
  # line 2: not a value: `02`
  # line 3: expected `NAME: 1 2`, `print PROCESS: 1`, `status 7`, `bound 100` or `# words`, each once
  1..2
  [1]

An input of another name, and a program without values.
  $ printf 'B: 2 3 4\n' > networks/words.values; mv networks/words.input networks/wrods.input; kahn_test networks/words.kahn; rm networks/words.values; kahn_test networks/words.kahn
  ok 1 - words.kahn
  not ok 2 - words
  # B:1 doesn't come: 0 values, wanted 3
  # B:1 never comes
  # no input: there is no words.input
  1..2
  ok 1 - words.kahn
  # words.kahn has no values yet: --update writes them
  1..1

A file of values without a program.
  $ mkdir lost; cp networks/lines.kahn lost; echo 'B: 2 3 4' > lost/other.values; kahn_test lost
  ok 1 - lines.kahn
  # lines.kahn has no values yet: --update writes them
  not ok 2 - other
  # there is no program other.kahn
  1..2
  [1]

Three hundred thousand values.
  $ network many "$(seq -s ' ' 300000)"; kahn_test --update networks/many.kahn > /dev/null; sed 's/ 300001$/ 1/' -i networks/many.values; kahn_test networks/many.kahn
  ok 1 - many.kahn
  not ok 2 - many
  # B:300000 is 300001, wanted 1
  # B:300000 = 300001 needs A: 300000 of 300000
  # events of 1 add: 900000 of 900001
  1..2
  [1]

What can't be read or written.
  $ kahn_test nothing
  ! kahn_test: cannot read nothing
  [5]
  $ kahn_test networks/nothing.kahn networks
  ! kahn_test: cannot read networks/nothing.kahn
  [5]
  $ mkdir empty; kahn_test empty
  ! kahn_test: no programs in empty
  [5]
  $ mkdir locked; chmod 0 locked; user=(); [ "$(id -u)" != 0 ] || user=(setpriv --inh-caps=-all --bounding-set=-all); "${user[@]}" kahn_test locked; status=$?; rmdir locked; exit $status
  ! kahn_test: cannot read locked
  [5]
  $ kahn_test examples/squares.values
  ! kahn_test: expected a folder or NAME.kahn, found examples/squares.values
  [2]
  $ mkdir networks/lines.case.values; kahn_test networks/lines.kahn
  ok 1 - lines.kahn
  not ok 2 - lines
  # line 2: expected `NAME: 1 2`, `print PROCESS: 1`, `status 7`, `bound 100` or `# words`, each once
  # line 3: expected `NAME: 1 2`, `print PROCESS: 1`, `status 7`, `bound 100` or `# words`, each once
  # line 4: expected `NAME: 1 2`, `print PROCESS: 1`, `status 7`, `bound 100` or `# words`, each once
  # line 6: expected `NAME: 1 2`, `print PROCESS: 1`, `status 7`, `bound 100` or `# words`, each once
  Bail out!
  ! kahn_test: cannot read networks/lines.case.values
  [5]
  $ rmdir networks/lines.case.values; rm networks/lines.values; ln -s nowhere/it networks/lines.values; kahn_test --update networks/lines.kahn
  ok 1 - lines.kahn
  Bail out!
  ! kahn_test: cannot write networks/lines.values
  [5]
  $ kahn_test --junit nowhere/it networks
  ! kahn_test: cannot write nowhere/it
  [5]

The command line.
  $ kahn_test --updat; kahn_test --bound 1e6; kahn_test --bound 281474976710656; kahn_test --bound; kahn_test --values; kahn_test --values examples/count.kahn --update; kahn_test --junit
  ! kahn_test: no such option: --updat; --help lists them
  ! kahn_test: --bound: not a number of events: `1e6`
  ! kahn_test: --bound: not a number of events: `281474976710656`
  ! kahn_test: --bound needs a value
  ! kahn_test: --values takes a program, perhaps an input, and --bound
  ! kahn_test: --values takes a program, perhaps an input, and --bound
  ! kahn_test: --junit needs a value
  [2]
  $ kahn_test --bound=5 --junit=five.xml examples/squares.kahn | sed -n 2,3p; head -n 2 five.xml
  not ok 2 - squares
  # SQUARES:1 doesn't come: 0 values, wanted 5
  <?xml version="1.0" encoding="UTF-8"?>
  <testsuite name="kahn" tests="2" failures="1">
  $ kahn_test --help | head -n 1; kahn_test --version | sed 's/ [0-9.]*$/ is/'
  Tests networks: runs programs, and compares their values with those in files.
  kahn_test is

No programs, or none that start.
  $ mkdir alone; cp "$TOP/kahn_test" alone; PATH=/usr/bin:/bin alone/kahn_test examples
  ! kahn_test: there is no kahn, neither beside this program nor on the path
  [5]
  $ printf '#!/bin/sh\necho "kahn: no release" >&2; exit 5\n' > alone/kahn; chmod +x alone/kahn; alone/kahn_test examples
  ! kahn: no release
  [5]

A link to it, and programs on the path.
  $ rm alone/kahn; alone/kahn_test examples/count.kahn; ln -s "$(command -v kahn)" "$(command -v kahn_explain)" "$(command -v kahn_live)" alone; ln -s alone/kahn_test linked
  > PATH=/usr/bin:/bin ./linked examples/count.kahn
  ok 1 - count.kahn
  ok 2 - count
  1..2
  ok 1 - count.kahn
  ok 2 - count
  1..2

Nothing is left in the folder of temporary files.
  $ mkdir temporary; TMPDIR=$PWD/temporary kahn_test examples/count.kahn > /dev/null; ls -A temporary
