Files, streams and arguments of kahn_draw. (Pictures are in pictures.t.)

A file that isn't there.
  $ kahn_draw nothing
  ! kahn: cannot read nothing
  [5]
A text that isn't UTF-8.
  $ printf 'begin \377' > bytes; kahn_draw bytes
  ! kahn: bytes is not UTF-8
  [5]
An input that isn't there.
  $ echo 'begin end' > program; kahn_draw program --input nothing
  ! kahn: cannot read nothing
  [5]
An input that isn't UTF-8.
  $ kahn_draw program --input bytes
  ! kahn: bytes is not UTF-8
  [5]
A program and an input that aren't there.
  $ kahn_draw nothing --input bytes
  ! kahn: cannot read nothing
  [5]
An input that is refused.
  $ printf 'A: 1\nB: 2\n' > fed; kahn_draw examples/double.kahn --input fed
  ! kahn: input entry 2: not an input channel
  [1]
An empty text.
  $ kahn_draw
  ! kahn: 1:1: text ends too early
  [1]
A text that is no program.
  $ printf 'begin x' > broken; kahn_draw broken
  ! kahn: 1:8: text ends too early
  ! kahn_explain broken says more
  [1]
Two words.
  $ kahn_draw a b 2> error
  [2]
  $ head -n 1 error
  error: unexpected argument 'b' found
An input without a name.
  $ kahn_draw examples/count.kahn --input 2> error
  [2]
  $ head -n 1 error
  error: a value is required for '--input <FILE>' but none was supplied
A bound out of its limit.
  $ kahn_draw examples/count.kahn --bound -1 2> error
  [2]
The help.
  $ kahn_draw --help | grep -o 'dot -Tsvg' | head -n 1; exit ${PIPESTATUS[0]}
  dot -Tsvg
A run that is stopped.
  $ kahn_draw examples/count.kahn --input /dev/null --bound 3 | grep -o 'wants more after 3.*palegreen'
  wants more after 3", style=filled, fillcolor=palegreen
A full disk.
  $ kahn_draw examples/count.kahn > /dev/full
  ! kahn_draw: picture could not be written
  [5]
