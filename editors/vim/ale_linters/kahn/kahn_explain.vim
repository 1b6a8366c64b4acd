" For ALE, the Asynchronous Lint Engine: marks mistakes and warnings as one types.
call ale#Set('kahn_explain_executable', 'kahn_explain')

function! ale_linters#kahn#kahn_explain#Place(note) abort
  return {'lnum': a:note.line, 'col': a:note.column, 'end_lnum': a:note.end_line, 'end_col': a:note.end_column - 1, 'type': toupper(a:note.sort[0]),
  \ 'text': a:note.words, 'detail': join([a:note.words] + a:note.below, "\n")}
endfunction

function! ale_linters#kahn#kahn_explain#Handle(buffer, lines) abort
  return map(filter(copy(a:lines), 'v:val[:0] ==# "{"'), 'ale_linters#kahn#kahn_explain#Place(json_decode(v:val))')
endfunction

call ale#linter#Define('kahn', {
\ 'name': 'kahn_explain',
\ 'executable': {buffer -> ale#Var(buffer, 'kahn_explain_executable')},
\ 'command': '%e --json',
\ 'callback': 'ale_linters#kahn#kahn_explain#Handle',
\})
