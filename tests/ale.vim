" Opens a program in Vim with ALE, types another text into it, and writes what is marked then. EDITORS is the folder of the editors.
set nocp
set rtp^=EDITORS/vim
let g:ale_lint_on_enter = 0
packadd ale
filetype plugin indent on
edit a\ program.kahn
call setline(1, readfile('typed'))
silent execute len(readfile('typed')) + 1 . ',$d _'
doautocmd TextChanged
for pause in range(50)
  sleep 100m
  if len(getloclist(0))
    break
  endif
endfor
call writefile(map(getloclist(0), {_, it -> it.lnum . ':' . it.col . ' ' . it.type}), 'shown')
qa!
