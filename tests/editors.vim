" Writes the places of a program's list of errors, and where the first of them leads. EDITORS is the folder of the editors.
set nocp
set rtp^=EDITORS/vim
filetype plugin indent on
edit a\ program.kahn
normal G
silent make!
let places = map(filter(getqflist(), 'v:val.valid'), {_, it -> it.lnum . ':' . it.col . ' ' . it.type})
cc 1
call add(places, line('.') . ':' . col('.') . ' ' . &commentstring)
call writefile(places, 'places')
qa!
