" Comments, columns and :make of programs of processes and channels.
if exists("b:did_ftplugin")
  finish
endif
let b:did_ftplugin = 1
setlocal commentstring=comment\ %s; comments= shiftwidth=2 expandtab autoindent
compiler kahn
let b:undo_ftplugin = "setlocal commentstring< comments< shiftwidth< expandtab makeprg< errorformat<"
