" :make runs the program in the current file by kahn_explain, and goes to the place of a mistake, a warning, a fault or a deadlock.
let current_compiler = "kahn"
CompilerSet makeprg=kahn_explain\ %:S
CompilerSet errorformat=%E%f:%l:%c:\ %trror:\ %m,%W%f:%l:%c:\ %tarning:\ %m,%N%f:%l:%c:\ %tote:\ %m
CompilerSet errorformat+=%+C\ %#=\ %.%#,%-C\ %#%\\d%#\ \|%.%#,kahn:\ %m,%-G%.%#
