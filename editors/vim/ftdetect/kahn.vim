autocmd BufRead,BufNewFile *.kahn setfiletype kahn
