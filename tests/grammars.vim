" Writes the groups of all characters of text.kahn, line by line. SYNTAX is the file of the grammar.
set nocompatible encoding=utf-8 synmaxcol=0
edit text.kahn
syntax on
source SYNTAX
let groups = []
for row in range(1, line('$'))
  call add(groups, join(map(range(strchars(getline(row))), {_, it -> synIDattr(synID(g:row, byteidx(getline(g:row), it) + 1, 1), 'name')}), ','))
endfor
call writefile(groups, 'groups')
qall!
