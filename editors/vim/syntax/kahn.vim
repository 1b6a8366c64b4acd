" The lexemes of Kahn's language of processes and channels, as docs/language.md has them.
if exists("b:current_syntax")
  finish
endif
syntax case match
syntax match kahnSign ":=\|<>\|<=\|>=\|[(),;+*=<>-]"
syntax match kahnNumber "[0-9]\+"
syntax match kahnName "[A-Za-z][A-Za-z0-9_]*"
syntax match kahnKeyword "¬"
syntax match kahnKeyword "\c\%(and\|begin\|channel\|div\|do\|else\|end\|false\|if\|in\|input\|integer\|logical\|mod\|not\|on\|or\|out\|output\|par\|print\|process\|repeat\|send\|then\|true\|wait\|while\)[A-Za-z0-9_]\@!"
syntax region kahnComment start="\ccomment[A-Za-z0-9_]\@!" end=";"
syntax sync fromstart
highlight default link kahnSign Operator
highlight default link kahnNumber Number
highlight default link kahnName Identifier
highlight default link kahnKeyword Keyword
highlight default link kahnComment Comment
let b:current_syntax = "kahn"
