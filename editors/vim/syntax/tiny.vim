" Vim syntax file: programs in Tiny (.tiny)
if exists("b:current_syntax")
  finish
endif

syntax case match
syntax match tinyName /\<\h\w*\>/
syntax match tinyFunction /\<\h\w*\>\ze\s*(/
syntax keyword tinyDeclaration fn var
syntax keyword tinyConditional if else
syntax keyword tinyRepeat while
syntax keyword tinyStatement return halt
syntax keyword tinyConsole put get
syntax match tinyOperator /==\|!=\|[-+&|<=]/
syntax match tinyNumber /\<\(0x\x\+\|\d\+\)\>/
syntax match tinyCharacter /'[\x20-\x7e]'/
syntax match tinyComment /\/\/.*$/ contains=tinyTodo
syntax keyword tinyTodo TODO FIXME contained

highlight default link tinyDeclaration Type
highlight default link tinyConditional Conditional
highlight default link tinyRepeat Repeat
highlight default link tinyStatement Statement
highlight default link tinyConsole Special
highlight default link tinyOperator Operator
highlight default link tinyNumber Number
highlight default link tinyCharacter Character
highlight default link tinyComment Comment
highlight default link tinyTodo Todo
highlight default link tinyFunction Function
highlight default link tinyName Identifier

let b:current_syntax = "tiny"
