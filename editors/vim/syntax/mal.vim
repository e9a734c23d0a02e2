" Vim syntax file: microprograms in MAL (.mal)
if exists("b:current_syntax")
  finish
endif

syntax case match
syntax match malName /\<\h\w*\>/
syntax match malLabel /^\s*\zs\h\w*\>/
syntax match malDirective /\.\(label\|default\)\>/
syntax keyword malRegister MAR MDR PC SP LV CPP TOS OPC H MBR MBRU MBR1 MBR1U MBR2 MBR2U N Z
syntax keyword malOperator AND OR NOT
syntax keyword malMemory rd wr fetch
syntax keyword malFlow goto if else
syntax match malShift /<<\s*8\|>>\s*1/
syntax match malNumber /\<\(0x\x\+\|\d\+\)\>/
syntax match malComment /\/\/.*$/ contains=malTodo
syntax keyword malTodo TODO FIXME contained

highlight default link malRegister Type
highlight default link malOperator Operator
highlight default link malShift Operator
highlight default link malMemory Special
highlight default link malFlow Statement
highlight default link malDirective PreProc
highlight default link malLabel Label
highlight default link malNumber Number
highlight default link malComment Comment
highlight default link malTodo Todo
highlight default link malName Identifier

let b:current_syntax = "mal"
