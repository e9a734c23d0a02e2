" Vim syntax file: sources of IJVM (.jas)
if exists("b:current_syntax")
  finish
endif

syntax case match
syntax match ijvmName /\<\h\w*\>/

" An instruction is the first word of a line or of what follows a label, so that a local may be called in or pop.
syntax case ignore
syntax match ijvmInstruction /\%(^\s*\%(\h\w*\s*:\s*\)\?\%(WIDE\s\+\)\?\)\@<=\<\%(NOP\|BIPUSH\|LDC_W\|ILOAD\|ISTORE\|POP\|DUP\|SWAP\|IADD\|ISUB\|IAND\|IOR\|IINC\|IFEQ\|IFLT\|IF_ICMPEQ\|GOTO\|IRETURN\|INVOKEVIRTUAL\|WIDE\|IN\|OUT\|ERR\|HALT\)\>/
syntax case match
syntax match ijvmLabel /^\s*\zs\h\w*\ze\s*:/
syntax match ijvmSection /\.\(end-\)\?\(constant\|main\|method\|var\)\>/
syntax match ijvmNumber /-\?\<\(0x\x\+\|\d\+\)\>/
syntax match ijvmCharacter /'[\x20-\x7e]'/
syntax match ijvmComment /\/\/.*$/ contains=ijvmTodo
syntax keyword ijvmTodo TODO FIXME contained
" what .var and .constant declare are names
syntax region ijvmDeclared matchgroup=ijvmSection start=/\.var\>/ end=/\.end-var\>/ contains=ijvmDeclaredName,ijvmComment
syntax region ijvmDeclared matchgroup=ijvmSection start=/\.constant\>/ end=/\.end-constant\>/ contains=ijvmDeclaredName,ijvmNumber,ijvmCharacter,ijvmComment
syntax match ijvmDeclaredName /\<\h\w*\>/ contained

highlight default link ijvmInstruction Statement
highlight default link ijvmSection PreProc
highlight default link ijvmLabel Label
highlight default link ijvmNumber Number
highlight default link ijvmCharacter Character
highlight default link ijvmComment Comment
highlight default link ijvmTodo Todo
highlight default link ijvmName Identifier
highlight default link ijvmDeclaredName Identifier

let b:current_syntax = "ijvm"
