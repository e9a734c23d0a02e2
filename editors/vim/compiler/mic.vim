" Vim compiler file: :make lets mic look at the file, and :cnext goes to the line of its message.
if exists("current_compiler")
  finish
endif
let current_compiler = "mic"

" A microprogram for Mic-2 needs:  :let b:mic_machine = 'mic2' | compiler mic
let s:machine = exists("b:mic_machine") ? '\ --machine\ ' . b:mic_machine : ''
" mic-where prints FILE:LINE: for the verifier's messages too
if executable('mic-where')
  execute 'CompilerSet makeprg=mic-where' . s:machine . '\ --\ %:S'
elseif &filetype ==# 'mal'
  execute 'CompilerSet makeprg=mic\ micro' . s:machine . '\ --\ %:S\ /dev/null'
elseif &filetype ==# 'tiny'
  CompilerSet makeprg=mic\ compile\ --\ %:S\ /dev/null
else
  CompilerSet makeprg=mic\ verify\ --\ %:S
endif
CompilerSet errorformat=mic:\ %f:%l:\ %m,mic:\ %f:\ %m,%f:%l:\ %m,%-G%.%#
unlet s:machine
