" Programs in Tiny: :make is mic
if exists("b:did_ftplugin")
  finish
endif
let b:did_ftplugin = 1
compiler mic
setlocal commentstring=//\ %s
