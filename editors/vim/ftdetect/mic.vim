" Sources of IJVM, microprograms in MAL and programs in Tiny.
autocmd BufNewFile,BufRead *.jas setfiletype ijvm
autocmd BufNewFile,BufRead *.mal setfiletype mal
autocmd BufNewFile,BufRead *.tiny setfiletype tiny
