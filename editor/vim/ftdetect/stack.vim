" The languages of the verified short stack, by the endings of their files.
autocmd BufNewFile,BufRead *.gypsy set filetype=gypsy
autocmd BufNewFile,BufRead *.piton set filetype=piton
autocmd BufNewFile,BufRead *.mini set filetype=mini
autocmd BufNewFile,BufRead *.values set filetype=stackvalues
" Other languages have this ending too: an assembly text of the FM9001 begins with its base.
autocmd BufNewFile,BufRead *.asm if getline(nextnonblank(1)) =~# '^\s*\(;\|\.base\)' && search('^\s*\.base\s', 'nw') | set filetype=fm9001 | endif
