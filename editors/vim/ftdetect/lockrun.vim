" A script of lockrun, of locks or of ticks, is known by its first line.
autocmd BufNewFile,BufRead * if getline(1) =~# '^\(lockrun\|ticks\) 1$' | set filetype=lockrun | endif
