" Files of TRAC T-64 programs.
autocmd BufNewFile,BufRead *.trac setfiletype trac
