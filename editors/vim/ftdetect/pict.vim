autocmd BufRead,BufNewFile *.pi setfiletype pict
