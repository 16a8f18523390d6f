autocmd BufRead,BufNewFile *.lio setfiletype lio
