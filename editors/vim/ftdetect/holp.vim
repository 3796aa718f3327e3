autocmd BufRead,BufNewFile *.hol setfiletype holp
