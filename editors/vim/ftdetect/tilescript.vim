autocmd BufRead,BufNewFile *.script setfiletype tilescript
