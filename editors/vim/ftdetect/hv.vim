autocmd BufNewFile,BufRead *.hv setfiletype hv
