autocmd BufNewFile,BufRead *.mcs setfiletype mcs
autocmd BufNewFile,BufRead *.plan setfiletype mcs-plan
