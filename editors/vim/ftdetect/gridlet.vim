" Files of scripts of Gridlet.
autocmd BufNewFile,BufRead *.gridlet setfiletype gridlet
