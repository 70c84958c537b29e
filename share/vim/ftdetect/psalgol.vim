" A file that ends with .ps is a text of PS-algol, unless it begins as PostScript does.
autocmd BufRead,BufNewFile *.ps if getline(1) !~# '^%!' | set filetype=psalgol | endif
