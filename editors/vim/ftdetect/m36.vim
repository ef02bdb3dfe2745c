" Sources in ALM, and the boot texts of m36.
autocmd BufNewFile,BufRead *.alm setfiletype alm
autocmd BufNewFile,BufRead boot if getline(1) =~# '^frames ' | setfiletype m36boot | endif
