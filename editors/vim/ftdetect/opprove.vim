" Statements, files of the notation and evidence text of opprove.
autocmd BufRead,BufNewFile *.op setfiletype opprove
autocmd BufRead,BufNewFile *.opn setfiletype opprovenotation
autocmd BufRead,BufNewFile *.cert setfiletype opprovecert
