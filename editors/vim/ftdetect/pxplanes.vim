" Scenes, listings and sessions of pxplanes, by the ends of their names.
autocmd BufNewFile,BufRead *.scene   setfiletype pxscene
autocmd BufNewFile,BufRead *.listing setfiletype pxlist
autocmd BufNewFile,BufRead *.session setfiletype pxsession
