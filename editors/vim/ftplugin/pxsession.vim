" Sessions of pxplanes: a comment goes from # to the end of its line.
setlocal comments=:# commentstring=#\ %s
let b:undo_ftplugin = "setlocal comments< commentstring<"
