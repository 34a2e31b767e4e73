" Blueprints of streams: a comment is a whole line.
if exists("b:did_ftplugin") | finish | endif
let b:did_ftplugin = 1
setlocal commentstring=#\ %s comments=:# iskeyword+=_
let b:undo_ftplugin = "setlocal commentstring< comments< iskeyword<"
