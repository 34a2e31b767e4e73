" Files that end with .blue are blueprints of streams.
autocmd BufRead,BufNewFile *.blue setfiletype blue
