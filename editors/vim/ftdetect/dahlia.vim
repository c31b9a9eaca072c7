" Programs of the language end in .fuse.
autocmd BufRead,BufNewFile *.fuse setfiletype dahlia
