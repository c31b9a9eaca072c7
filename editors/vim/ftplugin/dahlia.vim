" Settings of a buffer that holds a Dahlia program: how it is commented.
if exists('b:did_ftplugin')
  finish
endif
let b:did_ftplugin = 1

setlocal comments=s1:/*,mb:*,ex:*/,:// commentstring=//\ %s
setlocal suffixesadd=.fuse
let b:undo_ftplugin = 'setlocal comments< commentstring< suffixesadd<'
