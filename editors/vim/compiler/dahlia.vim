" `:compiler dahlia`, then `:make`: judges the program by tools/explain of this checkout, and jumps to the place.
if exists('current_compiler')
  finish
endif
let current_compiler = 'dahlia'

let s:explain = fnamemodify(resolve(expand('<sfile>:p')), ':h:h:h:h') . '/tools/explain'
execute 'CompilerSet makeprg=' . escape(shellescape(s:explain) . ' %:S', ' \|"')
CompilerSet errorformat=%f:%l:%c:\ error:\ %m,%f:\ error:\ %m,%-G%.%#
