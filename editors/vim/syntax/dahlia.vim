" Vim syntax file of the language Dahlia, for files *.fuse.
" Words, signs, numbers and comments are those of docs/LANGUAGE.md, "Tokens". What begins no
" token, and words that are kept out of the language, are shown as errors.

if exists('b:current_syntax')
  finish
endif

syntax case match
syntax iskeyword a-z,A-Z,48-57,_

syntax keyword dahliaDeclaration decl def let view
syntax keyword dahliaView shrink suffix shift split by
syntax keyword dahliaLoop for while unroll combine
syntax keyword dahliaConditional if else
syntax keyword dahliaKind bit ubit bool
syntax keyword dahliaBank bank
syntax keyword dahliaBoolean true false
syntax keyword dahliaCast as
syntax keyword dahliaKeptOut float double fix ufix record import decor return

" Of two items that begin at one place Vim takes the one that is defined later.
syntax match dahliaBadCharacter /[@~#$?'"`\\.!]\|[^\x09\x0d\x20-\x7e]/
syntax match dahliaBadNumber /\<\d\w*\>/
syntax match dahliaNumber /\<\%(0x\x\+\|[1-9]\d*\|0\)\>/

syntax match dahliaBracket /[][(){}]/
syntax match dahliaPunctuation /[,;:]/
syntax match dahliaOperator #[-+*/%&|^<>=]\|<<\|>>\|&&\|||\|\.\.#
" The longest sign is the token: `:=`, and not `:` and `=`.
syntax match dahliaAssignment #[-+*/:]=#
syntax match dahliaOperator /==\|!=\|<=\|>=/
syntax match dahliaDivider /---/

syntax keyword dahliaTodo contained TODO FIXME XXX
syntax match dahliaComment +//.*$+ contains=dahliaTodo,@Spell
syntax region dahliaComment start=+/\*+ end=+\*/+ contains=dahliaTodo,@Spell
syntax sync ccomment dahliaComment

highlight default link dahliaDeclaration Statement
highlight default link dahliaView Statement
highlight default link dahliaLoop Repeat
highlight default link dahliaConditional Conditional
highlight default link dahliaKind Type
highlight default link dahliaBank StorageClass
highlight default link dahliaBoolean Boolean
highlight default link dahliaCast Operator
highlight default link dahliaKeptOut Error
highlight default link dahliaBadCharacter Error
highlight default link dahliaBadNumber Error
highlight default link dahliaNumber Number
highlight default link dahliaBracket Delimiter
highlight default link dahliaPunctuation Delimiter
highlight default link dahliaOperator Operator
highlight default link dahliaAssignment Operator
highlight default link dahliaDivider Special
highlight default link dahliaTodo Todo
highlight default link dahliaComment Comment

let b:current_syntax = 'dahlia'
