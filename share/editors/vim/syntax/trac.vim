" Vim syntax file: TRAC T-64.
"
" An apostrophe ends a text, with all calls and parentheses that it has begun. (Where `cm` has chosen another character
" for that, colours may be wrong after an apostrophe.)
if exists("b:current_syntax")
  finish
endif
let s:cpo = &cpo
set cpo&vim

syntax case ignore
syntax sync fromstart

syntax cluster tracBegun contains=tracCall,tracNeutral,tracBits,tracBitsNeutral,tracProtected
syntax cluster tracWords contains=tracComma,tracPrimitive,tracUnknown,tracForm

" the end of a text; a parenthesis that ends nothing
syntax match tracEnd "'"
syntax match tracStray ")"

" protected text
syntax region tracProtected matchgroup=tracParenthesis start="(" end=")" end="'"me=s-1 contains=@tracBegun

" active and neutral calls; those of them whose arguments are octal strings
syntax region tracCall matchgroup=tracActiveMark start="#(" end=")" end="'"me=s-1
      \ contains=@tracBegun,@tracWords,tracDecimal
syntax region tracNeutral matchgroup=tracNeutralMark start="##(" end=")" end="'"me=s-1
      \ contains=@tracBegun,@tracWords,tracDecimal
syntax region tracBits matchgroup=tracActiveMark start="#(\ze\%(bu\|bi\|bc\|bs\|br\)[,)]" end=")" end="'"me=s-1
      \ contains=@tracBegun,@tracWords,tracOctal,tracPlaces
syntax region tracBitsNeutral matchgroup=tracNeutralMark start="##(\ze\%(bu\|bi\|bc\|bs\|br\)[,)]" end=")" end="'"me=s-1
      \ contains=@tracBegun,@tracWords,tracOctal,tracPlaces

" what stands in a call: numbers at the end of arguments, the name of a form after that of a primitive, the name
syntax match tracComma "," contained
syntax match tracDecimal "[+-]\=\d\+\ze[,)]" contained
syntax match tracOctal "[0-7]\+\ze[,)]" contained
syntax match tracPlaces "\%(#(b[sr],\)\@5<=[+-]\=\d\+\ze[,)]" contained
syntax match tracForm "\%(#(\%(ds\|dd\|ss\|cl\|cr\|cs\|cc\|cn\|in\|pf\|sb\|fb\|eb\),\)\@5<=[^,()#']\+\ze[,)]" contained
syntax match tracUnknown "\%(#(\)\@2<=[^,()#']\+\ze[,)]" contained
syntax match tracPrimitive "\%(#(\)\@2<=\%(ps\|rs\|rc\|cm\|hl\|tn\|tf\|eq\|gr\|ad\|su\|ml\|dv\)\ze[,)]" contained
syntax match tracPrimitive "\%(#(\)\@2<=\%(bu\|bi\|bc\|bs\|br\)\ze[,)]" contained
syntax match tracPrimitive "\%(#(\)\@2<=\%(ds\|dd\|da\|ss\|cl\|cr\|cs\|cc\|cn\|in\|ln\)\ze[,)]" contained
syntax match tracPrimitive "\%(#(\)\@2<=\%(pf\|sb\|fb\|eb\)\ze[,)]" contained

highlight default link tracActiveMark Statement
highlight default link tracNeutralMark PreProc
highlight default link tracPrimitive Function
highlight default link tracUnknown Comment
highlight default link tracForm Identifier
highlight default link tracComma Delimiter
highlight default link tracParenthesis Delimiter
highlight default link tracProtected String
highlight default link tracDecimal Number
highlight default link tracPlaces Number
highlight default link tracOctal Constant
highlight default link tracEnd Special
highlight default link tracStray Error

let b:current_syntax = "trac"
let &cpo = s:cpo
unlet s:cpo
