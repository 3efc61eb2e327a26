" Vim compiler file: `:compiler trac`, and `:make` lists the doubts of trac lint on the program.
if exists("current_compiler")
  finish
endif
let current_compiler = "trac"
if exists(":CompilerSet") != 2
  command -nargs=* CompilerSet setlocal <args>
endif
let s:cpo = &cpo
set cpo&vim
CompilerSet makeprg=trac\ lint\ %:S
CompilerSet errorformat=%f:%l:%c:\ %m,%-G%.%#
let &cpo = s:cpo
unlet s:cpo
