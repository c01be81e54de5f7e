" `:make` names what a script has refused, for the quickfix list.
if exists('current_compiler')
  finish
endif
let current_compiler = 'gridlet'

CompilerSet makeprg=gridlet-sheet\ check\ --cells\ %:S
CompilerSet errorformat=%f:%l:\ %m
