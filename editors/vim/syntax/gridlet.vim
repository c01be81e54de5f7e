" Scripts of Gridlet: commands, formulas, texts and comments.
if exists('b:current_syntax')
  finish
endif

syntax case match

syntax match gridletComment '^;.*$'
syntax match gridletCommand '^\(set\|clear\|show\|view\|get\|list\|calc\|oracle\|why\|explain\|flow\|import\|undo\|redo\|site\|edit\|export\|quit\|gridlet\)\>'
syntax match gridletAddress '\<[A-Z]\{1,2}[1-9][0-9]\{0,3}\>#\?\(:[A-Z]\{1,2}[1-9][0-9]\{0,3}\>\)\?'
syntax match gridletNumber '\<[0-9]\+\>'
syntax keyword gridletBoolean TRUE FALSE
syntax match gridletFunction '\<\(ABS\|AND\|COLUMNS\|COUNT\|DROP\|FILTER\|G\|HSTACK\|IF\|IFERROR\|INDEX\|ISBLANK\|ISERROR\|LEFT\|LEN\|LET\|LOOKUP\|MAX\|MIN\|MOD\|NA\|NOT\|OR\|RIGHT\|ROWS\|SEQUENCE\|SHEET\|SUM\|TAKE\|THIS\|TRANSPOSE\|UNIQUE\|UPDATE\|VIEW\|VSTACK\)\ze('
syntax match gridletOperator '[-+*/&=<>]'
syntax match gridletEscape contained '\\\([\\"nrt]\|x[0-9A-Fa-f]\{2}\)'
syntax region gridletText start='"' skip='\\.' end='"\|$' contains=gridletEscape oneline
" A text without quotes, behind the address of a set line, is no formula.
syntax match gridletPlain '\(^set [A-Z]\+[0-9]\+ \)\@<=[^="].*$' contains=gridletWhole
syntax match gridletWhole contained '\(^set [A-Z]\+[0-9]\+ \)\@<=\(-\?[0-9]\+\|TRUE\|FALSE\)$'

highlight default link gridletComment Comment
highlight default link gridletCommand Statement
highlight default link gridletAddress Identifier
highlight default link gridletNumber Number
highlight default link gridletWhole Number
highlight default link gridletBoolean Boolean
highlight default link gridletFunction Function
highlight default link gridletOperator Operator
highlight default link gridletEscape SpecialChar
highlight default link gridletText String
highlight default link gridletPlain String

let b:current_syntax = 'gridlet'
