" Colours for tilefarm programs (*.pipe). Copy the folder editors/vim into ~/.vim.
if exists("b:current_syntax")
  finish
endif

syntax case match
syntax match   pipeComment   "#.*$" contains=@Spell
syntax match   pipeNumber    "\<\d\+\>"
syntax match   pipeOperator  "<<\|>>\|<=\|>=\|==\|\.\.\|[-+*/%]"
syntax match   pipeName      "\<\a\w*\>"
syntax match   pipeRead      "\<\a\w*\>\ze\s*[(\[]"
syntax match   pipeTooLong   "\<\a\w\{32,}\>"
syntax match   pipeMistake   "\<\d\+[A-Za-z_]\w*\|!=\|<\%([<=]\)\@!\|>\%([>=]\)\@!\|[^\x00-\x7F]"
syntax keyword pipeItem      param image table func accum output
syntax keyword pipeClause    case else in over at and max min sum
syntax keyword pipeBuiltin   abs clamp select stencil

highlight default link pipeComment   Comment
highlight default link pipeNumber    Number
highlight default link pipeOperator  Operator
highlight default link pipeName      Identifier
highlight default link pipeRead      Function
highlight default link pipeItem      Statement
highlight default link pipeClause    Keyword
highlight default link pipeBuiltin   Special
highlight default link pipeTooLong   Error
highlight default link pipeMistake   Error

let b:current_syntax = "pipe"
