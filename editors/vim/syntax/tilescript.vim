" Colours for scripts of events (*.script), which tilefarm world takes. Copy the folder editors/vim into ~/.vim.
if exists("b:current_syntax")
  finish
endif

syntax case match
syntax match   tilescriptMistake  "^.\+$"
syntax match   tilescriptEvent    "^\%(make\|send\|deliver\|merge\|keep\|restart\|retire\) .*$" contains=tilescriptVerb,tilescriptKey,tilescriptNumber
syntax match   tilescriptVerb     "^\l\+" contained
syntax match   tilescriptNumber   "\<\d\+\>" contained
syntax match   tilescriptKey      "\<\d\+:\d\+:\d\+:\d\+\>" contained
syntax match   tilescriptComment  "^#.*$" contains=@Spell

highlight default link tilescriptMistake  Error
highlight default link tilescriptVerb     Statement
highlight default link tilescriptNumber   Number
highlight default link tilescriptKey      Identifier
highlight default link tilescriptComment  Comment

let b:current_syntax = "tilescript"
