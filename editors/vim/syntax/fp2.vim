" FP2 programs (*.fp). `set runtimepath+=REPOSITORY/editors/vim`, or copy the folders of editors/vim to ~/.vim.
if exists("b:current_syntax")
  finish
endif

syntax keyword fp2Keyword data fun let
syntax keyword fp2Conditional if else
syntax keyword fp2Place fip fbip
syntax keyword fp2Type int bool
syntax match fp2Constructor /\<[A-Z][A-Za-z0-9_]*/
syntax match fp2Function /\<[a-z][A-Za-z0-9_]*\ze\s*[\[(]/
" After fp2Function, so that `match (` and `match! (` are keywords; the `!` belongs to the word.
syntax match fp2Keyword /\<match\>!\?/
syntax match fp2Number /\<\d\+\>/
syntax match fp2Operator /->\|==\|!=\|<=\|>=\|[-+*\/%^=<>]/
syntax match fp2Blank /\<_\>/
syntax match fp2Comment "//.*$"

highlight default link fp2Keyword Keyword
highlight default link fp2Conditional Conditional
highlight default link fp2Place StorageClass
highlight default link fp2Type Type
highlight default link fp2Constructor Constant
highlight default link fp2Function Function
highlight default link fp2Number Number
highlight default link fp2Operator Operator
highlight default link fp2Blank Special
highlight default link fp2Comment Comment

let b:current_syntax = "fp2"
