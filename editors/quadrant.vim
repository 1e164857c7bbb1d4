" Vim syntax for the texts of two-input rules that tilebench reads.
" Use: copy it to ~/.vim/syntax/quadrant.vim, and put into ~/.vimrc
"     autocmd BufRead,BufNewFile *.quadrant setfiletype quadrant
if exists('b:current_syntax')
  finish
endif

syntax case match
" A line whose first word is no keyword, and bytes that part no words.
syntax match quadrantError /^ *[^ #]\S*/
syntax match quadrantError /[\t\r]/
syntax match quadrantKeyword /^ *\zs\%(quadrant\|symbol\|rule\|size\|bottom\|left\|end\)\ze\%( \|$\)/
syntax match quadrantNumber /\%(^ *\%(quadrant\|size\)\%( .*\)\?\)\@<= \zs-\?\d\{1,10}\ze\%( \|$\)/
" The name that a line declares.
syntax match quadrantName /\%(^ *symbol \+\)\@<=[A-Za-z0-9_]\{1,8}\ze *$/
" A remark behind words, where none may stand.
syntax match quadrantError /\%(^ *[^ #].*\)\@<=#.*$/
syntax match quadrantRemark /^ *#.*$/ contains=quadrantTodo
syntax keyword quadrantTodo TODO FIXME contained

highlight default link quadrantError Error
highlight default link quadrantKeyword Keyword
highlight default link quadrantNumber Number
highlight default link quadrantName Identifier
highlight default link quadrantRemark Comment
highlight default link quadrantTodo Todo

let b:current_syntax = 'quadrant'
