" Vim syntax for the texts of Turing machines that tilebench reads.
" Use: copy it to ~/.vim/syntax/machine.vim, and put into ~/.vimrc
"     autocmd BufRead,BufNewFile *.machine setfiletype machine
if exists('b:current_syntax')
  finish
endif

syntax case match
" A line whose first word is no keyword, and bytes that part no words.
syntax match machineError /^ *[^ #]\S*/
syntax match machineError /[\t\r]/
syntax match machineKeyword /^ *\zs\%(machine\|state\|symbol\|rule\|cells\|rows\|head\|tape\|end\)\ze\%( \|$\)/
syntax match machineNumber /\%(^ *\%(machine\|cells\|rows\|head\) \+\)\@<=-\?\d\{1,10}\ze *$/
" The name that a line declares, and the move of a rule.
syntax match machineName /\%(^ *\%(state\|symbol\) \+\)\@<=[A-Za-z0-9_]\{1,8}\ze *$/
syntax match machineMove /\%(^ *rule \+\S\+ \+\S\+ \+\S\+ \+\S\+ \+\)\@<=[LRS]\ze *$/
" A remark behind words, where none may stand.
syntax match machineError /\%(^ *[^ #].*\)\@<=#.*$/
syntax match machineRemark /^ *#.*$/ contains=machineTodo
syntax keyword machineTodo TODO FIXME contained

highlight default link machineError Error
highlight default link machineKeyword Keyword
highlight default link machineNumber Number
highlight default link machineName Identifier
highlight default link machineMove Special
highlight default link machineRemark Comment
highlight default link machineTodo Todo

let b:current_syntax = 'machine'
