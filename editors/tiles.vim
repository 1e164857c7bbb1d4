" Vim syntax for the texts of tilebench: systems, batches, growths, schedules, certificates and answers.
" Use: copy it to ~/.vim/syntax/tiles.vim, and put into ~/.vimrc
"     autocmd BufRead,BufNewFile *.tiles,*.growth,*.schedule,*.batch setfiletype tiles
if exists('b:current_syntax')
  finish
endif

syntax case match
" A line whose first word is no keyword, and bytes that part no words.
syntax match tilesError /^ *[^ #]\S*/
syntax match tilesError /[\t\r]/
syntax match tilesKeyword /^ *\zs\%(batch\|job\|tiles\|tau\|glue\|pair\|tile\|box\|seed\|end\)\ze\%( \|$\)/
syntax match tilesKeyword /^ *\zs\%(place\|mark\|look\|claim\|split\|join\)\ze\%( \|$\)/
syntax match tilesAnswer /^ *\zs\%(frame\|grown\|done\|closed\|unique\|legal\|stuck\|verified\|picture\|saw\|won\|total\|held\|joined\|refused\)\ze\%( \|$\)/
syntax match tilesNumber /\%(^\| \)\zs-\?\d\{1,10}\ze\%( \|$\)/
syntax match tilesNone / \zs-\ze\%( \|$\)/
syntax match tilesYes /\<\%(yes\|terminal\)\>/
syntax match tilesNo /\<\%(no\|clipped\)\>/
" The name that a line declares.
syntax match tilesName /\%(^ *\%(glue\|tile\) \+\)\@<=[A-Za-z0-9_:.]\{1,40}\ze\%( \|$\)/
" A remark behind words, where none may stand.
syntax match tilesError /\%(^ *[^ #].*\)\@<=#.*$/
syntax match tilesRemark /^ *#.*$/ contains=tilesTodo
syntax keyword tilesTodo TODO FIXME contained

highlight default link tilesError Error
highlight default link tilesKeyword Keyword
highlight default link tilesAnswer Statement
highlight default link tilesNumber Number
highlight default link tilesNone Special
highlight default link tilesYes Constant
highlight default link tilesNo WarningMsg
highlight default link tilesName Identifier
highlight default link tilesRemark Comment
highlight default link tilesTodo Todo

let b:current_syntax = 'tiles'
