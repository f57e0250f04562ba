" Highlighting of sources for vim: copy this file to ~/.vim/syntax/mage.vim, and put into ~/.vimrc
"   autocmd BufNewFile,BufRead *.source setlocal filetype=mage
if exists("b:current_syntax")
  finish
endif
syntax keyword mageStatement workers const input let array move output
syntax keyword mageParty garbler evaluator
syntax keyword mageFlow for in if else on
syntax keyword mageOperation mux resize lit
syntax match mageCall "\<\(min\|max\|count\)\>\ze\s*("
syntax match mageType "\<u[0-9]\+\>"
syntax match mageNumber "\<[0-9]\+\>"
syntax match mageComment "//.*$"
highlight default link mageStatement Statement
highlight default link mageParty Identifier
highlight default link mageFlow Repeat
highlight default link mageOperation Function
highlight default link mageCall Function
highlight default link mageType Type
highlight default link mageNumber Number
highlight default link mageComment Comment
let b:current_syntax = "mage"
