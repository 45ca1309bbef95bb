" Rattle: Rust, with the words of contracts.
if exists('b:current_syntax')
  finish
endif
runtime! syntax/rust.vim
unlet! b:current_syntax
syntax keyword rattleContract requires ensures ghost invariant Model tactic never
syntax keyword rattleTime old new now entry result
highlight default link rattleContract PreProc
highlight default link rattleTime Special
let b:current_syntax = 'rattle'
