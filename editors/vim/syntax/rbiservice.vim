" Services of Lunguepo: the tokens, and those that stand in programs alone.
if exists('b:current_syntax')
  finish
endif

runtime! syntax/rbitokens.vim
syntax match rbiNotHere /\v(interface|main|batch|print|remote|Rows)[A-Za-z0-9_]@!/

let b:current_syntax = 'rbiservice'
