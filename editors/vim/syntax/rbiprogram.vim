" Programs of Lunguepo: the tokens, and those that stand in services alone.
if exists('b:current_syntax')
  finish
endif

runtime! syntax/rbitokens.vim
syntax match rbiNotHere /\v(object|root)[A-Za-z0-9_]@!|#/

let b:current_syntax = 'rbiprogram'
