" The infix language: docs/languages/mini.md.
if exists('b:current_syntax') | finish | endif
syntax keyword miniType int bool
syntax keyword miniWord while if else
syntax keyword miniOperator not and or
syntax keyword miniTruth true false
syntax match miniNumber '\<\d\+\>'
syntax match miniSign ':=\|<=\|[=+*-]'
highlight default link miniType Type
highlight default link miniWord Statement
highlight default link miniOperator Operator
highlight default link miniTruth Boolean
highlight default link miniNumber Number
highlight default link miniSign Operator
let b:current_syntax = 'mini'
