" Values files: docs/languages/values.md.
if exists('b:current_syntax') | finish | endif
syntax iskeyword 33-39,42-58,60-126
syntax keyword stackvaluesTruth true false
syntax match stackvaluesNumber '\v(\(|\s)@1<=-?\d+\ze(\)|\s|$)'
syntax match stackvaluesCharacter '\v(\(|\s)@1<=#\d+\ze(\)|\s|$)'
syntax match stackvaluesComment ';.*$' contains=@Spell
highlight default link stackvaluesTruth Boolean
highlight default link stackvaluesNumber Number
highlight default link stackvaluesCharacter Character
highlight default link stackvaluesComment Comment
let b:current_syntax = 'stackvalues'
