" Micro-Gypsy: docs/languages/gypsy.md.
if exists('b:current_syntax') | finish | endif
syntax iskeyword 33-39,42-58,60-126
syntax keyword gypsyForm program proc no-op signal seq loop if begin call
syntax keyword gypsyPredefined mg-simple-variable-assignment mg-simple-constant-assignment mg-simple-variable-eq mg-simple-constant-eq mg-integer-le
syntax keyword gypsyPredefined mg-integer-unary-minus mg-integer-add mg-integer-subtract mg-integer-multiply mg-boolean-or mg-boolean-and mg-boolean-not
syntax keyword gypsyPredefined mg-index-array mg-array-element-assignment
syntax keyword gypsyType integer boolean character array
syntax keyword gypsyCondition leave routineerror spaceerror normal
syntax keyword gypsyTruth true false
syntax match gypsyNumber '\v(\(|\s)@1<=-?\d+\ze(\)|\s|$)'
syntax match gypsyCharacter '\v(\(|\s)@1<=#\d+\ze(\)|\s|$)'
syntax match gypsyProcedure '\v(\(proc\s+)@8<=[A-Za-z][-A-Za-z0-9_*$]*'
syntax match gypsyComment ';.*$' contains=@Spell
highlight default link gypsyForm Statement
highlight default link gypsyPredefined Function
highlight default link gypsyType Type
highlight default link gypsyCondition Exception
highlight default link gypsyTruth Boolean
highlight default link gypsyNumber Number
highlight default link gypsyCharacter Character
highlight default link gypsyProcedure Identifier
highlight default link gypsyComment Comment
let b:current_syntax = 'gypsy'
