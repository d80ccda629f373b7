" Piton: docs/languages/piton.md.
if exists('b:current_syntax') | finish | endif
syntax iskeyword 33-39,42-58,60-126
syntax keyword pitonForm piton dl
syntax keyword pitonOperation eq add-int add-nat sub-int sub-nat add-addr sub-addr lt-int lt-nat lt-addr add1-int add1-nat sub1-int sub1-nat neg-int
syntax keyword pitonOperation int-to-nat mult2-nat add-int-with-carry add-nat-with-carry sub-int-with-carry sub-nat-with-carry
syntax keyword pitonOperation mult2-nat-with-carry-out div2-nat or-bitv and-bitv xor-bitv or-bool and-bool not-bitv not-bool rsh-bitv lsh-bitv
syntax keyword pitonOperation push-constant push-local pop-local set-local push-global pop-global set-global push-temp-stk-index
syntax keyword pitonOperation push-temp-stk-free-size push-ctrl-stk-free-size fetch-temp-stk deposit-temp-stk fetch deposit pop pop* popn no-op jump
syntax keyword pitonOperation jump-if-temp-stk-full jump-if-temp-stk-empty jump-case pushj popj test-nat-and-jump test-int-and-jump test-bool-and-jump
syntax keyword pitonOperation test-bitv-and-jump call pop-call ret
syntax keyword pitonTag int nat bitv bool addr pc subr
syntax keyword pitonTest zero not-zero neg not-neg pos not-pos all-zero not-all-zero
syntax match pitonNumber '\v(\(|\s)@1<=-?\d+\ze(\)|\s|$)'
syntax match pitonLabel '\v(\(dl\s+)@6<=[A-Za-z][-A-Za-z0-9_*$]*'
syntax match pitonComment ';.*$' contains=@Spell
highlight default link pitonForm Statement
highlight default link pitonOperation Function
highlight default link pitonTag Type
highlight default link pitonTest Conditional
highlight default link pitonNumber Number
highlight default link pitonLabel Label
highlight default link pitonComment Comment
let b:current_syntax = 'piton'
