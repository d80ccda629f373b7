" Assembly texts of the FM9001: docs/languages/asm.md.
if exists('b:current_syntax') | finish | endif
syntax keyword fm9001Operation MOVE INC ADDC ADD NEG DEC SUBB SUB ROR ASR LSR XOR OR AND NOT M15
syntax match fm9001Directive '\.\(base\|size\|final\|start\|word\)\>'
syntax match fm9001Condition '\[\(cc\|cs\|vc\|vs\|nc\|ns\|zc\|zs\|hi\|ls\|ge\|lt\|gt\|le\|nv\)\]'
syntax match fm9001Flags '{c\?v\?n\?z\?}'
syntax match fm9001Register '\<r\(1[0-5]\|[0-9]\)\>'
syntax match fm9001Number '#-\?\d\+\|\<0x\x\{8}\>\|\<\d\+\>'
syntax match fm9001Label '^\s*[A-Za-z][-A-Za-z0-9_*$]*:'
syntax match fm9001Comment ';.*$' contains=@Spell
highlight default link fm9001Operation Function
highlight default link fm9001Directive Statement
highlight default link fm9001Condition Conditional
highlight default link fm9001Flags Special
highlight default link fm9001Register Identifier
highlight default link fm9001Number Number
highlight default link fm9001Label Label
highlight default link fm9001Comment Comment
let b:current_syntax = 'fm9001'
