" Specifications of data structures.
if exists('b:current_syntax')
  finish
endif
syntax keyword dsrDeclaration version order structure pool set relation fresh rule constraint
syntax keyword dsrType u8 u16 u32 u64 bits number
syntax keyword dsrWord little big extends fixed init skip slot at codes step none of as except
syntax keyword dsrWord head avoid in when and legal illegal some forall or not given size
syntax match dsrNumber '\<\(0x\x\+\|\d\+\)\>'
syntax match dsrOperator '=>\|->\|!=\|<=\|>='
syntax match dsrComment '#.*$'
highlight default link dsrDeclaration Statement
highlight default link dsrType Type
highlight default link dsrWord Keyword
highlight default link dsrNumber Number
highlight default link dsrOperator Operator
highlight default link dsrComment Comment
let b:current_syntax = 'dsr'
