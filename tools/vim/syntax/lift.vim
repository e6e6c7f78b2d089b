" Programs of the pattern language (docs/LANGUAGE.md).
if exists('b:current_syntax')
  finish
endif

syntax keyword liftDeclaration size input output multiple from to
syntax keyword liftBinding let in
syntax keyword liftType u32
syntax keyword liftPattern map reduce fold zip split join transpose reverse stride slide pad
syntax keyword liftOperator add sub mul min max and or xor shl shr lt eq div rem select
syntax keyword liftOperator pair first second
" reserved, and made by scripts alone
syntax keyword liftLowered mapGlb mapWrg mapLcl mapSeq foldSeq toLocal toPrivate
syntax match liftNumber /\<\d\+\>/
syntax match liftBinder /\\\s*\a\w*\%(\s\+\a\w*\)\?\s*\./
syntax match liftComment /#.*$/

highlight default link liftDeclaration Statement
highlight default link liftBinding Statement
highlight default link liftType Type
highlight default link liftPattern Function
highlight default link liftOperator Operator
highlight default link liftLowered Error
highlight default link liftNumber Number
highlight default link liftBinder Identifier
highlight default link liftComment Comment

let b:current_syntax = 'lift'
