" The round language of roundc.
if exists('b:current_syntax')
  finish
endif

syntax case match
syntax iskeyword @,48-57,_

syntax keyword roundsStatement values period input state decide
syntax keyword roundsStatement at message send when on end
syntax keyword roundsConditional if then else
syntax keyword roundsOperator or and not union minus inter div mod
syntax keyword roundsFunction has size least single
syntax keyword roundsBoolean true false
syntax keyword roundsConstant empty all zero
syntax keyword roundsVariable me n t round phase dest from
syntax keyword roundsType num bool set row

syntax match roundsNumber /\<\d\+\>/
syntax match roundsOperator /[-+=<>]\|:=/
syntax match roundsDelimiter /[][(){},;]\|:=\@!/

syntax keyword roundsTodo TODO FIXME XXX contained
syntax match roundsComment /#.*/ contains=roundsTodo,@Spell

highlight default link roundsStatement Statement
highlight default link roundsConditional Conditional
highlight default link roundsOperator Operator
highlight default link roundsFunction Function
highlight default link roundsBoolean Boolean
highlight default link roundsConstant Constant
highlight default link roundsVariable Identifier
highlight default link roundsType Type
highlight default link roundsNumber Number
highlight default link roundsDelimiter Delimiter
highlight default link roundsComment Comment
highlight default link roundsTodo Todo

let b:current_syntax = 'rounds'
