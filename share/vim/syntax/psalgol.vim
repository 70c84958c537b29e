" The syntax of PS-algol for Vim: copy the folders of share/vim to ~/.vim. share/check compares it with the scanner.

if exists('b:current_syntax')
  finish
endif

syntax case match
syntax iskeyword a-z,A-Z,48-57,.

syntax match psalgolName /[A-Za-z][A-Za-z0-9.]*/
syntax match psalgolNumber /[0-9]\+/
syntax match psalgolOperator /[-:=~<>+*@?|]/

syntax keyword psalgolStatement abort begin by case default do else end for if
syntax keyword psalgolStatement let of repeat then to while write
syntax keyword psalgolDeclaration proc procedure structure
syntax keyword psalgolType bool int pntr string vector
syntax keyword psalgolConstant false nil true
syntax keyword psalgolWord and div is isnt lwb or rem upb

syntax keyword psalgolLibrary cardinality commit create.database eof i.enter
syntax keyword psalgolLibrary i.lookup i.scan iformat length open.database
syntax keyword psalgolLibrary read.a.line s.enter s.lookup s.scan table
syntax keyword psalgolLibrary error.context error.explain error.fault error.record

syntax match psalgolBadEscape /'./ contained
syntax match psalgolEscape /'[nt'"]/ contained
syntax region psalgolString start=/"/ skip=/'./ end=/"/ oneline contains=psalgolBadEscape,psalgolEscape

syntax keyword psalgolTodo TODO FIXME contained
syntax match psalgolComment /!.*/ contains=psalgolTodo,@Spell

highlight default link psalgolStatement Statement
highlight default link psalgolDeclaration Keyword
highlight default link psalgolType Type
highlight default link psalgolConstant Constant
highlight default link psalgolWord Operator
highlight default link psalgolOperator Operator
highlight default link psalgolLibrary Function
highlight default link psalgolNumber Number
highlight default link psalgolString String
highlight default link psalgolEscape SpecialChar
highlight default link psalgolBadEscape Error
highlight default link psalgolComment Comment
highlight default link psalgolTodo Todo

let b:current_syntax = 'psalgol'
