" Scenes of pxplanes (docs/SCENES.md): what is no word of the language is shown as an error.
if exists("b:current_syntax")
  finish
endif

syntax case match
syntax match pxError    "[^ \t\r]\+"
syntax match pxName     "\<[A-Za-z_][A-Za-z0-9_]*\>" contained
syntax match pxNumber   "\(^\|[ \t]\)\@<=-\?[0-9]\+\ze\([ \t\r]\|$\|#\)" contained
syntax match pxSign     "[-+*^]" contained
syntax match pxBracket  "[()]" contained
syntax match pxComment  "#.*$"
syntax match pxNumbers  "\(^[ \t\r]*\(pxscene\)\)\@<=\([ \t\r]\+-\?[0-9]\+\)\{1\}\ze[ \t\r]*\(#.*\)\?$" contains=pxNumber
syntax match pxNumbers  "\(^[ \t\r]*\(picture\)\)\@<=\([ \t\r]\+-\?[0-9]\+\)\{2\}\ze[ \t\r]*\(#.*\)\?$" contains=pxNumber
syntax match pxNumbers  "\(^[ \t\r]*\(depth\)\)\@<=\([ \t\r]\+-\?[0-9]\+\)\{1,2\}\ze[ \t\r]*\(#.*\)\?$" contains=pxNumber
syntax match pxNumbers  "\(^[ \t\r]*\(front\|back\|side\)\)\@<=\([ \t\r]\+-\?[0-9]\+\)\{3\}\ze[ \t\r]*\(#.*\)\?$" contains=pxNumber
syntax match pxNumbers  "\(^[ \t\r]*\(front\|back\)\)\@<=\([ \t\r]\+-\?[0-9]\+\)\{6\}\ze[ \t\r]*\(#.*\)\?$" contains=pxNumber
syntax match pxSolid    "\(^[ \t\r]*solid\)\@<=[ \t\r]\+[A-Za-z_][A-Za-z0-9_]*\([ \t\r]\+[0-9]\+\)\{3}\ze[ \t\r]*\(#.*\)\?$" contains=pxName,pxNumber
syntax match pxShown    "\(^[ \t\r]*show\)\@<=[ \t\r]\+[-A-Za-z0-9_+*^() \t\r]*" contains=pxName,pxSign,pxBracket
syntax match pxLight    "\(^[ \t\r]*light\)\@<=\([ \t\r]\+[A-Za-z_][A-Za-z0-9_]*\)\+" contains=pxName
syntax match pxKeyword  "^[ \t\r]*\zs\(pxscene\|picture\|depth\|solid\|front\|back\|side\|show\|light\|end\)\ze\([ \t\r#]\|$\)"

highlight default link pxKeyword Keyword
highlight default link pxName    Identifier
highlight default link pxNumber  Number
highlight default link pxSign    Operator
highlight default link pxBracket Delimiter
highlight default link pxComment Comment
highlight default link pxError   Error

let b:current_syntax = "pxscene"
