" Listings of pxplanes (docs/LISTINGS.md): what is no word of them is shown as an error.
if exists("b:current_syntax")
  finish
endif

syntax case match
syntax match pxError     "[^ \t\r]\+"
syntax match pxNumber    "-\?[0-9]\+" contained
syntax match pxComment   "#.*$"
syntax match pxNumbers   "\(^[ \t\r]*[a-z-]\+\)\@<=\([ \t\r]\+-\?[0-9]\+\)\+\ze[ \t\r]*\(#.*\)\?$" contains=pxNumber
syntax match pxKeyword   "^[ \t\r]*\zs\(pxlist\|grid\|end\)\ze\([ \t\r#]\|$\)"
syntax match pxOperation "^[ \t\r]*\zs\(all\|keep-sign\|keep-bit\|keep-at-most\|keep-less\|set-bit\|toggle\|load-linear\|add-linear\|load-const\|copy\)\ze\([ \t\r#]\|$\)"

highlight default link pxKeyword   Keyword
highlight default link pxOperation Function
highlight default link pxNumber    Number
highlight default link pxComment   Comment
highlight default link pxError     Error

let b:current_syntax = "pxlist"
