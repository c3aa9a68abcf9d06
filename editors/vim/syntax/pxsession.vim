" Sessions of the debugger of pxplanes (docs/DEBUGGER.md): a scene, and command lines after its `end`,
" with comments as pxplanes trace takes them.
if exists("b:current_syntax")
  finish
endif

runtime! syntax/pxscene.vim
unlet! b:current_syntax

syntax region pxCommands matchgroup=pxEnd start="^[ \t\r]*end[ \t\r]*\(#.*\)\?$" end="\%$" contains=pxCommand,pxAsked,pxUnknown,pxNote keepend
syntax match pxUnknown  "[^ \t\r#]\+" contained
syntax match pxNote     "#.*$" contained
syntax match pxAsked    "\(^[ \t\r]*[a-z]\+\([ \t\r]\+[0-9]\+\)*\)\@<=[ \t\r]\+[0-9]\{1,18\}\ze\([ \t\r#]\|$\)" contained
syntax match pxCommand  "^[ \t\r]*\zs\(step\|macro\|run\|until\|back\|at\|pixel\|field\|tree\|trace\|quit\)\ze\([ \t\r#]\|$\)" contained

highlight default link pxEnd     Keyword
highlight default link pxCommand Statement
highlight default link pxAsked   Number
highlight default link pxUnknown Error
highlight default link pxNote    Comment

let b:current_syntax = "pxsession"
