" Scripts of bukshena; ftdetect/bukshena.vim says which files these are.
if exists('b:current_syntax')
  finish
endif

syntax match bukshenaComment "^\s*#.*$"
syntax match bukshenaDrawing "^\s*\(point\|line\|fixpoint\|fixline\|on\|through\|along\|pencil\|join\|meet\)\>"
syntax match bukshenaCommand "^\s*\(drag\|drop\|dual\|undo\|redo\|screen\|conjectures\|ledger\|svg\|show\|close\|tool\|use\|end\)\>"
syntax match bukshenaAsking "^\s*\(claim\|certify\)\s\+\(null\|same\|on\|collinear\|concurrent\)\>"
syntax match bukshenaRule "^\s*infer\s\+\(span\|extend\|lie\|unique\|move\)\>"
syntax match bukshenaRule "^\s*zero\>"
syntax match bukshenaNumber "\s\zs-\?\d\{1,4}\ze\(\s\|$\)"

highlight default link bukshenaComment Comment
highlight default link bukshenaDrawing Statement
highlight default link bukshenaCommand Keyword
highlight default link bukshenaAsking Function
highlight default link bukshenaRule Function
highlight default link bukshenaNumber Number

let b:current_syntax = 'bukshena'
