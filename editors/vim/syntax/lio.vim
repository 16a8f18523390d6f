" Scripts of lio (docs/SCRIPTS.md). Copy or link this folder into ~/.vim/pack/lio/start/lio.
if exists("b:current_syntax")
  finish
endif
syntax case match
setlocal iskeyword=a-z,48-57,_
setlocal commentstring=#\ %s

syntax match lioName "[a-z][a-z0-9_]*"
syntax match lioNumber "\%([a-z0-9_]\)\@<!-\?[0-9]\{1,19}\%([a-z0-9_]\)\@!"
syntax match lioOperator "[ \t]\@<=\%(==\|!=\|<=\|<\|=\|+\|-\|\*\|/\|%\)[ \t]\@="
syntax match lioWord "[ \t]\@<=\%(not\|neg\|len\|num\|str\|labelof\|and\|or\|join\|meet\|flows\|from\|upto\|find\|push\|at\|using\)[ \t]\@="
syntax match lioConstant "[a-z0-9_]\@<!\%(true\|false\|unit\)[a-z0-9_]\@!"
syntax match lioConstant "\[\]"
syntax match lioLabel "<[^ \t=<>][^<>]*>"
syntax match lioControl "^[ \t]*\zs\%(proc\|if\|else\|while\|try\|catch\|end\|call\|return\|stop\|throw\|let\)[a-z0-9_]\@!"
syntax match lioFlow "^[ \t]*\zs\%(label\|unlabel\|taint\|lower\|relabel\)[a-z0-9_]\@!"
syntax match lioStatement "^[ \t]*\zs\%(newref\|read\|write\|newvar\|fullvar\|take\|put\|fork\|spawn\|wait\|send\)[a-z0-9_]\@!"
syntax match lioProcedure "\%(^[ \t]*proc[ \t]\+\)\@<=[a-z][a-z0-9_]*"
syntax match lioProcedure "\%(^[ \t]*call[ \t]\+[a-z][a-z0-9_]*[ \t]\+\)\@<=[a-z][a-z0-9_]*"
syntax match lioEscape contained "\\\%(n\|\"\|\\\|x[0-9a-f]\{2}\)"
syntax match lioBadEscape contained "\\\%(n\|\"\|\\\|x[0-9a-f]\{2}\)\@!."
syntax region lioText start=+"+ skip=+\\"\|\\\\+ end=+"+ oneline contains=lioEscape,lioBadEscape
syntax match lioComment "^[ \t]*#.*$"

highlight default link lioControl Keyword
highlight default link lioFlow PreProc
highlight default link lioStatement Statement
highlight default link lioProcedure Function
highlight default link lioOperator Operator
highlight default link lioWord Operator
highlight default link lioConstant Boolean
highlight default link lioNumber Number
highlight default link lioLabel Type
highlight default link lioText String
highlight default link lioEscape SpecialChar
highlight default link lioBadEscape Error
highlight default link lioComment Comment
highlight default link lioName Identifier

let b:current_syntax = "lio"
