" Boot texts of m36. `editors/make` writes the lists of names.
if exists('b:current_syntax')
  finish
endif
syntax case match

syntax match m36bootDirectory / \zs[A-Za-z0-9_.]*>[A-Za-z0-9_.>]*/
syntax match m36bootMode / \zs\%(null\|r\?e\?w\?p\?\)\ze\%( [0-7]\)\{3}$/
syntax match m36bootRing /\%( [0-7]\)\{3}$/
syntax match m36bootRing /\%(^start \)\@<=[0-7]\ze /
syntax match m36bootEntry / \zs[A-Za-z0-9_.]\+\$[A-Za-z0-9_.]\+$/
syntax match m36bootNumber /\%(^frames \)\@<=\d\+$/

" begin names
syntax match m36bootLine /^\%(frames\|work\|library\|segment\|name\|start\)\ze /
syntax match m36bootKind / \zs\%(object\|gate\|data\)\ze [rewpnul]\+\%( [0-7]\)\{3}$/
" end names

highlight default link m36bootLine Statement
highlight default link m36bootKind Type
highlight default link m36bootDirectory Directory
highlight default link m36bootMode Special
highlight default link m36bootRing Number
highlight default link m36bootNumber Number
highlight default link m36bootEntry Identifier

let b:current_syntax = 'm36boot'
