" :make with m36: assembles a source, and audits the folder of a boot text. The quickfix list gets
" the refusal with its code; m36-explain says what a code means.
if exists('current_compiler')
  finish
endif
let current_compiler = 'm36'

" m36 names files without their folder: it runs there, and the name of the folder is printed first.
let s:words = &filetype ==# 'm36boot' ? 'audit' : 'alm %:t:r:S > /dev/null'
let &l:makeprg = "(cd %:p:h:S && echo \"m36: folder '$PWD'\" && m36 " . s:words . ')'
let &l:errorformat = "%Dm36: folder '%f',m36: BadFile %f %m %l %c,%-G%.%#"
