" Sources in ALM: comments, symbols, and :make, which assembles the source.
if exists('b:did_ftplugin')
  finish
endif
let b:did_ftplugin = 1

setlocal commentstring=\"\ %s comments=:\" iskeyword=@,48-57,_,.
compiler m36
let b:undo_ftplugin = 'setlocal commentstring< comments< iskeyword< makeprg< errorformat<'
