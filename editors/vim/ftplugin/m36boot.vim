" Boot texts: names, and :make, which boots and audits the folder.
if exists('b:did_ftplugin')
  finish
endif
let b:did_ftplugin = 1

setlocal iskeyword=@,48-57,_,. commentstring=
compiler m36
let b:undo_ftplugin = 'setlocal iskeyword< commentstring< makeprg< errorformat<'
