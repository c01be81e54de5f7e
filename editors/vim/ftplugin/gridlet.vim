" Comments, and `:make` for the file at hand.
if exists('b:did_ftplugin')
  finish
endif
let b:did_ftplugin = 1

setlocal commentstring=;\ %s comments=:;
compiler gridlet

let b:undo_ftplugin = 'setlocal commentstring< comments< makeprg< errorformat<'
