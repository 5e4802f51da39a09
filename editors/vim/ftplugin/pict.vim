" Settings for Pict, *.pi.
if exists('b:did_ftplugin') | finish | endif
let b:did_ftplugin = 1
setlocal commentstring={*%s*} comments=s:{*,m:\ \ \ ,e:*}
setlocal makeprg=./pict\ run\ --bare
setlocal errorformat=%f:%l:%c:\ %m
let b:undo_ftplugin = 'setlocal commentstring< comments< makeprg< errorformat<'
