if exists('b:did_ftplugin') | finish | endif
let b:did_ftplugin = 1
setlocal lisp autoindent commentstring=;\ %s comments=:; iskeyword+=- lispwords+=proc,seq,loop,if,begin,call
let b:undo_ftplugin = 'setlocal lisp< autoindent< commentstring< comments< iskeyword< lispwords<'
