if exists('b:did_ftplugin') | finish | endif
let b:did_ftplugin = 1
" A tab breaks rule A1.
setlocal expandtab commentstring=;\ %s comments=:;
let b:undo_ftplugin = 'setlocal expandtab< commentstring< comments<'
