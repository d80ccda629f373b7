if exists('b:did_ftplugin') | finish | endif
let b:did_ftplugin = 1
setlocal cindent shiftwidth=4 expandtab
let b:undo_ftplugin = 'setlocal cindent< shiftwidth< expandtab<'
