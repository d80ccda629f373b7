" The language server of the verified short stack, in Neovim by its own client, and in Vim where ALE is there. Everywhere :make says what is wrong.
if exists('g:loaded_stack') | finish | endif
let g:loaded_stack = 1
let g:stack_path = get(g:, 'stack_path', '@STACK@')
let s:judges = {'gypsy': 'check %:S', 'piton': 'pcheck %:S', 'mini': 'mini %:S /dev/null', 'fm9001': 'asm %:S /dev/null'}

function! s:Make(kind) abort
    if has_key(s:judges, a:kind)
        let &l:makeprg = 'STACK_EXPLAIN=1 ' . shellescape(g:stack_path) . ' ' . s:judges[a:kind]
        setlocal errorformat=%E%f:%l:%c:\ %m,%C\ \ \ \ %m,%-G%.%#
    endif
endfunction

function! s:Serve(kind) abort
    if has('nvim')
        call luaeval('require("stack").serve(_A)', a:kind)
    elseif exists(':ALELint')
        call ale#linter#Define(a:kind, {'name': 'stack', 'lsp': 'stdio', 'executable': g:stack_path,
            \ 'command': '%e editor server', 'project_root': {buffer -> expand('#' . buffer . ':p:h')}, 'language': a:kind})
    endif
endfunction

augroup stack
    autocmd!
    autocmd FileType gypsy,piton,mini,stackvalues,fm9001 call s:Make(expand('<amatch>')) | call s:Serve(expand('<amatch>'))
augroup END
