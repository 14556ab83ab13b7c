" Ringcheck as a language server of ALE, the asynchronous lint engine.
call ale#Set('ringcheck_executable', 'ringcheck')

" The documents of Ringcheck, which diagnostics link to where this file stands in its repository.
let s:docs = fnamemodify(resolve(expand('<sfile>:p')), ':h:h:h:h:h') . '/docs'

function! ale_linters#ringcheck#ringcheck#Options(buffer) abort
    return filereadable(s:docs . '/causes.md') ? {'docs': ale#path#ToFileURI(s:docs)} : {}
endfunction

call ale#linter#Define('ringcheck', {
\   'name': 'ringcheck',
\   'lsp': 'stdio',
\   'executable': {buffer -> ale#Var(buffer, 'ringcheck_executable')},
\   'command': '%e lsp',
\   'project_root': {buffer -> fnamemodify(bufname(buffer), ':p:h')},
\   'initialization_options': function('ale_linters#ringcheck#ringcheck#Options'),
\})
