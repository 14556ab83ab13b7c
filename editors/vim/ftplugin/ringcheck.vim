" Comments, and the program as the compiler: :make checks this file and goes to the line that is refused. The entry of the
" quickfix list has what the line asks for, how that was lost, and how it is fixed.
if exists('b:did_ftplugin')
    finish
endif
let b:did_ftplugin = 1

setlocal commentstring=#\ %s comments=:# expandtab shiftwidth=4
let &l:makeprg = 'ringcheck check --explain %:S'
let &l:errorformat = '%-G%f: accepted,%E%f:%l: refused %m,%E%f:%l: unreadable %m,%-Cwhy: %.%#,%-Csee %.%#,%+C%m'

" :RingcheckDraft [LOG..] opens a draft from these logs, or from those beside this file, and says what comes out.
if !exists('*s:Draft')
    function s:Draft(logs) abort
        let l:logs = empty(a:logs) ? shellescape(expand('%:p:h')) . '/*.log' : a:logs
        let l:told = json_decode(system('ringcheck draft --json ' . l:logs))
        new
        setlocal filetype=ringcheck
        call setline(1, split(get(l:told, 'text', ''), "\n"))
        let l:verdict = get(get(l:told, 'verdict', {}), 'verdict', 'no log was read')
        let l:departed = filter(copy(l:told.logs), 'v:val.answer !=# "followed" && v:val.answer !=# "read"')
        echo join(l:told.notes + [l:verdict] + map(l:departed, 'v:val.log . ": " . v:val.answer'), "\n")
    endfunction
endif
command! -buffer -nargs=* -complete=file RingcheckDraft call <SID>Draft(<q-args>)

let b:undo_ftplugin = 'setlocal commentstring< comments< expandtab< shiftwidth< makeprg< errorformat<|delcommand RingcheckDraft'
