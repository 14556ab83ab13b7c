" The steps of audit/editors in vim: `vim -N -es -u NONE -i NONE -S` this file, in a folder with early.rc and handoff.rc, with
" $EDITORS the folder editors/vim, and $ALE that of ALE or nothing. It writes a line for each step into the file `said`.
set nomore
let &runtimepath = $EDITORS . ',' . &runtimepath
let s:passed = 0
let s:failed = 0

function! s:say(line) abort
    call writefile([a:line], 'said', 'a')
endfunction

" A step, which fails where what is found isn't what is wanted.
function! s:step(name, found, wanted) abort
    if a:found ==# a:wanted
        let s:passed += 1
        call s:say('vim: ' . a:name)
    else
        let s:failed += 1
        call s:say('vim: ' . a:name . ': FAILED: found ' . string(a:found) . ', wanted ' . string(a:wanted))
    endif
endfunction

function! s:has(text, parts) abort
    return filter(copy(a:parts), {_, part -> stridx(a:text, part) < 0})
endfunction

" Waits up to 5 seconds for the entries of ALE.
function! s:entries() abort
    for turn in range(100)
        if !empty(getloclist(0))
            break
        endif
        sleep 50m
    endfor
    return getloclist(0)
endfunction

function! s:main() abort
    filetype plugin indent on
    syntax on
    edit early.rc
    call s:step('a file of the notation has its type', &filetype, 'ringcheck')
    call s:step('a call has its color', synIDattr(synID(8, 1, 1), 'name'), 'ringcheckCall')
    silent make!
    let list = getqflist()
    call s:step(':make has one error, at its line', map(copy(list), {_, one -> [one.lnum, one.type]}), [[18, 'E']])
    let wanted = ['V8', 'NoShare', 'asks for 1 share of a; held: 0', 'fix: Reap request 7 first']
    call s:step(':make shows what the line asks for, and the fix', s:has(get(list, 0, {'text': ''}).text, wanted), [])
    edit handoff.rc
    silent make!
    call s:step(':make has no error for an accepted text', getqflist(), [])
    if !empty($ALE)
        let g:ale_linters = {'ringcheck': ['ringcheck']}
        let &runtimepath .= ',' . $ALE
        runtime plugin/ale.vim
        edit early.rc
        ALELint
        let list = s:entries()
        call s:step('ALE has one error, at its line', map(copy(list), {_, one -> [one.lnum, one.type]}), [[18, 'E']])
        call s:step('ALE shows what the line asks for, and the fix', s:has(get(list, 0, {'text': ''}).text, wanted), [])
    endif
endfunction

try
    call s:main()
catch
    let s:failed += 1
    call s:say('vim: FAILED: ' . v:exception . ' at ' . v:throwpoint)
endtry
call s:say('vim: ' . s:passed . ' passed, ' . s:failed . ' failed')
qall!
