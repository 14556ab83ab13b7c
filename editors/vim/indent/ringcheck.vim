" A block is indented by its braces.
if exists('b:did_indent')
    finish
endif
let b:did_indent = 1

setlocal indentexpr=RingcheckIndent() indentkeys=0},!^F,o,O

let b:undo_indent = 'setlocal indentexpr< indentkeys<'

function! RingcheckIndent() abort
    let above = prevnonblank(v:lnum - 1)
    if above == 0
        return 0
    endif
    let depth = indent(above)
    if substitute(getline(above), '#.*$', '', '') =~# '{\s*$'
        let depth += shiftwidth()
    endif
    if getline(v:lnum) =~# '^\s*}'
        let depth -= shiftwidth()
    endif
    return depth
endfunction
