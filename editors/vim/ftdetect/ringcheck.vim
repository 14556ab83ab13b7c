" A file *.rc whose first words are those of the notation. Vim takes others for resource files, and these too before.
autocmd BufNewFile,BufRead *.rc call s:look()

function! s:look() abort
    for line in getline(1, 50)
        if line =~# '^\s*ringcheck\s\+[1-4]\>'
            set filetype=ringcheck
            return
        elseif line !~# '^\s*\(#.*\)\?$'
            return
        endif
    endfor
endfunction
