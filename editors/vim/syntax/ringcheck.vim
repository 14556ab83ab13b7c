" Vim syntax file
" Language: the notation of Ringcheck
if exists('b:current_syntax')
    finish
endif

" Words are cut at blanks alone.
syntax iskeyword @,48-57,_
syntax case match

syntax match ringcheckComment /#.*$/ contains=ringcheckTodo
syntax keyword ringcheckTodo TODO FIXME XXX contained

syntax keyword ringcheckHead ringcheck ring left
syntax keyword ringcheckDeclaration file buffer token pool
syntax keyword ringcheckKind read write fsync nop or
syntax keyword ringcheckThread thread holds
syntax keyword ringcheckBlock lock peek_cqe
syntax keyword ringcheckSide sq cq
syntax keyword ringcheckArm case other none
syntax keyword ringcheckBranch if else any
syntax keyword ringcheckLoop loop keeps when break
syntax keyword ringcheckCall get_sqe prep_read prep_write prep_fsync prep_nop prep_other set_data64
syntax keyword ringcheckCall submit submit_and_wait cqe_get_data64 cqe_seen sq_ready sq_space_left
syntax keyword ringcheckPool put take
syntax keyword ringcheckByte load store fill print

" Behind `pool`, `put` and `take` the pool, where there is no colon.
syntax match ringcheckPoolName /\(\<\(pool\|put\|take\)\s\+\)\@<=[a-z][a-z0-9_]*\(:\|[a-z0-9_]\)\@!/
syntax match ringcheckNumber /\(^\|\s\)\@1<=-\?\(0\|[1-9][0-9]*\)\(\s\|$\)\@=/
syntax match ringcheckItem /\<[a-z][a-z0-9_]*:[0-9]\+\>/ contains=ringcheckCount
syntax match ringcheckCount /:[0-9]\+/hs=s+1 contained
" The number of a thread's copies.
syntax match ringcheckCopies /\[[0-9]\+\]/
syntax match ringcheckOperator /\s\@1<=\(==\|!=\|<=\|>=\|<\|>\|=\|+\|-\)\s\@=/
syntax match ringcheckBrace /[{}]/

highlight default link ringcheckComment Comment
highlight default link ringcheckTodo Todo
highlight default link ringcheckHead PreProc
highlight default link ringcheckDeclaration Type
highlight default link ringcheckKind StorageClass
highlight default link ringcheckThread Structure
highlight default link ringcheckBlock Keyword
highlight default link ringcheckArm Label
highlight default link ringcheckBranch Conditional
highlight default link ringcheckLoop Repeat
highlight default link ringcheckCall Function
highlight default link ringcheckPool Function
highlight default link ringcheckSide Special
highlight default link ringcheckPoolName Type
highlight default link ringcheckByte Statement
highlight default link ringcheckNumber Number
highlight default link ringcheckItem Identifier
highlight default link ringcheckCount Number
highlight default link ringcheckCopies Number
highlight default link ringcheckOperator Operator
highlight default link ringcheckBrace Delimiter

let b:current_syntax = 'ringcheck'
