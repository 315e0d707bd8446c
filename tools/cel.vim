" Vim syntax of Cayuga's query files, and :make that goes to the place of a fault, by `why` beside this file or in PATH.
" Link it as ~/.vim/syntax/cel.vim, and write into ~/.vim/ftdetect/cel.vim:  au BufRead,BufNewFile *.cel setfiletype cel
" It colours words and signs, and knows no grammar: only :make tells whether a file is accepted.
if exists("b:current_syntax") | finish | endif
syn case match
syn keyword celStatement STREAM SELECT FROM PUBLISH AS
syn keyword celOperator FILTER NEXT FOLD UNION AND OR NOT MIN MAX DUR
syn keyword celType INT TEXT
syn match celType "\<DEC\ze\_s\+\d"
syn keyword celBoolean TRUE
syn match celNumber "\<\d\+\(\.\d\+\)\?"
syn match celMark "\$[12]\?\ze\_s*\."
syn match celFault "[^A-Za-z0-9_ \t$(){},;.*+=<>'-]"
syn region celText start=+'+ skip=+''+ end=+'+ oneline
syn match celComment "--.*$"
hi def link celStatement Statement
hi def link celOperator Keyword
hi def link celType Type
hi def link celBoolean Boolean
hi def link celNumber Number
hi def link celMark Special
hi def link celFault Error
hi def link celText String
hi def link celComment Comment
let b:current_syntax = "cel"
let s:why = fnamemodify(resolve(expand("<sfile>:p")), ":h") . "/why"
let &l:makeprg = (executable(s:why) ? fnameescape(s:why) : "why") . " %:S"
setlocal errorformat=%f:%l:%c:\ %m,%-G%.%#
setlocal commentstring=--\ %s
