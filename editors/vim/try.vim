" Tries the plugin in batch: vim -N -u NONE -es -S try.vim SCRIPT
set runtimepath^=.
filetype plugin indent on
syntax on
edit
call cursor(1, 1)
let s:out = ['filetype ' . &filetype, 'first word ' . synIDattr(synID(1, 1, 1), 'name'), 'indent ' . HolpIndent()]
HolpRun
call add(s:out, len(getqflist()) . ' refused, at line ' . join(map(getqflist(), 'v:val.lnum'), ' '))
call search('^e ')
HolpTo
call add(s:out, 'goals: ' . join(getbufline('holp-goals', 1, '$'), ' / '))
call cursor(1, 1)
HolpRefusal
call add(s:out, 'refusal at line ' . line('.') . ': ' . join(getbufline('holp-goals', 1, '$'), ' / '))
call cursor(1, 1)
HolpStep
call add(s:out, 'one command: up to column ' . col('.') . ' of line ' . line('.'))
HolpStep
HolpBack
call add(s:out, 'and back: column ' . col('.') . ' of line ' . line('.'))
call writefile(s:out, $HOLP_TOLD)
qall!
