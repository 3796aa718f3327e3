" Runs of the buffer over `holp run --json`.
"
" :HolpTo       run up to the command at the cursor, and show its goals in a window of their own
" :HolpStep     go to the end of the next command, and do the same there
" :HolpBack     go to the end of the command before, and do the same there
" :HolpRun      run the whole buffer
" :HolpRefusal  run the whole buffer, and go to the next refusal behind the cursor
"
" Each run puts its refusals into the quickfix list.
"
" g:holp_program  the program; g:holp_scripts  files of scripts that are run before the buffer
" b:holp_scripts  the same for one buffer; g:no_holp_maps  no keys are wanted
if exists('b:did_ftplugin')
  finish
endif
let b:did_ftplugin = 1
setlocal indentexpr=HolpIndent() indentkeys=o,O,!^F iskeyword=@,48-57,_,'
let b:undo_ftplugin = 'setlocal indentexpr< indentkeys< iskeyword<'

command! -buffer HolpTo call s:Do(function('s:To'))
command! -buffer HolpStep call s:Do(function('s:Go', ['eW']))
command! -buffer HolpBack call s:Do(function('s:Go', ['beW']))
command! -buffer HolpRun call s:Do(function('s:Whole'))
command! -buffer HolpRefusal call s:Do(function('s:Refusal'))
let b:undo_ftplugin .= ' | delcommand HolpTo | delcommand HolpStep | delcommand HolpBack'
      \ . ' | delcommand HolpRun | delcommand HolpRefusal'

if !exists('g:no_plugin_maps') && !exists('g:no_holp_maps')
  for [s:key, s:command] in [['t', 'To'], ['n', 'Step'], ['p', 'Back'], ['r', 'Run'], ['e', 'Refusal']]
    execute printf('nnoremap <buffer> <silent> <LocalLeader>%s :Holp%s<CR>', s:key, s:command)
    let b:undo_ftplugin .= printf(' | execute "silent! nunmap <buffer> <LocalLeader>%s"', s:key)
  endfor
endif

" A command begins in the first column, its second line two further, and each other line as the one before.
function! HolpIndent() abort
  let l:before = prevnonblank(v:lnum - 1)
  return l:before == 0 || getline(l:before) =~# ';;\s*$' ? 0 : max([2, indent(l:before)])
endfunction

" Calls a function, and tells its error in one line.
function! s:Do(what) abort
  try
    call a:what()
  catch /^holp: /
    echohl ErrorMsg
    echomsg v:exception
    echohl None
  endtry
endfunction

" The records of a run of these lines: those of the buffer's own commands. The refusals of all are listed.
function! s:Run(lines) abort
  let l:program = expand(get(g:, 'holp_program', 'holp'))
  if !executable(l:program)
    throw printf('holp: there is no program `%s`; g:holp_program names it', l:program)
  endif
  let l:scripts = map(copy(get(b:, 'holp_scripts', get(g:, 'holp_scripts', []))), 'expand(v:val)')
  let l:words = [l:program, 'run', '--json'] + l:scripts + ['-']
  let l:output = systemlist(join(map(l:words, 'shellescape(v:val)')), a:lines)
  if index([0, 1], v:shell_error) < 0
    throw 'holp: ' . join(l:output, ' ')
  endif
  let l:records = map(filter(l:output, 'v:val[0] ==# "{"'), 'json_decode(v:val)')
  call s:List(filter(copy(l:records), 's:Refused(v:val)'))
  return filter(l:records, 'v:val.file ==# "-"')
endfunction

function! s:Refused(record) abort
  return type(a:record.refusal) == v:t_dict
endfunction

" Puts refusals into the quickfix list.
function! s:List(refused) abort
  let l:items = []
  for l:record in a:refused
    let l:place = l:record.file ==# '-' ? {'bufnr': bufnr('%')} : {'filename': l:record.file}
    call add(l:items, extend(l:place, {'lnum': l:record.refusal.line, 'col': l:record.refusal.column,
          \ 'text': join(split(l:record.refusal.message, "\n"), ' ')}))
  endfor
  let l:again = getqflist({'title': 0}).title ==# 'holp'
  call setqflist([], l:again ? 'r' : ' ', {'title': 'holp', 'items': l:items})
endfunction

" The lines that show what these records came to: what the last one tells, and the goals that are open behind it.
function! s:Shown(records) abort
  if empty(a:records)
    return ['There is no command.']
  endif
  let l:last = a:records[-1]
  let l:proofs = filter(copy(a:records), 'type(v:val.goals) == v:t_list')
  let l:lines = []
  if s:Refused(l:last)
    let l:lines = split(l:last.refusal.message, "\n") + ['']
  elseif empty(l:last.goals)
    let l:lines = (empty(l:last.text) ? ['accepted'] : split(l:last.text, "\n")) + ['']
  endif
  return empty(l:proofs) || empty(l:proofs[-1].goals) ? l:lines : l:lines + s:Goals(l:proofs[-1])
endfunction

" The lines that show the goals of a record.
function! s:Goals(record) abort
  let l:lines = [split(a:record.text, "\n")[0], '']
  for l:goal in a:record.goals
    let l:number = 0
    for l:assumption in l:goal.assumptions
      call add(l:lines, printf('%3d [`%s`]', l:number, l:assumption))
      let l:number += 1
    endfor
    if l:number > 0
      call add(l:lines, repeat('-', 40))
    endif
    let l:lines += ['`' . l:goal.conclusion . '`', '']
  endfor
  return l:lines
endfunction

" Shows these lines in the window of goals.
function! s:Show(lines) abort
  let l:here = win_getid()
  let l:window = bufwinid(get(s:, 'goals', -1))
  if l:window == -1
    silent botright 12split holp-goals
    setlocal buftype=nofile bufhidden=hide noswapfile nobuflisted
    setlocal wrap linebreak winfixheight nonumber norelativenumber nospell
    let s:goals = bufnr('%')
  else
    call win_gotoid(l:window)
  endif
  setlocal modifiable
  silent %delete _
  call setline(1, a:lines)
  setlocal nomodifiable
  call win_gotoid(l:here)
endfunction

" The place where the command at the cursor ends. Behind a command, white space counts as part of it.
function! s:End() abort
  let l:place = searchpos('\S', 'bcnW')
  if l:place[0] == 0 || getline(l:place[0])[: l:place[1] - 1] !~# ';;$'
    let l:place = searchpos(';;', 'cenW')
  endif
  return l:place[0] == 0 ? [line('$'), col([line('$'), '$'])] : l:place
endfunction

function! s:To() abort
  let [l:line, l:column] = s:End()
  let l:records = s:Run(getline(1, l:line - 1) + [strpart(getline(l:line), 0, l:column)])
  call s:Show(s:Shown(l:records))
  call s:Tell(l:records)
endfunction

function! s:Go(flags) abort
  if search(';;', a:flags) == 0
    throw 'holp: there is no further command'
  endif
  call s:To()
endfunction

function! s:Whole() abort
  let l:records = s:Run(getline(1, '$'))
  call s:Show(s:Shown(l:records))
  call s:Tell(l:records)
endfunction

" Tells how many commands were run and refused.
function! s:Tell(records) abort
  let l:refused = len(filter(copy(a:records), 's:Refused(v:val)'))
  let l:before = len(getqflist()) - l:refused
  echo printf('%d commands, %d refused', len(a:records), l:refused)
        \ . (l:before == 0 ? '' : printf(', and %d in the scripts before', l:before))
endfunction

function! s:Refusal() abort
  let l:records = s:Run(getline(1, '$'))
  let l:found = filter(range(len(l:records)), 's:Refused(l:records[v:val])')
  if empty(l:found)
    call s:Show(s:Shown(l:records))
    call s:Tell(l:records)
    return
  endif
  let l:behind = filter(copy(l:found), 's:Behind(l:records[v:val].refusal)')
  let l:index = empty(l:behind) ? l:found[0] : l:behind[0]
  call cursor(l:records[l:index].refusal.line, l:records[l:index].refusal.column)
  call s:Show(s:Shown(l:records[: l:index]))
  echo printf('refusal %d of %d', index(l:found, l:index) + 1, len(l:found))
endfunction

" Whether a refusal stands behind the cursor.
function! s:Behind(refusal) abort
  return a:refusal.line > line('.') || a:refusal.line == line('.') && a:refusal.column > col('.')
endfunction
