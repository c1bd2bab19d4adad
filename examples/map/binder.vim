" Goes from the identifier under the cursor to the one that binds it, where the call of Vim is in the program's folder.
function! Binder()
  let here = printf('%s:%d:%d', expand('%'), line('.'), charcol('.'))
  for line in systemlist('scheme-expand --write xref ' . shellescape(expand('%')))
    let [from, to] = split(line)
    let place = matchlist(to, '\v^(.*):(\d+):(\d+)$')
    if from ==# here && !empty(place)
      execute 'edit' fnameescape(place[1])
      call setcursorcharpos(place[2], place[3])
    endif
  endfor
endfunction
