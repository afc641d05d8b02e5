" Files with the end .cls, which LaTeX and Visual Basic use too: the first line that says something has to begin as one of clsynth does.
function! s:Detect() abort
  let l:number = nextnonblank(1)
  while getline(l:number) =~# '^\s*#'
    let l:number = nextnonblank(l:number + 1)
  endwhile
  let l:words = 'sub|variance|kind|comp|text|cost|filter|leaf|app|other|end|paths|typed|inhabit|batch|list|texts|filtered|grammar|audit|certify|verify|finite|add|drop'
  if l:number == 0 || getline(l:number) =~# '\v^\s*(' . l:words . ')>'
    set filetype=clsynth
  endif
endfunction

autocmd BufNewFile,BufRead *.cls call s:Detect()
