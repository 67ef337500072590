" Algorithms in the round language, and what roundc runs them by. Others have files *.setup and
" *.header too, so the first line of one that is no comment has to be roundc's.
autocmd BufRead,BufNewFile *.rounds setfiletype rounds
autocmd BufRead,BufNewFile *.schedule,*.omissions setfiletype roundschedule
autocmd BufRead *.setup,*.header
      \ if join(getline(1, 100), "\n") =~# '^\%(#[^\n]*\n\|\n\)*nodes \d\+\s*\%(\n\|$\)' |
      \   setfiletype roundschedule |
      \ endif
