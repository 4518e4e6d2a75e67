" The files of ga-bench. Others with these names keep the filetype that they have.
autocmd BufNewFile,BufRead *.source call s:Found('gasource', '^\s*node\s\+\d')
autocmd BufNewFile,BufRead *.larger call s:Found('galarger', '^\s*\%(node\s\+\d\|const\s\|body\s\|include\s\)')
autocmd BufNewFile,BufRead *.transcript call s:Found('gatranscript', '^profile 2$')
autocmd BufNewFile,BufRead *.replay call s:Found('gasession', '^profile [12]$')

" Sets the filetype if one of the first lines matches, or if the buffer is empty.
function! s:Found(filetype, pattern) abort
  if match(getline(1, 300), a:pattern) >= 0 || getline(1, '$') ==# ['']
    execute 'setfiletype' a:filetype
  endif
endfunction
