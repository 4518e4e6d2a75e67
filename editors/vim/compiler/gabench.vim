" Vim compiler file: ga-bench checks the file. `:make` then goes to the first error, warning or difference.
if exists('current_compiler')
  finish
endif
let current_compiler = 'gabench'

" Errors and warnings of source text and of replay texts have the file's name. Then come the line and a mark.
if &filetype !=# 'gatranscript'
  if &filetype ==# 'gasession'
    CompilerSet makeprg=ga-bench\ replay\ %:S
  else
    CompilerSet makeprg=ga-bench\ lint\ %:S
  endif
  CompilerSet errorformat=%E%f:%l:%c:\ error:\ %m
  CompilerSet errorformat+=%W%f:%l:%c:\ warning:\ %m
  CompilerSet errorformat+=%-C\ \ %.%#
  CompilerSet errorformat+=%Ega-bench:\ %m
  finish
endif

" The first line of the output is the file's name, since errors of `check` don't have it.
CompilerSet makeprg=(echo\ %:S;\ ga-bench\ check\ %:S)

" The name; counts, which aren't errors; errors in a source that the file names; other errors with a place; those
" without one. Then come the line, a mark and what the error means, or the expected and the actual reply.
CompilerSet errorformat=%-P%f
CompilerSet errorformat+=%-Gsame\ %*\\d
CompilerSet errorformat+=%Ega-bench:\ source\ %l:%c\ %m
CompilerSet errorformat+=%Ega-bench:\ asm\ %*\\d\ %l:%c\ %m
CompilerSet errorformat+=%Ega-bench:\ source\ %f:%l:%c\ %m
CompilerSet errorformat+=%Ega-bench:\ asm\ %*\\d\ %f:%l:%c\ %m
CompilerSet errorformat+=%Ega-bench:\ check\ %m\ %l
CompilerSet errorformat+=%Ega-bench:\ transcript\ line\ %l\ %m
CompilerSet errorformat+=%Ega-bench:\ %m
CompilerSet errorformat+=%-C\ \ %.%#
CompilerSet errorformat+=%+C-%.%#
CompilerSet errorformat+=%+C+%.%#
CompilerSet errorformat+=%Z%m
