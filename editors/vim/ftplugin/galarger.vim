" Vim filetype plugin: larger source text of ga-bench.
if exists('b:did_ftplugin')
  finish
endif
let b:did_ftplugin = 1

let &l:comments = 'b:\'
let &l:commentstring = '\ %s'
compiler gabench

let b:undo_ftplugin = 'setlocal comments< commentstring< makeprg< errorformat<'
