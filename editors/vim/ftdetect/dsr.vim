" A specification begins with its version, behind blank lines and comments.
autocmd BufRead,BufNewFile *.spec if search('\%^\%(\s*\%(#.*\)\?\n\)*\s*version\s\+[12]\s*;', 'cnw') | set filetype=dsr | endif
