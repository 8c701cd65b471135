" Scripts of bukshena: a text NAME.txt whose first command draws. A modeline, as `# vim: filetype=bukshena`, says it too.
" `make install` puts this where vim and neovim look below /usr; below another prefix, with PREFIX for it:
"   set runtimepath+=PREFIX/share/vim/vimfiles
function! s:Look() abort
  for line in getline(1, 200)
    if line =~# '^\s*\(#.*\)\?$'
      continue
    endif
    let drawing = '^\s*\(point\|line\|fixpoint\|fixline\|on\|through\|along\|pencil\|join\|meet\)\s\+\a\w\{0,7}\s\+[-0-9A-Za-z]\w*\(\s\+-\?\w\+\)\{1,2}\s*$'
    if line =~# drawing || line =~# '^\s*tool\s\+\a\w\{0,7}\s\+[0-8]\s*$'
      setlocal filetype=bukshena
    endif
    return
  endfor
endfunction

autocmd BufRead,BufNewFile *.txt call s:Look()
