" What vim does with editors/cycc.vim: run by editors/test with $FILE, and $CYCC as the command. What is wrong is written beside the file.
set nomore shortmess+=at shellpipe=>%s\ 2>&1
syntax on
let g:cycc = $CYCC
execute 'source ' . $EDITORS . '/cycc.vim'

function! Fail(words)
  call writefile(['vim: ' . a:words], $FILE . '.said')
  cquit 1
endfunction

function! Colour(line, words)
  let column = stridx(getline(a:line), a:words) + 1
  return column == 0 ? 'no such words' : synIDattr(synID(a:line, column, 1), 'name')
endfunction

execute 'edit ' . fnameescape($FILE)
silent! make
let faults = filter(getqflist(), 'v:val.valid')
if len(faults) != 1 || faults[0].lnum != 6 || faults[0].col != 12 || faults[0].text !~# 'Name' | call Fail('make: not the fault: ' . string(faults)) | endif
if line('.') != 6 || col('.') != 12 | call Fail('make: the cursor is elsewhere') | endif
call append(0, ['int *`r p = "a\n"; // `s', "char c = '\\x41'; /* if", '*/'])
for [line, words, wanted] in [[1, 'int', 'Type'], [1, '`r', 'Region'], [1, '\n', 'String'], [1, '`s', 'Comment'], [2, "'\\x41", 'Character'], [2, 'if', 'Comment'],
  \ [7, 'NULL', 'Constant'], [7, '1', 'Number'], [9, 'return', 'Statement']]
  if Colour(line, words) !=# 'cyc' . wanted | call Fail('colours: ' . words . ' is ' . Colour(line, words)) | endif
endfor
qall!
