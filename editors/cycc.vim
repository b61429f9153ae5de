" cycc in vim, without a client of the language server. In .vimrc:  source PATH OF THIS REPOSITORY/editors/cycc.vim
" It colours `.cyc` files, and `:make` goes to the first fault. `cycc` is found where it is installed, or by g:cycc.
augroup cycc
  autocmd!
  autocmd BufNewFile,BufRead *.cyc setfiletype cyc
  autocmd FileType cyc call s:settings()
  autocmd Syntax cyc call s:colours()
augroup END

function! s:settings() abort
  setlocal commentstring=//\ %s shiftwidth=4 expandtab cindent errorformat=%f:%l:%c:\ %m
  let &l:makeprg = get(g:, 'cycc', 'cycc') . ' check --all %'
endfunction

function! s:colours() abort
  syntax clear
  syntax keyword cycType char int region_t struct union unsigned uregion_key_t void
  syntax keyword cycConditional case default else if switch
  syntax keyword cycRepeat for while
  syntax keyword cycStatement NewDynamicRegion alias break continue free_ukey let new new_ukey numelts open region return rnew ufree
  syntax keyword cycConstant NULL heap_region unique_region
  syntax match cycType /@tagged\>/
  syntax match cycNumber /\<\(0[xX]\x\+\|\d\+\)[uU]\?\>/
  syntax match cycRegion /`\h\w*/
  syntax match cycCharacter /'\(\\x\x\x\|\\.\|[^\\']\)'/
  syntax region cycString start=/"/ skip=/\\./ end=/"/ oneline
  syntax match cycComment /\/\/.*$/
  syntax region cycComment start=/\/\*/ end=/\*\//
  for [name, group] in items({ 'Type': 'Type', 'Conditional': 'Conditional', 'Repeat': 'Repeat', 'Statement': 'Statement', 'Constant': 'Constant',
    \ 'Number': 'Number', 'Region': 'Identifier', 'Character': 'Character', 'String': 'String', 'Comment': 'Comment' })
    execute 'highlight default link cyc' . name . ' ' . group
  endfor
  let b:current_syntax = 'cyc'
endfunction
