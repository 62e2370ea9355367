" `:compiler y86`, then `:make`: `y86-lab explain --places` for HCL, `y86-tell fault` for assembly. `:cnext` goes to the places.
if exists('current_compiler')
  finish
endif
let current_compiler = 'y86'

" g:y86_folder names the folder of the workbench, if it isn't on the PATH.
let s:folder = exists('g:y86_folder') ? g:y86_folder . '/' : ''
if &filetype ==# 'ys'
  let &l:makeprg = s:folder . 'y86-tell fault %:S'
else
  let &l:makeprg = s:folder . 'y86-lab explain --places %:S'
endif
setlocal errorformat=%f:%l:%c:\ %m,%f:%l:\ %m
