" Y86-64: control logic, assembly and object files.
" Other languages use `.hcl` too, so a file is one for Y86-64 only if it defines a word or a Boolean, or is empty.
function! s:detect_hcl() abort
  if line('$') == 1 && getline(1) ==# '' || search('\v^\s*(word|bool|wordsig|boolsig|quote)>', 'cnw')
    set filetype=y86hcl
  endif
endfunction
autocmd BufRead,BufNewFile *.hcl call s:detect_hcl()
autocmd BufRead,BufNewFile *.ys setfiletype ys
autocmd BufRead,BufNewFile *.yo setfiletype yo
