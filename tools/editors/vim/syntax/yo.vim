" Y86-64 object files: an address, bytes, and the source line.
if exists("b:current_syntax")
  finish
endif

syntax include @yoSource <sfile>:p:h/ys.vim
syntax match yoAddress "^\s*0x\x\+:" nextgroup=yoBytes skipwhite
syntax match yoBytes "\x\+" contained
syntax region yoLine matchgroup=yoBar start="|" end="$" contains=@yoSource

highlight default link yoAddress Label
highlight default link yoBytes Number
highlight default link yoBar Comment
let b:current_syntax = "yo"
