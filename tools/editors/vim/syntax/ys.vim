" Y86-64 assembly.
if exists("b:current_syntax")
  finish
endif

syntax keyword ysInstruction halt nop ret rrmovq irmovq rmmovq mrmovq addq subq andq xorq iaddq pushq popq call
syntax keyword ysMove cmovle cmovl cmove cmovne cmovge cmovg
syntax keyword ysJump jmp jle jl je jne jge jg
syntax match ysDirective "\.\(pos\|align\|byte\|word\|long\|quad\)\>"
syntax match ysRegister "%\(r[abcd]x\|rsp\|rbp\|rsi\|rdi\|r8\|r9\|r1[0-4]\)\>"
syntax match ysNumber "\$\?-\?\<\(0x\x\+\|\d\+\)\>"
syntax match ysLabel "^\s*[A-Za-z_]\w*\s*:"
syntax match ysComment "\(#\|//\).*$"
syntax region ysComment start="/\*" end="\*/" oneline

highlight default link ysInstruction Statement
highlight default link ysMove Conditional
highlight default link ysJump Conditional
highlight default link ysDirective PreProc
highlight default link ysRegister Identifier
highlight default link ysNumber Number
highlight default link ysLabel Label
highlight default link ysComment Comment
setlocal commentstring=#\ %s
let b:current_syntax = "ys"
