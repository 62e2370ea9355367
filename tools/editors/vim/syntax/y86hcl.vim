" The control logic of a Y86-64 processor (HCL).
if exists("b:current_syntax")
  finish
endif

syntax keyword y86hclKind word bool int
syntax keyword y86hclDeclaration wordsig boolsig intsig quote
syntax keyword y86hclOperator in
syntax keyword y86hclConstant IHALT INOP IRRMOVQ IIRMOVQ IRMMOVQ IMRMOVQ IOPQ IJXX ICALL IRET IPUSHQ IPOPQ IIADDQ
syntax keyword y86hclConstant FNONE UNCOND ALUADD ALUSUB ALUAND ALUXOR SBUB SAOK SHLT SADR SINS
syntax keyword y86hclConstant RRAX RRCX RRDX RRBX RRSP RRBP RRSI RRDI RNONE
syntax match y86hclRegister "\<[FDEMWp]_\?\(stat\|icode\|ifun\|rA\|rB\|val[ABCEMP]\|dst[EM]\|src[AB]\|Cnd\|predPC\)\>"
syntax match y86hclBlock "\<\(imem_\w\+\|dmem_error\|m_valM\|e_valE\|e_Cnd\|d_rval[AB]\|f_val[CP]\)\>"
syntax match y86hclControl "\<[FDEMW]_\(stall\|bubble\)\>"
syntax match y86hclNumber "-\?\<\d\+\>"
syntax match y86hclSign "||\|&&\|==\|!=\|<=\|>=\|[<>!=:]"
syntax match y86hclComment "#.*$" contains=y86hclTodo
syntax match y86hclHeading "^####.*$"
syntax keyword y86hclTodo TODO FIXME contained
syntax region y86hclQuoted start=+'+ end=+'+ oneline

highlight default link y86hclKind Type
highlight default link y86hclDeclaration PreProc
highlight default link y86hclOperator Operator
highlight default link y86hclSign Operator
highlight default link y86hclConstant Constant
highlight default link y86hclRegister Identifier
highlight default link y86hclBlock Special
highlight default link y86hclControl Statement
highlight default link y86hclNumber Number
highlight default link y86hclComment Comment
highlight default link y86hclHeading Title
highlight default link y86hclTodo Todo
highlight default link y86hclQuoted String
setlocal commentstring=#\ %s
let b:current_syntax = "y86hcl"
