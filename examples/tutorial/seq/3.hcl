# Execute: the ALU adds valC and valB.
word aluA = [ icode in { IRRMOVQ, IOPQ } : valA; icode in { IIRMOVQ, IRMMOVQ, IMRMOVQ, IIADDQ } : valC;
  icode in { ICALL, IPUSHQ } : -8; icode in { IRET, IPOPQ } : 8; ];
word aluB = [ icode in { IRMMOVQ, IMRMOVQ, IOPQ, ICALL, IPUSHQ, IRET, IPOPQ, IIADDQ } : valB;
  icode in { IRRMOVQ, IIRMOVQ } : 0; ];
