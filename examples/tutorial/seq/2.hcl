# Decode and write-back: it reads rB, and writes it.
word srcB = [ icode in { IOPQ, IRMMOVQ, IMRMOVQ, IIADDQ } : rB;
  icode in { IPUSHQ, IPOPQ, ICALL, IRET } : RRSP; 1 : RNONE; ];
word dstE = [ icode == IRRMOVQ && Cnd : rB; icode in { IIRMOVQ, IOPQ, IIADDQ } : rB;
  icode in { IPUSHQ, IPOPQ, ICALL, IRET } : RRSP; 1 : RNONE; ];
