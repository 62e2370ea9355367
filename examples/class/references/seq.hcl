# A right SEQ with iaddq: what is false of a hand-in is judged beside it.
word icode = [ imem_error : INOP; 1 : imem_icode; ];
word ifun = [ imem_error : FNONE; 1 : imem_ifun; ];
bool instr_valid = icode in { INOP, IHALT, IRRMOVQ, IIRMOVQ, IRMMOVQ, IMRMOVQ,
  IOPQ, IJXX, ICALL, IRET, IPUSHQ, IPOPQ, IIADDQ };
bool need_regids = icode in { IRRMOVQ, IOPQ, IPUSHQ, IPOPQ, IIRMOVQ, IRMMOVQ, IMRMOVQ, IIADDQ };
bool need_valC = icode in { IIRMOVQ, IRMMOVQ, IMRMOVQ, IJXX, ICALL, IIADDQ };
word srcA = [ icode in { IRRMOVQ, IRMMOVQ, IOPQ, IPUSHQ } : rA;
  icode in { IPOPQ, IRET } : RRSP; 1 : RNONE; ];
word srcB = [ icode in { IOPQ, IRMMOVQ, IMRMOVQ, IIADDQ } : rB;
  icode in { IPUSHQ, IPOPQ, ICALL, IRET } : RRSP; 1 : RNONE; ];
word dstE = [ icode == IRRMOVQ && Cnd : rB; icode in { IIRMOVQ, IOPQ, IIADDQ } : rB;
  icode in { IPUSHQ, IPOPQ, ICALL, IRET } : RRSP; 1 : RNONE; ];
word dstM = [ icode in { IMRMOVQ, IPOPQ } : rA; 1 : RNONE; ];
word aluA = [ icode in { IRRMOVQ, IOPQ } : valA; icode in { IIRMOVQ, IRMMOVQ, IMRMOVQ, IIADDQ } : valC;
  icode in { ICALL, IPUSHQ } : -8; icode in { IRET, IPOPQ } : 8; ];
word aluB = [ icode in { IRMMOVQ, IMRMOVQ, IOPQ, ICALL, IPUSHQ, IRET, IPOPQ, IIADDQ } : valB;
  icode in { IRRMOVQ, IIRMOVQ } : 0; ];
word alufun = [ icode == IOPQ : ifun; 1 : ALUADD; ];
bool set_cc = icode in { IOPQ, IIADDQ };
word mem_addr = [ icode in { IRMMOVQ, IPUSHQ, ICALL, IMRMOVQ } : valE;
  icode in { IPOPQ, IRET } : valA; ];
bool mem_read = icode in { IMRMOVQ, IPOPQ, IRET };
bool mem_write = icode in { IRMMOVQ, IPUSHQ, ICALL };
word mem_data = [ icode in { IRMMOVQ, IPUSHQ } : valA; icode == ICALL : valP; ];
word Stat = [ imem_error || dmem_error : SADR; !instr_valid : SINS; icode == IHALT : SHLT; 1 : SAOK; ];
word new_pc = [ icode == ICALL : valC; icode == IJXX && Cnd : valC; icode == IRET : valM; 1 : valP; ];
