# SEQ, which runs an instruction in each cycle (CS:APP 3e, section 4.3, figure 4.23).

################ Fetch stage ################

# What the instruction is; a failed fetch counts as a nop
word icode = [ imem_error : INOP; 1 : imem_icode; ];

# Its function: the operation of an OPq, the condition of a jump or a conditional move
word ifun = [ imem_error : FNONE; 1 : imem_ifun; ];

# Is there such an instruction?
bool instr_valid = icode in { INOP, IHALT, IRRMOVQ, IIRMOVQ, IRMMOVQ, IMRMOVQ,
  IOPQ, IJXX, ICALL, IRET, IPUSHQ, IPOPQ };

# Does it have a register byte?
bool need_regids = icode in { IRRMOVQ, IOPQ, IPUSHQ, IPOPQ, IIRMOVQ, IRMMOVQ, IMRMOVQ };

# Does it have a constant word?
bool need_valC = icode in { IIRMOVQ, IRMMOVQ, IMRMOVQ, IJXX, ICALL };

################ Decode stage ################

# The register that is read as valA
word srcA = [ icode in { IRRMOVQ, IRMMOVQ, IOPQ, IPUSHQ } : rA;
  icode in { IPOPQ, IRET } : RRSP; 1 : RNONE; ];

# The register that is read as valB
word srcB = [ icode in { IOPQ, IRMMOVQ, IMRMOVQ } : rB;
  icode in { IPUSHQ, IPOPQ, ICALL, IRET } : RRSP; 1 : RNONE; ];

# The register that the result of the ALU goes to: of a conditional move only where its condition holds
word dstE = [ icode == IRRMOVQ && Cnd : rB; icode in { IIRMOVQ, IOPQ } : rB;
  icode in { IPUSHQ, IPOPQ, ICALL, IRET } : RRSP; 1 : RNONE; ];

# The register that the word from memory goes to
word dstM = [ icode in { IMRMOVQ, IPOPQ } : rA; 1 : RNONE; ];

################ Execute stage ################

# The ALU's first operand
word aluA = [ icode in { IRRMOVQ, IOPQ } : valA; icode in { IIRMOVQ, IRMMOVQ, IMRMOVQ } : valC;
  icode in { ICALL, IPUSHQ } : -8; icode in { IRET, IPOPQ } : 8; ];

# The ALU's second operand
word aluB = [ icode in { IRMMOVQ, IMRMOVQ, IOPQ, ICALL, IPUSHQ, IRET, IPOPQ } : valB;
  icode in { IRRMOVQ, IIRMOVQ } : 0; ];

# The ALU's function: that of an OPq, else addition
word alufun = [ icode == IOPQ : ifun; 1 : ALUADD; ];

# Are the flags set?
bool set_cc = icode == IOPQ;

################ Memory stage ################

# The address in memory
word mem_addr = [ icode in { IRMMOVQ, IPUSHQ, ICALL, IMRMOVQ } : valE;
  icode in { IPOPQ, IRET } : valA; ];

# Is a word read?
bool mem_read = icode in { IMRMOVQ, IPOPQ, IRET };

# Is a word written?
bool mem_write = icode in { IRMMOVQ, IPUSHQ, ICALL };

# The word that is written: valA, or the return address of a call
word mem_data = [ icode in { IRMMOVQ, IPUSHQ } : valA; icode == ICALL : valP; ];

# The status: a bad address, an invalid instruction, a halt, or all is well
word Stat = [ imem_error || dmem_error : SADR; !instr_valid : SINS; icode == IHALT : SHLT; 1 : SAOK; ];

################ PC update ################

# The next PC: the target of a call or a jump that is taken, the return address, else the next instruction
word new_pc = [ icode == ICALL : valC; icode == IJXX && Cnd : valC; icode == IRET : valM; 1 : valP; ];
