# PIPE, the five-stage pipeline with forwarding, stalls for load/use and ret, and conditional jumps predicted
# taken (CS:APP 3e, section 4.5, figures 4.52 to 4.68).

################ Fetch stage ################

# Where to fetch: where a mispredicted jump or a return goes, else the predicted PC
word f_pc = [ M_icode == IJXX && !M_Cnd : M_valA; W_icode == IRET : W_valM; 1 : F_predPC; ];

# What the fetched instruction is; a failed fetch counts as a nop
word f_icode = [ imem_error : INOP; 1 : imem_icode; ];

# Its function: the operation of an OPq, the condition of a jump or a conditional move
word f_ifun = [ imem_error : FNONE; 1 : imem_ifun; ];

# Is there such an instruction?
bool instr_valid = f_icode in { INOP, IHALT, IRRMOVQ, IIRMOVQ, IRMMOVQ, IMRMOVQ,
  IOPQ, IJXX, ICALL, IRET, IPUSHQ, IPOPQ };

# The status that it takes along: a bad address, an invalid instruction, a halt, or all is well
word f_stat = [ imem_error : SADR; !instr_valid : SINS; f_icode == IHALT : SHLT; 1 : SAOK; ];

# Does it have a register byte?
bool need_regids = f_icode in { IRRMOVQ, IOPQ, IPUSHQ, IPOPQ, IIRMOVQ, IRMMOVQ, IMRMOVQ };

# Does it have a constant word?
bool need_valC = f_icode in { IIRMOVQ, IRMMOVQ, IMRMOVQ, IJXX, ICALL };

# The predicted PC: the target of a call or a jump, else the next instruction
word f_predPC = [ f_icode in { IJXX, ICALL } : f_valC; 1 : f_valP; ];

################ Decode stage ################

# The register that is read as valA
word d_srcA = [ D_icode in { IRRMOVQ, IRMMOVQ, IOPQ, IPUSHQ } : D_rA;
  D_icode in { IPOPQ, IRET } : RRSP; 1 : RNONE; ];

# The register that is read as valB
word d_srcB = [ D_icode in { IOPQ, IRMMOVQ, IMRMOVQ } : D_rB;
  D_icode in { IPUSHQ, IPOPQ, ICALL, IRET } : RRSP; 1 : RNONE; ];

# The register that the result of the ALU goes to
word d_dstE = [ D_icode in { IRRMOVQ, IIRMOVQ, IOPQ } : D_rB;
  D_icode in { IPUSHQ, IPOPQ, ICALL, IRET } : RRSP; 1 : RNONE; ];

# The register that the word from memory goes to
word d_dstM = [ D_icode in { IMRMOVQ, IPOPQ } : D_rA; 1 : RNONE; ];

# valA: the next address for a call or a jump, else the newest word of srcA, the youngest instruction first
word d_valA = [ D_icode in { ICALL, IJXX } : D_valP; d_srcA == e_dstE : e_valE;
  d_srcA == M_dstM : m_valM; d_srcA == M_dstE : M_valE;
  d_srcA == W_dstM : W_valM; d_srcA == W_dstE : W_valE; 1 : d_rvalA; ];

# valB: the newest word of srcB, the youngest instruction first
word d_valB = [ d_srcB == e_dstE : e_valE; d_srcB == M_dstM : m_valM; d_srcB == M_dstE : M_valE;
  d_srcB == W_dstM : W_valM; d_srcB == W_dstE : W_valE; 1 : d_rvalB; ];

################ Execute stage ################

# The ALU's first operand
word aluA = [ E_icode in { IRRMOVQ, IOPQ } : E_valA; E_icode in { IIRMOVQ, IRMMOVQ, IMRMOVQ } : E_valC;
  E_icode in { ICALL, IPUSHQ } : -8; E_icode in { IRET, IPOPQ } : 8; ];

# The ALU's second operand
word aluB = [ E_icode in { IRMMOVQ, IMRMOVQ, IOPQ, ICALL, IPUSHQ, IRET, IPOPQ } : E_valB;
  E_icode in { IRRMOVQ, IIRMOVQ } : 0; ];

# The ALU's function: that of an OPq, else addition
word alufun = [ E_icode == IOPQ : E_ifun; 1 : ALUADD; ];

# Are the flags set? Not behind an instruction that stops the machine
bool set_cc = E_icode == IOPQ && !m_stat in { SADR, SINS, SHLT } && !W_stat in { SADR, SINS, SHLT };

# valA goes on to memory as it is
word e_valA = E_valA;

# The destination, but none for a conditional move whose condition fails
word e_dstE = [ E_icode == IRRMOVQ && !e_Cnd : RNONE; 1 : E_dstE; ];

################ Memory stage ################

# The address in memory
word mem_addr = [ M_icode in { IRMMOVQ, IPUSHQ, ICALL, IMRMOVQ } : M_valE;
  M_icode in { IPOPQ, IRET } : M_valA; ];

# Is a word read?
bool mem_read = M_icode in { IMRMOVQ, IPOPQ, IRET };

# Is a word written? (It is valA)
bool mem_write = M_icode in { IRMMOVQ, IPUSHQ, ICALL };

# The status, now that the address is known to be good or bad
word m_stat = [ dmem_error : SADR; 1 : M_stat; ];

################ Write-back stage ################

# The register that valE is written to
word w_dstE = W_dstE;

# The word that is written there
word w_valE = W_valE;

# The register that valM is written to
word w_dstM = W_dstM;

# The word that is written there
word w_valM = W_valM;

# The status of the machine; a bubble goes on
word Stat = [ W_stat == SBUB : SAOK; 1 : W_stat; ];

################ Pipeline register control ################

# F is never bubbled
bool F_bubble = 0;

# F waits for a load/use hazard, and while a ret is on its way
bool F_stall = E_icode in { IMRMOVQ, IPOPQ } && E_dstM in { d_srcA, d_srcB }
  || IRET in { D_icode, E_icode, M_icode };

# D waits for a load/use hazard
bool D_stall = E_icode in { IMRMOVQ, IPOPQ } && E_dstM in { d_srcA, d_srcB };

# D is emptied behind a mispredicted jump, and while a ret is on its way unless D waits
bool D_bubble = E_icode == IJXX && !e_Cnd
  || !(E_icode in { IMRMOVQ, IPOPQ } && E_dstM in { d_srcA, d_srcB })
     && IRET in { D_icode, E_icode, M_icode };

# E is never stalled
bool E_stall = 0;

# E is emptied behind a mispredicted jump, and for a load/use hazard
bool E_bubble = E_icode == IJXX && !e_Cnd
  || E_icode in { IMRMOVQ, IPOPQ } && E_dstM in { d_srcA, d_srcB };

# M is never stalled
bool M_stall = 0;

# M is emptied behind an instruction that stops the machine
bool M_bubble = m_stat in { SADR, SINS, SHLT } || W_stat in { SADR, SINS, SHLT };

# W keeps the instruction that stops the machine
bool W_stall = W_stat in { SADR, SINS, SHLT };

# W is never bubbled
bool W_bubble = 0;
