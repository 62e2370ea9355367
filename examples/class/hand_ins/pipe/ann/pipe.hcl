# PIPE with iaddq.
word f_pc = [ M_icode == IJXX && !M_Cnd : M_valA; W_icode == IRET : W_valM; 1 : F_predPC; ];
word f_icode = [ imem_error : INOP; 1 : imem_icode; ];
word f_ifun = [ imem_error : FNONE; 1 : imem_ifun; ];
bool instr_valid = f_icode in { INOP, IHALT, IRRMOVQ, IIRMOVQ, IRMMOVQ, IMRMOVQ,
  IOPQ, IJXX, ICALL, IRET, IPUSHQ, IPOPQ, IIADDQ };
word f_stat = [ imem_error : SADR; !instr_valid : SINS; f_icode == IHALT : SHLT; 1 : SAOK; ];
bool need_regids = f_icode in { IRRMOVQ, IOPQ, IPUSHQ, IPOPQ, IIRMOVQ, IRMMOVQ, IMRMOVQ, IIADDQ };
bool need_valC = f_icode in { IIRMOVQ, IRMMOVQ, IMRMOVQ, IJXX, ICALL, IIADDQ };
word f_predPC = [ f_icode in { IJXX, ICALL } : f_valC; 1 : f_valP; ];
word d_srcA = [ D_icode in { IRRMOVQ, IRMMOVQ, IOPQ, IPUSHQ } : D_rA;
  D_icode in { IPOPQ, IRET } : RRSP; 1 : RNONE; ];
word d_srcB = [ D_icode in { IOPQ, IRMMOVQ, IMRMOVQ, IIADDQ } : D_rB;
  D_icode in { IPUSHQ, IPOPQ, ICALL, IRET } : RRSP; 1 : RNONE; ];
word d_dstE = [ D_icode in { IRRMOVQ, IIRMOVQ, IOPQ, IIADDQ } : D_rB;
  D_icode in { IPUSHQ, IPOPQ, ICALL, IRET } : RRSP; 1 : RNONE; ];
word d_dstM = [ D_icode in { IMRMOVQ, IPOPQ } : D_rA; 1 : RNONE; ];
word d_valA = [ D_icode in { ICALL, IJXX } : D_valP; d_srcA == e_dstE : e_valE;
  d_srcA == M_dstM : m_valM; d_srcA == M_dstE : M_valE;
  d_srcA == W_dstM : W_valM; d_srcA == W_dstE : W_valE; 1 : d_rvalA; ];
word d_valB = [ d_srcB == e_dstE : e_valE; d_srcB == M_dstM : m_valM; d_srcB == M_dstE : M_valE;
  d_srcB == W_dstM : W_valM; d_srcB == W_dstE : W_valE; 1 : d_rvalB; ];
word aluA = [ E_icode in { IRRMOVQ, IOPQ } : E_valA; E_icode in { IIRMOVQ, IRMMOVQ, IMRMOVQ, IIADDQ } : E_valC;
  E_icode in { ICALL, IPUSHQ } : -8; E_icode in { IRET, IPOPQ } : 8; ];
word aluB = [ E_icode in { IRMMOVQ, IMRMOVQ, IOPQ, ICALL, IPUSHQ, IRET, IPOPQ, IIADDQ } : E_valB;
  E_icode in { IRRMOVQ, IIRMOVQ } : 0; ];
word alufun = [ E_icode == IOPQ : E_ifun; 1 : ALUADD; ];
bool set_cc = E_icode in { IOPQ, IIADDQ } && !m_stat in { SADR, SINS, SHLT } && !W_stat in { SADR, SINS, SHLT };
word e_valA = E_valA;
word e_dstE = [ E_icode == IRRMOVQ && !e_Cnd : RNONE; 1 : E_dstE; ];
word mem_addr = [ M_icode in { IRMMOVQ, IPUSHQ, ICALL, IMRMOVQ } : M_valE;
  M_icode in { IPOPQ, IRET } : M_valA; ];
bool mem_read = M_icode in { IMRMOVQ, IPOPQ, IRET };
bool mem_write = M_icode in { IRMMOVQ, IPUSHQ, ICALL };
word m_stat = [ dmem_error : SADR; 1 : M_stat; ];
word w_dstE = W_dstE;
word w_valE = W_valE;
word w_dstM = W_dstM;
word w_valM = W_valM;
word Stat = [ W_stat == SBUB : SAOK; 1 : W_stat; ];
bool F_bubble = 0;
bool F_stall = E_icode in { IMRMOVQ, IPOPQ } && E_dstM in { d_srcA, d_srcB }
  || IRET in { D_icode, E_icode, M_icode };
bool D_stall = E_icode in { IMRMOVQ, IPOPQ } && E_dstM in { d_srcA, d_srcB };
bool D_bubble = E_icode == IJXX && !e_Cnd
  || !(E_icode in { IMRMOVQ, IPOPQ } && E_dstM in { d_srcA, d_srcB })
     && IRET in { D_icode, E_icode, M_icode };
bool E_stall = 0;
bool E_bubble = E_icode == IJXX && !e_Cnd
  || E_icode in { IMRMOVQ, IPOPQ } && E_dstM in { d_srcA, d_srcB };
bool M_stall = 0;
bool M_bubble = m_stat in { SADR, SINS, SHLT } || W_stat in { SADR, SINS, SHLT };
bool W_stall = W_stat in { SADR, SINS, SHLT };
bool W_bubble = 0;
