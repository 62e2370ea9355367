# D waits for a word that is still being loaded, and E gets a bubble.
bool F_stall = E_icode in { IMRMOVQ, IPOPQ } && E_dstM in { d_srcA, d_srcB }
  || IRET in { D_icode, E_icode, M_icode };
bool D_stall = E_icode in { IMRMOVQ, IPOPQ } && E_dstM in { d_srcA, d_srcB };
bool E_bubble = E_icode == IJXX && !e_Cnd
  || E_icode in { IMRMOVQ, IPOPQ } && E_dstM in { d_srcA, d_srcB };
