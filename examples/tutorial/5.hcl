# While D waits, a ret doesn't bubble it.
bool D_bubble = E_icode == IJXX && !e_Cnd
  || !(E_icode in { IMRMOVQ, IPOPQ } && E_dstM in { d_srcA, d_srcB })
     && IRET in { D_icode, E_icode, M_icode };
