# What is fetched while the jump is in E is right, and enters D.
bool D_bubble = !(E_icode in { IMRMOVQ, IPOPQ } && E_dstM in { d_srcA, d_srcB })
  && IRET in { D_icode, E_icode, M_icode };
