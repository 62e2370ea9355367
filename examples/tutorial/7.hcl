# So a jump is mispredicted if it is taken, and its target comes from M.
word f_pc = [ M_icode == IJXX && M_ifun != UNCOND && M_Cnd : M_valE; W_icode == IRET : W_valM; 1 : F_predPC; ];
bool D_bubble = E_icode == IJXX && E_ifun != UNCOND && e_Cnd
  || !(E_icode in { IMRMOVQ, IPOPQ } && E_dstM in { d_srcA, d_srcB })
     && IRET in { D_icode, E_icode, M_icode };
bool E_bubble = E_icode == IJXX && E_ifun != UNCOND && e_Cnd
  || E_icode in { IMRMOVQ, IPOPQ } && E_dstM in { d_srcA, d_srcB };
