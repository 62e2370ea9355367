# Forwarding: the word of a register comes from where an older instruction has it.
word d_valA = [
  D_icode in { ICALL, IJXX } : D_valP;
  d_srcA == M_dstM : m_valM;
  d_srcA == M_dstE : M_valE;
  d_srcA == e_dstE : e_valE;
  d_srcA == W_dstM : W_valM;
  d_srcA == W_dstE : W_valE;
  1 : d_rvalA;
];
word d_valB = [
  d_srcB == M_dstM : m_valM;
  d_srcB == M_dstE : M_valE;
  d_srcB == e_dstE : e_valE;
  d_srcB == W_dstM : W_valM;
  d_srcB == W_dstE : W_valE;
  1 : d_rvalB;
];
