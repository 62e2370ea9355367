# If the jump is in M already, and D and E hold bubbles, the fetch goes to its target from M.
word f_pc = [
  E_icode == IJXX && E_ifun != UNCOND && e_Cnd : E_valC;
  M_icode == IJXX && M_ifun != UNCOND && M_Cnd && D_stat == SBUB && E_stat == SBUB : M_valE;
  W_icode == IRET : W_valM;
  1 : F_predPC;
];
