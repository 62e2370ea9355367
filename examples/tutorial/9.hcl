# A mispredicted jump is repaired while it is in E, where its condition is known: the fetch goes on at its target.
word f_pc = [ E_icode == IJXX && E_ifun != UNCOND && e_Cnd : E_valC; W_icode == IRET : W_valM; 1 : F_predPC; ];
