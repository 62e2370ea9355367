# Conditional jumps are predicted as not taken.
word f_predPC = [ f_icode == ICALL || f_icode == IJXX && f_ifun == UNCOND : f_valC; 1 : f_valP; ];
