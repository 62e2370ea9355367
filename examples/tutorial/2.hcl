# Now an instruction waits only for a ret.
bool F_stall = IRET in { D_icode, E_icode, M_icode };
bool D_stall = 0;
bool D_bubble = E_icode == IJXX && !e_Cnd || IRET in { D_icode, E_icode, M_icode };
bool E_bubble = E_icode == IJXX && !e_Cnd;
