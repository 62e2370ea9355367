# It sets the flags too.
bool set_cc = icode in { IOPQ, IIADDQ };
