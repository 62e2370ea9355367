// The numbers of instructions and registers.

export const RRMOVQ = 2;
export const IRMOVQ = 3;
export const RMMOVQ = 4;
export const MRMOVQ = 5;
export const OPQ = 6;
export const JXX = 7;
export const PUSHQ = 10;
export const POPQ = 11;
export const IADDQ = 12;
export const NONE = 15;
