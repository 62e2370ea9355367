"""Compiles the module of a program, made for x86-64 by the toolchain, for WebAssembly.

`keeping` gets the module, `rewriting` makes it one for 32-bit addresses, `compiling` calls clang and the linker, and `shim.c` stands in for the C library.
"""
