"""Compiles and links a program's module for WebAssembly, by the toolchain's own clang and ld.lld."""
import os
import shutil
import subprocess
import tempfile

from wasm import rewriting

HERE = os.path.dirname(os.path.realpath(__file__))
SHIM = f"{HERE}/shim.c"
# The toolchain's own choice for wasm64: this processor, and divisions of more than 64 bits in line.
HOW = (f"--target={rewriting.TRIPLE}", "-mcpu=lime1", "-O2", "-mllvm", "-expand-div-rem-bits=64", "-c")
FREESTANDING = ("-ffreestanding", "-nostdinc", "-fno-builtin", "-Wall", "-Werror", "-Wno-incompatible-library-redeclaration")
SECTIONS = ("-Wno-override-module", "-x", "ir", "-ffunction-sections", "-fdata-sections")
# The stack lies first, so that a stack that is too small is a fault and no silent write. Programs need 64 KB of it.
STACK = 1 << 20
LINKED = ("--no-entry", "--stack-first", "-z", f"stack-size={STACK}", "--export=run", "--gc-sections", "--strip-all", "--fatal-warnings")


class NotCompiled(Exception):
    """Why there is no WebAssembly, and what the tools said."""

    def __init__(self, why: str, said: bytes = b""):
        super().__init__(why)
        self.said = said


def run(words: list[str]) -> None:
    """Runs a tool of the toolchain."""
    made = subprocess.run(words, stdin=subprocess.DEVNULL, stdout=subprocess.PIPE, stderr=subprocess.STDOUT, check=False)
    if made.returncode:
        raise NotCompiled(f"{os.path.basename(words[0])} ended with status {made.returncode}", made.stdout)


def text_of(clang: str, module: str, room: str) -> str:
    """Returns the module as text."""
    run([clang, "-x", "ir", "-S", "-emit-llvm", "-Xclang", "-disable-llvm-passes", "-o", f"{room}/was.ll", module])
    with open(f"{room}/was.ll", encoding="utf-8") as it:
        return it.read()


def compiled(tools: str, module: str, to: str) -> None:
    """Compiles a module, a file of LLVM's, and links it with the shim into the file `to`. `tools` is the toolchain's folder."""
    clang = f"{tools}/bin/clang"
    with tempfile.TemporaryDirectory(prefix="y86-wasm-") as room:
        try:
            text = rewriting.rewritten(text_of(clang, module, room))
        except rewriting.Unknown as it:
            raise NotCompiled("the toolchain's module has a shape that launch/wasm/rewriting.py doesn't know", str(it)[:2000].encode()) from it
        with open(f"{room}/now.ll", "w", encoding="utf-8") as file:
            file.write(text)
        run([clang, *HOW, *SECTIONS, "-o", f"{room}/now.o", f"{room}/now.ll"])
        run([clang, *HOW, *FREESTANDING, "-o", f"{room}/shim.o", SHIM])
        # (lld goes by the name that it is called by)
        os.symlink(f"{tools}/bin/ld.lld", f"{room}/wasm-ld")
        run([f"{room}/wasm-ld", *LINKED, "-o", f"{room}/made.wasm", f"{room}/now.o", f"{room}/shim.o"])
        shutil.copyfile(f"{room}/made.wasm", to)
