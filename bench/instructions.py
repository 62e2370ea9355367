#!/usr/bin/env python3
"""Counts the instructions of the processor that a step and a cycle take: `python3 bench/instructions.py [PROGRAM]` prints rows of the table of docs/BENCH.md.

Two loops are run by valgrind's callgrind at two lengths each, and the difference is divided by that of the lengths. So the count is exact, and other work on
the machine doesn't change it. PROGRAM is the built program, crates/y86/out/y86 without an argument.
"""
import argparse
import os
import re
import subprocess
import sys
import tempfile

TOP = os.path.dirname(os.path.dirname(os.path.realpath(__file__)))
DESIGNS = f"{TOP}/examples/designs"

# A loop that stores, loads, adds and jumps, and one with calls, the stack, conditional moves and jumps that are predicted wrongly.
LOOPS = {
    "plain": """
    irmovq $1, %rcx
    irmovq $0x1000, %rdx
loop:
    rmmovq %rcx, (%rdx)
    mrmovq (%rdx), %rbx
    addq %rcx, %rax
    jmp loop
""",
    "mixed": """
    irmovq $0x1800, %rsp
    irmovq $1, %r8
    irmovq $0x400, %rdi
again:
    irmovq $8, %rsi
    call sum
    rmmovq %rax, 0x100(%rdi)
    jmp again
sum:
    pushq %rbx
    xorq %rax, %rax
    rrmovq %rdi, %rbx
    irmovq $8, %r9
    andq %rsi, %rsi
    jmp test
loop:
    mrmovq (%rbx), %r10
    addq %r10, %rax
    rmmovq %rax, (%rbx)
    addq %r9, %rbx
    cmovg %rax, %r11
    subq %r8, %rsi
test:
    jne loop
    popq %rbx
    ret
""",
}

# What is counted, the arguments before the loop's file and after it, and the two lengths.
CALLS = (
    ("`yis`, a step", ("yis",), (), (10000, 60000)),
    ("`ssim seq.hcl`, a cycle", ("ssim", f"{DESIGNS}/seq.hcl"), (), (2000, 12000)),
    ("`ssimp seq_plus.hcl`, a cycle", ("ssimp", f"{DESIGNS}/seq_plus.hcl"), (), (2000, 12000)),
    ("`psim std.hcl`, a cycle", ("psim", f"{DESIGNS}/std.hcl"), (), (2000, 12000)),
    ("the same with `--trace`", ("psim", f"{DESIGNS}/std.hcl"), ("--trace",), (2000, 12000)),
)


def counted(words):
    """The instructions that a call takes, from start to end."""
    done = subprocess.run(["valgrind", "--tool=callgrind", "--callgrind-out-file=/dev/null", *words], stdout=subprocess.DEVNULL, stderr=subprocess.PIPE, check=False)
    found = re.search(rb"Collected : (\d+)", done.stderr)
    if not found:
        sys.exit(f"valgrind counted nothing: {done.stderr.decode()[-500:]}")
    return int(found[1])


def main():
    parser = argparse.ArgumentParser(description=__doc__, formatter_class=argparse.RawDescriptionHelpFormatter)
    parser.add_argument("program", nargs="?", default=f"{TOP}/crates/y86/out/y86")
    program = parser.parse_args().program
    with tempfile.TemporaryDirectory() as folder:
        for name, source in LOOPS.items():
            with open(f"{folder}/{name}.ys", "w", encoding="utf-8") as file:
                file.write(source)
            with open(f"{folder}/{name}.yo", "wb") as file:
                subprocess.run([program, "yas", f"{folder}/{name}.ys"], stdout=file, check=True)
        print("| what, by callgrind | plain loop | mixed loop |\n|---|---|---|")
        for title, words, behind, (short, long) in CALLS:
            counts = []
            for name in LOOPS:
                call = [program, *words, f"{folder}/{name}.yo", *behind, "--limit"]
                counts.append((counted([*call, str(long)]) - counted([*call, str(short)])) / (long - short))
            print(f"| {title} | " + " | ".join(f"{count:,.0f} instructions" for count in counts) + " |", flush=True)


if __name__ == "__main__":
    main()
