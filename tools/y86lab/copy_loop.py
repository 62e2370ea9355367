"""A copy function of the book's lab, part C, assembled into a driver and run on many lengths, and its score."""
from __future__ import annotations

import os
import random
import re
from functools import lru_cache
from typing import Optional, Sequence

from .calls import Answer, Limits, Programs, read_text
from .errors import LabError

LENGTHS, LARGER = range(65), (128, 192, 256)
ALL_LENGTHS = (*LENGTHS, *LARGER)
LONGEST = max(ALL_LENGTHS)
MOST_BYTES, MEMORY = 1000, "65536"
UNTOUCHED, GUARD = 0xCDEFAB, 0xBCDEFA
STACK = range(0x7000, 0x8000)
MOST_POINTS, BEST_MEAN, WORST_MEAN = 60.0, 7.5, 10.5
# The driver, around the function. The words that are copied, their number, and the places for the copy come later:
# a line of an object file may overwrite the bytes of those before it.
FIRST = """    irmovq lab_stack, %rsp
    irmovq lab_from, %rdi
    irmovq lab_to, %rsi
    irmovq $0, %rdx
    call ncopy
    halt
lab_begin:
"""
PLACES = "    .quad 0\n" * (LONGEST + 1)
LAST = f"""
lab_end:
    .align 8
lab_from:
{PLACES}lab_to:
{PLACES}    .align 16
    .pos 0x8000
lab_stack:
"""
# The address of the constant of the fourth instruction, the number of words.
NUMBER_OF_WORDS = 32


def score(mean: float) -> float:
    """The points for a mean of the cycles per element: nothing above 10.5, 60 below 7.5, a line between."""
    if mean > WORST_MEAN:
        return 0.0
    return MOST_POINTS if mean < BEST_MEAN else MOST_POINTS / (WORST_MEAN - BEST_MEAN) * (WORST_MEAN - mean)


@lru_cache(maxsize=None)
def words_of(length: int) -> list[int]:
    """The words that are copied: signs at random, the same at each call."""
    chance = random.Random(length)
    return [chance.choice((-1, 1)) * (number + 1) for number in range(length)]


def hexadecimal(words: Sequence[int]) -> str:
    """The bytes of some words, as an object file has them."""
    return b"".join((word % (1 << 64)).to_bytes(8, "little") for word in words).hex()


@lru_cache(maxsize=None)
def data_of(length: int) -> str:
    """The bytes from `lab_from` on: so many words, and a guard in each other place; then the places for the copy."""
    copied = [*words_of(length), *[GUARD] * (LONGEST + 1 - length)]
    return hexadecimal([*copied, *[UNTOUCHED] * (LONGEST + 1)])


def line_of(listing: str, name: str) -> re.Match[str]:
    """The line of a label: its address, and where it begins. (A comment may have all but the first `|`.)"""
    match = re.search(rf"^0x([0-9a-f]+):[^|\n]*\| {name}:", listing, re.M)
    if not match:
        raise LabError(f"the listing has no label {name}")
    return match


def address_of(listing: str, name: str) -> int:
    return int(line_of(listing, name)[1], 16)


class CopyLoop:
    """A copy function, with the cycles of each length that was run. The folder is for the drivers."""

    def __init__(self, programs: Programs, source: str, flags: list[str], folder: str, limits: Limits) -> None:
        self.programs, self.source, self.function = programs, source, read_text(source)
        self.flags, self.folder, self.limits = flags, folder, limits
        self.cycles: dict[int, int] = {}
        self.listing = ""

    def path(self, name: str) -> str:
        return os.path.join(self.folder, name)

    def assemble(self) -> str:
        """The listing of the function in its driver."""
        if not self.listing:
            with open(self.path("driver.ys"), "w", encoding="utf-8") as file:
                file.write(f"{FIRST}{self.function}{LAST}")
            words = ["yas", self.path("driver.ys"), "--mem", MEMORY, *self.flags]
            answer = self.programs.run(*words, limits=self.limits)
            if answer.status != 0:
                raise LabError(self.assembly_fault(answer))
            self.listing = answer.out
        return self.listing

    def size(self) -> int:
        """The bytes of the function."""
        listing = self.assemble()
        return address_of(listing, "lab_end") - address_of(listing, "lab_begin")

    def assembly_fault(self, answer: Answer) -> str:
        """What is wrong with the function, by the assembler's answer on its driver."""
        match = re.search(r":(\d+): (.*)", answer.err)
        if not match:
            return answer.err.strip().replace(self.path("driver.ys"), self.source) or "the assembler gives no answer"
        line, reason = int(match[1]) - FIRST.count("\n"), match[2]
        lines = self.function.split("\n")
        if line < 1:
            return f"{self.source}: it defines no label `ncopy`"
        if line > len(lines):
            return f"{self.source}: with the labels `lab_..` and the data that follow it: {reason}"
        has_iaddq = "iaddq" in lines[line - 1].split("#")[0] and not self.flags
        return f"the function, line {line}: {reason}{' (`iaddq` needs `--full`)' if has_iaddq else ''}"

    def object_file(self, length: int) -> str:
        """The driver with so many words."""
        path = self.path(f"{length}.yo")
        start = line_of(self.assemble(), "lab_from")
        code = self.listing[: start.start()]
        with open(path, "w", encoding="utf-8") as file:
            file.write(f"{code}0x{NUMBER_OF_WORDS:x}: {hexadecimal([length])} |\n0x{start[1]}: {data_of(length)} |\n")
        return path

    def faults(self, processor: str, lengths: Sequence[int], most: int) -> list[str]:
        """The first faults of the copies of so many words, by instructions and on a pipeline."""
        copy, calls, runs = address_of(self.assemble(), "lab_to"), [], []
        for length in lengths:
            limit = 1000 * (length + 1)
            words = [self.object_file(length), "--mem", MEMORY, *self.flags, "--limit", str(limit)]
            calls += [["yis", *words], ["psim", processor, *words]]
            runs += [(length, "yis", f"{limit} steps"), (length, "psim", f"{limit} cycles")]
        faults = []
        for (length, name, limit_in_words), answer in zip(runs, self.programs.run_all(calls, self.limits, most)):
            ran = re.search(r"^Ran (\d+) cycles", answer.out, re.M)
            if ran:
                self.cycles[length] = int(ran[1])
            fault = result_fault(answer.out, length, copy)
            if answer.status is None:
                fault = "it gave no report in time"
            elif "Status 'AOK'" in answer.out:
                fault = f"it doesn't end within {limit_in_words}"
            if fault:
                faults.append(f"length {length}, {name}: {fault}")
        return faults[:most]

    def mean(self) -> float:
        """The mean of the cycles per element over lengths 1 to 64."""
        return sum(self.cycles[length] / length for length in range(1, 65)) / 64


def result_fault(report: str, length: int, copy: int) -> Optional[str]:
    """What is wrong with the report of a run on so many words, with the copy at this address."""
    status = re.search(r"Status '(\w+)'", report)
    if not status or status[1] != "HLT":
        return f"it ends with {status[1] if status else 'no report'}"
    words = words_of(length)
    counted = re.search(r"^%rax:\t\S+\t0x(\w+)", report, re.M)
    count, positive = int(counted[1], 16) if counted else 0, sum(word > 0 for word in words)
    if count != positive:
        return f"%rax is {count}, and {positive} words are positive"
    memory = {
        int(address, 16): int(word, 16) for address, word in re.findall(r"^0x(\w+):\t\S+\t0x(\w+)", report, re.M)
    }
    for number, word in enumerate(words):
        if memory.pop(copy + 8 * number, UNTOUCHED) != word % (1 << 64):
            return f"word {number} isn't copied"
    outside = [address for address in memory if address not in STACK]
    return f"it writes at 0x{outside[0]:x}, outside the copy and the stack" if outside else None
