"""The files of rows such as tests/rows/obligations.txt, which break an obligation each."""
from __future__ import annotations

import re
from dataclasses import dataclass

ROW = re.compile(r"^# ([OS]\d+(?: of SEQ\+)?): .*\ndesign \S+ (\S+)\n((?:\|.*\n)*)", re.M)


@dataclass(frozen=True)
class BrokenFile:
    """A file of the examples with other definitions."""

    obligation: str
    base: str
    definitions: str


def broken_files(text: str) -> list[BrokenFile]:
    """The files of the rows: of each its name, its design, and the lines with definitions below."""
    return [
        BrokenFile(obligation, f"{base}.hcl", "\n".join(line[1:] for line in lines.splitlines()))
        for obligation, base, lines in ROW.findall(text)
    ]
