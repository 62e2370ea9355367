"""Files that a command writes: their folders, and names for them that others' names are made to."""
from __future__ import annotations

import os
import re

from .errors import LabError

LONGEST_NAME = 100


def make_folder(path: str) -> None:
    try:
        os.makedirs(path, exist_ok=True)
    except OSError as fault:
        raise LabError(f"{path}: {fault.strerror}") from fault


def plain_name(name: str, taken: set[str]) -> str:
    """A name of a file for a hand-in that is no path, no option, and not among those that are taken."""
    plain = re.sub(r"[^\w.-]+", "_", name.encode("utf-8", "replace").decode()).strip(".-_") or "hand-in"
    plain, number = plain[:LONGEST_NAME], 1
    unique = plain
    while unique.lower() in taken:
        number += 1
        unique = f"{plain}-{number}"
    taken.add(unique.lower())
    return unique


def write(path: str, text: str, errors: str = "replace") -> None:
    try:
        with open(path, "w", encoding="utf-8", errors=errors) as file:
            file.write(text)
    except OSError as fault:
        raise LabError(f"{path}: {fault.strerror}") from fault
