"""The hand-ins of a class: a folder for each name, or files that begin with the names.

No link out of the folder is followed. A name that begins with a dot, such as `.git`, is no hand-in's.
"""
from __future__ import annotations

import os
import re
import sys
from dataclasses import dataclass
from typing import Callable, Iterable

# What parts the name from the file in a flat folder.
PARTING = "-_. "


@dataclass(frozen=True)
class HandIn:
    """A name, its files by the names of the rubric, and what is wrong with those that it lacks."""

    name: str
    files: dict[str, str]
    missing: dict[str, str]


def warn(text: str) -> None:
    print(text, file=sys.stderr)


def hand_ins(
    folder: str, wanted: Iterable[str], is_single: bool = False, note: Callable[[str], None] = warn
) -> list[HandIn]:
    """The hand-ins of a folder; of a single hand-in the folder itself. `note` gets what isn't graded."""
    names = list(wanted)
    top = os.path.realpath(folder)
    if is_single:
        return [in_folder(os.path.basename(top), top, top, names, note)]
    entries = sorted((it for it in os.scandir(folder) if it.name[0] != "."), key=lambda entry: entry.name)
    folders = [entry for entry in entries if entry.is_dir()]
    if folders:
        for entry in entries:
            if entry not in folders:
                note(f"{entry.name}: passed over, for the hand-ins are the folders beside it")
        return [in_folder(entry.name, entry.path, top, names, note) for entry in folders]
    return flat([entry.path for entry in entries], top, names, note)


def in_folder(name: str, folder: str, top: str, wanted: list[str], note: Callable[[str], None]) -> HandIn:
    """The hand-in of a folder: each file there, or in the first folder below that has it."""
    files, missing = {}, {}
    below: list[str] = []
    if is_inside(folder, top):
        below = sorted(entry.name for entry in os.scandir(folder) if entry.is_dir(follow_symlinks=False))
    for file in wanted:
        path = os.path.join(folder, file)
        if not os.path.lexists(path):
            places = [place for place in below if os.path.lexists(os.path.join(folder, place, file))]
            if len(places) > 1:
                others = ", ".join(f"in {place}/" for place in places[:-1])
                note(f"{name}: {file} is {others} and in {places[-1]}/; {places[0]}/{file} is graded")
            path = os.path.join(folder, places[0], file) if places else path
        fault = fault_of(path, top)
        if fault:
            missing[file] = fault
        else:
            files[file] = path
    return HandIn(name, files, missing)


def flat(paths: list[str], top: str, wanted: list[str], note: Callable[[str], None]) -> list[HandIn]:
    """Hand-ins of files such as `ann_pipe.hcl`; of one file alone also `ann.hcl`."""
    found: dict[str, HandIn] = {}
    for path in paths:
        base = os.path.basename(path)
        for file in wanted:
            match = re.fullmatch(rf"(.+)[{re.escape(PARTING)}]{re.escape(file)}", base, re.S)
            name = match[1] if match else ""
            if not name and len(wanted) == 1 and os.path.splitext(base)[1] == os.path.splitext(file)[1]:
                name = os.path.splitext(base)[0]
            if not name:
                continue
            hand_in = found.setdefault(name, HandIn(name, {}, {each: "it is missing" for each in wanted}))
            fault = fault_of(path, top)
            if file in hand_in.files:
                note(f"{base}: passed over, for {os.path.basename(hand_in.files[file])} is graded")
            elif fault:
                hand_in.missing[file] = fault
            else:
                hand_in.files[file] = path
                del hand_in.missing[file]
            break
        else:
            note(f"{base}: passed over, for its name ends in none of {', '.join(wanted)}")
    return [found[name] for name in sorted(found)]


def is_inside(path: str, top: str) -> bool:
    return os.path.commonpath([os.path.realpath(path), top]) == top


def fault_of(path: str, top: str) -> str:
    """Why a path is no file to grade; empty if it is one."""
    if not os.path.lexists(path):
        return "it is missing"
    if not is_inside(path, top):
        return "it is a link out of the folder"
    if not os.path.isfile(path):
        return "it is no regular file"
    if not os.access(path, os.R_OK):
        return "it can't be read"
    try:
        path.encode()
    except UnicodeEncodeError:
        return "its name isn't UTF-8"
    return ""
