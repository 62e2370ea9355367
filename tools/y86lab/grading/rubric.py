"""Rubrics: TOML files that say which files a hand-in has, and what is worth how many points (docs/TEACHING.md)."""
from __future__ import annotations

import os
import re
import sys
from dataclasses import dataclass, field
from typing import Any, BinaryIO, Container, Mapping, Optional, Union

from ..counterexample import REGISTERS
from ..errors import USAGE, LabError

if sys.version_info >= (3, 11):
    import tomllib

    def load(file: BinaryIO) -> dict[str, Any]:
        return tomllib.load(file)

else:

    def load(file: BinaryIO) -> dict[str, Any]:
        raise LabError("a rubric needs Python 3.11 or later, which reads TOML", USAGE)


# The labels of the obligations by what they are about, as y86-tell shows them.
Groups = Mapping[str, tuple[str, ...]]
# The entries of a rubric and of an item. Of an item's, the first of KINDS that it has says what gives points.
RUBRIC_ENTRIES = ("name", "full", "item")
KINDS = ("obligations", "reference", "cycles", "bytes", "on")
ITEM_ENTRIES = ("name", "points", "file", *KINDS, "registers", "words")


@dataclass(frozen=True)
class Obligations:
    """Points for the obligations of a file that hold: each counts the same. A right file may help to judge others."""

    file: str
    labels: tuple[str, ...]
    reference: str


@dataclass(frozen=True)
class Program:
    """Points for a program that ends as the reference does: the same registers, and the same words after labels."""

    file: str
    reference: str
    registers: tuple[str, ...]
    words: tuple[tuple[str, int], ...]


@dataclass(frozen=True)
class Run:
    """Points for a program that runs on a processor as its instructions say."""

    file: str
    processor: str


@dataclass(frozen=True)
class Cycles:
    """Points for the cycles per element of a copy loop on a pipeline: all at the best, none at the worst."""

    file: str
    processor: str
    best: float
    worst: float


@dataclass(frozen=True)
class Size:
    """Points for the bytes of a copy loop: all up to the best, none above the worst."""

    file: str
    best: int
    worst: int


Task = Union[Obligations, Program, Run, Cycles, Size]


@dataclass(frozen=True)
class Item:
    """Something that is worth points."""

    name: str
    points: float
    task: Task


@dataclass(frozen=True)
class Rubric:
    """The items of a task, and whether `iaddq` is one of the instructions. The folder has the references."""

    name: str
    full: bool
    items: tuple[Item, ...]
    folder: str = field(default="")

    @property
    def most(self) -> float:
        return sum(item.points for item in self.items)

    def files(self) -> list[str]:
        """The files that a hand-in has."""
        names = [name for item in self.items for name in (getattr(item.task, "processor", ""), item.task.file) if name]
        return list(dict.fromkeys(names))


def read_rubric(path: str, groups: Groups) -> Rubric:
    """The rubric of a file."""
    try:
        with open(path, "rb") as file:
            table = load(file)
    except OSError as fault:
        raise LabError(f"{path}: {fault.strerror}", USAGE) from fault
    except ValueError as fault:
        raise LabError(f"{path}: {fault}", USAGE) from fault
    return rubric_of(path, table, groups)


def rubric_of(path: str, table: dict[str, Any], groups: Groups) -> Rubric:
    reader = TableReader(path, table, RUBRIC_ENTRIES)
    name, full, items = reader.text("name"), reader.truth("full"), table.get("item")
    if not isinstance(items, list) or not items:
        raise LabError(f"{path}: the rubric has no [[item]]", USAGE)
    read = tuple(item_of(f"{path}: item {number}", entry, groups) for number, entry in enumerate(items, 1))
    return Rubric(name, full, read, os.path.dirname(path))


def item_of(place: str, table: object, groups: Groups) -> Item:
    if not isinstance(table, dict):
        raise LabError(f"{place}: an item is a table", USAGE)
    reader = TableReader(place, table, ITEM_ENTRIES)
    name, points = reader.text("name"), reader.number("points")
    if points <= 0:
        raise reader.fault("points", "above 0")
    kind = next((key for key in KINDS if key in table), "")
    if kind == "obligations":
        right = reader.reference() if "reference" in table else ""
        task: Task = Obligations(reader.file("file"), labels_of(reader, groups), right)
    elif kind == "reference":
        words = tuple((label, count) for label, count in reader.counts("words").items())
        task = Program(reader.file("file"), reader.reference(), registers_of(reader), words)
    elif kind == "cycles":
        best, worst = reader.range("cycles")
        task = Cycles(reader.file("file"), reader.file("on"), best, worst)
    elif kind == "bytes":
        least, most = reader.range("bytes")
        task = Size(reader.file("file"), int(least), int(most))
    elif kind == "on":
        task = Run(reader.file("file"), reader.file("on"))
    else:
        raise reader.error("it needs `obligations`, `reference`, `on` or `bytes`")
    reader.end(kind)
    return Item(name, points, task)


def labels_of(reader: TableReader, groups: Groups) -> tuple[str, ...]:
    """Obligations by their labels, or by the names of groups: of a label's processor, where one is named."""
    texts = reader.texts("obligations")
    named = [text for text in texts if text not in groups]
    known = {label for labels in groups.values() for label in labels}
    if not texts or not all(re.fullmatch(r"[OS]\d+", text) for text in named):
        raise reader.fault("obligations", f"labels such as O10, or of these groups: {', '.join(groups)}")
    for text in named:
        if text not in known:
            raise reader.error(f"there is no obligation `{text}`")
    letter = named[0][0] if named else ""
    labels: list[str] = []
    for text in texts:
        own = [label for label in groups.get(text, (text,)) if label.startswith(letter)]
        if not own:
            raise reader.error(f"`obligations`: no processor has `{named[0]}` and `{text}`")
        labels += own
    return tuple(dict.fromkeys(labels))


def registers_of(reader: TableReader) -> tuple[str, ...]:
    names = reader.texts("registers")
    for name in names:
        if name not in REGISTERS:
            right = f"; write `%{name}`" if f"%{name}" in REGISTERS else ""
            raise reader.error(f"`registers`: there is no `{name}`{right}")
    return tuple(names)


class TableReader:
    """The entries of a table, each with its type. One that isn't known is a fault, before all others."""

    def __init__(self, place: str, table: dict[str, Any], entries: Container[str]) -> None:
        self.place, self.table = place, dict(table)
        for key in table:
            if key not in entries:
                raise self.error(f"there is no entry `{key}`")

    def error(self, text: str) -> LabError:
        return LabError(f"{self.place}: {text}", USAGE)

    def fault(self, key: str, wanted: str) -> LabError:
        return self.error(f"`{key}` is to be {wanted}")

    def take(self, key: str, kind: type, wanted: str, absent: Optional[object] = None) -> Any:
        value = self.table.pop(key, absent)
        if not isinstance(value, kind) or isinstance(value, bool) != (kind is bool):
            raise self.fault(key, wanted)
        return value

    def text(self, key: str) -> str:
        return str(self.take(key, str, "a text"))

    def file(self, key: str) -> str:
        """The name of a file of the hand-in, without a folder."""
        name = self.text(key)
        if name != os.path.basename(name) or not name.strip("."):
            raise self.fault(key, "the name of a file, without a folder")
        return name

    def reference(self) -> str:
        path = self.text("reference")
        if not path:
            raise self.fault("reference", "a path from the rubric's folder")
        return path

    def truth(self, key: str) -> bool:
        return bool(self.take(key, bool, "true or false", False))

    def number(self, key: str) -> float:
        value = self.table.pop(key, None)
        if isinstance(value, bool) or not isinstance(value, (int, float)):
            raise self.fault(key, "a number")
        return float(value)

    def texts(self, key: str) -> list[str]:
        values = self.take(key, list, "a list of texts", [])
        if not all(isinstance(value, str) for value in values):
            raise self.fault(key, "a list of texts")
        return list(values)

    def counts(self, key: str) -> dict[str, int]:
        values = self.take(key, dict, "a table of labels with a number of words each", {})
        numbers = [count for count in values.values() if isinstance(count, int) and not isinstance(count, bool)]
        if len(numbers) < len(values) or not all(0 < count <= 10000 for count in numbers):
            raise self.fault(key, "a table of labels with a number of words each")
        return dict(values)

    def range(self, key: str) -> tuple[float, float]:
        """The value for all points, and the one for none."""
        values = self.take(key, list, "two numbers, the better one first")
        numbers = [value for value in values if isinstance(value, (int, float)) and not isinstance(value, bool)]
        if len(values) != 2 or len(numbers) != 2 or numbers[0] >= numbers[1]:
            raise self.fault(key, "two numbers, the better one first")
        return float(numbers[0]), float(numbers[1])

    def end(self, kind: str) -> None:
        """What is left over doesn't go with the entry that says what gives points."""
        if self.table:
            raise self.error(f"an item with `{kind}` has no `{next(iter(self.table))}`")
