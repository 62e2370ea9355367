"""docs/PROVED.md names each law with its crate, every page names only laws that there are, and PROVED says which crates with laws `./prove` leaves out."""
import glob
import os
import re

from helpers.cases import same
from helpers.paths import TOP
from proving import crates_to_prove
from programs import programs_in

LAW = re.compile(r"\blaw_of_\w+")


def read(path):
    with open(path, encoding="utf-8") as it:
        return it.read()


def laws():
    """Each law's crate and name."""
    found = set()
    for path in glob.glob(f"{TOP}/crates/*/src/**/*.rt", recursive=True):
        crate = os.path.relpath(path, f"{TOP}/crates").split(os.sep)[0]
        found |= {(crate, name) for name in re.findall(r"^pub fn (law_of_\w+)", read(path), re.M)}
    return found


def places(text):
    """The rows of the page's tables, and its sections without these."""
    rows = [line for line in text.split("\n") if line.startswith("|")]
    return rows + ["\n".join(line for line in it.split("\n") if not line.startswith("|")) for it in text.split("\n## ")]


def test_each_law_is_named_with_its_crate():
    named = [set(re.findall(r"`(\w+)`", it)) for it in places(read(f"{TOP}/docs/PROVED.md"))]
    same(sorted(it for it in laws() if not any(set(it) <= names for names in named)), [])


def test_pages_name_laws_that_there_are():
    known = {name for _, name in laws()}
    pages = [*glob.glob(f"{TOP}/*.md"), *glob.glob(f"{TOP}/docs/*.md")]
    odd = {(os.path.basename(page), name) for page in pages for name in LAW.findall(read(page)) if name != "law_of_"}
    same(sorted(it for it in odd if it[1] not in known), [])


def test_laws_that_prove_leaves_out():
    left_out = sorted({crate for crate, _ in laws()} - set(crates_to_prove(TOP, programs_in(TOP))))
    said = re.search(r"^No program needs (.*?), which have nothing but laws", read(f"{TOP}/docs/PROVED.md"), re.M | re.S)
    same(re.findall(r"`(\w+)`", said[1]), left_out)
