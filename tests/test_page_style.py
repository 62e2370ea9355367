"""Pages are easy to read: no sentence over 35 words, no line over 120 characters. Tables, transcripts and pictures aside."""
import os
import re

import pytest

from helpers.paths import TOP

WORDS, WIDTH = 35, 120
FOLDERS = ("", "docs", "tests", "examples", "examples/class", "examples/tutorial", "examples/slow")
# docs/INDEX.md is made of comments in the sources.
PAGES = [
    os.path.join(folder, name)
    for folder in FOLDERS
    for name in sorted(os.listdir(os.path.join(TOP, folder)))
    if name.endswith(".md") and name != "INDEX.md"
]


def plain_lines(page):
    """The lines of a page that are sentences: their number and their text."""
    inside = False
    with open(os.path.join(TOP, page), encoding="utf-8") as lines:
        for number, line in enumerate(lines, 1):
            line = line.rstrip("\n")
            inside ^= line.startswith("```")
            if not inside and not line.startswith(("    ", "|", "#", "```", "![")):
                yield number, line


def paragraphs(page):
    """The paragraphs and items of a page: the number of their first line, and their text."""
    first, words, last = 0, [], 0
    for number, line in plain_lines(page):
        begins = re.match(r"\s*([-*]|\d+\.) ", line)
        if words and (begins or not line.strip() or number != last + 1):
            yield first, " ".join(words)
            words = []
        if line.strip():
            first = first if words else number
            words.append(line.strip())
        last = number
    if words:
        yield first, " ".join(words)


@pytest.mark.parametrize("page", PAGES)
def test_sentences(page):
    long = []
    for number, text in paragraphs(page):
        for sentence in re.split(r"(?<=[.!?:])\**\s+", re.sub(r"`[^`]*`", "x", text)):
            if len(sentence.split()) > WORDS:
                long.append(f"{page}:{number}: {len(sentence.split())} words: {sentence[:60]}")
    assert not long


@pytest.mark.parametrize("page", PAGES)
def test_lines(page):
    assert not [f"{page}:{number}: {len(line)} characters" for number, line in plain_lines(page) if len(line) > WIDTH]
