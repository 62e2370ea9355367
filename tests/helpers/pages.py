"""Pages: their transcripts, and what docs/OBLIGATIONS.md shows of wrong files.

A transcript is an indented block: a line `    $ COMMAND`, and below it what it prints on both streams. The commands of one page run in one folder, so that a
later one finds what an earlier one wrote.
"""
import os
import re
import subprocess

from helpers.paths import TOP


def pages():
    """The pages: README.md, and each of docs/."""
    return ["README.md", *(f"docs/{name}" for name in sorted(os.listdir(f"{TOP}/docs")) if name.endswith(".md"))]


def lines_of(page):
    with open(f"{TOP}/{page}", encoding="utf-8") as it:
        return it.read().split("\n")


def transcripts(page):
    """The commands of a page, each with its line and the text that it is to print."""
    found, at = [], None
    lines = lines_of(page)
    for number, line in enumerate(lines, 1):
        if line.startswith("    $ "):
            at = (number, line[6:], [])
            found.append(at)
        elif at and line.startswith("    "):
            at[2].append(line[4:])
        elif at and not line and number < len(lines) and lines[number].startswith("    ") and not lines[number].startswith("    $ "):
            at[2].append("")
        else:
            at = None
    return [(number, command, "\n".join(text).rstrip("\n")) for number, command, text in found]


def wrong_definitions(page="docs/OBLIGATIONS.md"):
    """What a page shows as wrong: the section, the words below *Wrong.*, and the definitions in the block below them."""
    for section in re.split(r"^##+ ", "\n".join(lines_of(page)), flags=re.M)[1:]:
        found = re.search(r"^\*Wrong\.\* ([^\n]*(?:\n[^\n]+)*):\n\n((?:    .*\n)+)", section, flags=re.M)
        if found:
            yield section.partition("\n")[0], found[1].replace("\n", " "), re.sub(r"^    ", "", found[2], flags=re.M).rstrip("\n")


def almost_right(page="docs/OBLIGATIONS.md"):
    """The table of files that are almost right: of each the obligation, and what is wrong."""
    _, _, section = "\n".join(lines_of(page)).partition("\n## Files that are almost right\n")
    for line in section.partition("\n## ")[0].split("\n"):
        if line.startswith("| ["):
            obligation, wrong = line.split(" | ")[:2]
            yield re.search(r"\[(\w+)\]", obligation)[1], wrong


class Session:
    """The commands of one page, in one folder, one after another as far as they are asked for."""

    def __init__(self, page, folder, environment):
        self.commands, self.folder, self.environment = transcripts(page), folder, environment
        self.printed = []

    def answer(self, number):
        """What the command with this number prints."""
        while len(self.printed) <= number:
            command = self.commands[len(self.printed)][1]
            done = subprocess.run(["bash", "-c", command], cwd=self.folder, env=self.environment, stdin=subprocess.DEVNULL, stdout=subprocess.PIPE,
                stderr=subprocess.STDOUT, timeout=900, check=False)
            self.printed.append(done.stdout.decode("utf-8", "replace").rstrip("\n"))
        return self.printed[number]
