"""Files of rows: calls of `y86`, and what each prints.

A row is files and calls, line by line, up to an empty line:

    ## TEXT              a comment
    # TEXT               what the row shows: its name
    file NAME            a file; `|TEXT` appends a line to it, `+TEXT` a text, `\\hh` in them is a byte
    design NAME DESIGN   a file: examples/designs/DESIGN.hcl, with the definitions below it in place of its own
    change NAME DESIGN   a file: the design with other bodies of definitions, a line `|SIGNAL: BODY` each; `@` in a body is the old one, or the
                         branches of an old case list
    $ WORD..             a call; after it come its text, `! ` and the line on standard error, `= ` and the status. A line `...` before the status
                         stands for the rest of the text, whatever it is
"""
import re

from helpers.designs import changed, design, example, replaced
from helpers.paths import ROWS


def bytes_of(text):
    return re.sub(rb"\\([0-9a-f]{2})", lambda m: bytes([int(m[1], 16)]), text.encode())


class Row:
    """Files, and calls that find them."""

    def __init__(self):
        self.shows, self.files, self.designs, self.changes, self.calls = "", {}, {}, {}, []

    def contents(self):
        """The files by their names."""
        found = dict(self.files)
        for name, base in self.designs.items():
            definitions = self.files[name].decode()
            found[name] = replaced(example(base), definitions) if definitions else example(base)
        for name, base in self.changes.items():
            bodies = dict(line.split(": ", 1) for line in self.files[name].decode().splitlines())
            found[name] = changed(design(base), **bodies)
        return found


def rows_of(path):
    """The rows of a file."""
    row, last = Row(), None
    with open(path, encoding="utf-8") as file:
        lines = file.read().split("\n")
    for line in lines + [""]:
        if row.calls and not (row.calls[-1][1] and row.calls[-1][1][-1].startswith("= ")):
            row.calls[-1][1].append(line)
        elif line == "":
            if row.calls:
                yield row
            row, last = Row(), None
        elif line.startswith("$ "):
            row.calls.append((line[2:], []))
        elif line.startswith("## "):
            continue
        elif line.startswith("# "):
            row.shows = line[2:]
        elif line[0] in "|+":
            row.files[last] += bytes_of(line[1:]) + (b"\n" if line[0] == "|" else b"")
        elif line.startswith("file "):
            last = line[5:]
            row.files[last] = b""
        elif line.startswith(("design ", "change ")):
            kind, last, base = line.split(" ")
            row.files[last] = b""
            (row.designs if kind == "design" else row.changes)[last] = base
        else:
            raise ValueError(f"{path}: no line of a row: {line}")


def broken():
    """The files of obligations.txt that break an obligation: the obligation, the design that is changed, the definitions, and the answer of the check."""
    for row in rows_of(f"{ROWS}/obligations.txt"):
        (_, answer), = row.calls
        yield row.shows.partition(": ")[0], row.designs["d.hcl"], row.files["d.hcl"].decode().rstrip("\n"), "\n".join(answer[:-1])


def datapath(name, base):
    """The datapath of an obligation, as `check` names it."""
    return "pipe" if name[0] == "O" else "seqplus" if base == "seq_plus" else "seq"


def transcript(answer):
    """What a call printed, in the form of the rows."""
    status, text, err = answer.text()
    if text and not text.endswith("\n"):
        text += "\\\n"
    return text + (f"! {err}" if err else "") + f"= {status}"


def cut(came, wanted):
    """What a call printed, with `...` in place of the rest where the row has that."""
    front, dots, back = wanted.partition("...\n= ")
    status = came.rpartition("= ")
    return f"{front}{dots}{status[2]}" if dots and came.startswith(front) and status[2] == back else came
