"""The crates' copies of files of `examples/`. `python3 tests/helpers/copies.py` writes them, and a test compares them."""
import glob
import os
import re
import sys

if __name__ == "__main__":
    sys.path.insert(0, os.path.dirname(os.path.dirname(os.path.realpath(__file__))))

from helpers.paths import TOP

# The copies of designs, and those whose names there are short.
DESIGNS, SHORT = "crates/test_designs/src/files.rt", {
    "NB": "no_bypassing", "LF": "load_forwarding", "NT": "not_taken", "BT": "backward_taken", "FU": "with_iaddq", "SP": "seq_plus",
}
DESIGN = re.compile(r'^(const (\w+): &\[u8\] =\s*b").*?(?=";$)', re.M | re.S)
# The bytes of a program in a definition.
PROGRAM, LISTING = "crates/yis_pure_runs/specs/Purity.antt", "examples/programs/call.yo"


def read(path):
    with open(f"{TOP}/{path}", encoding="utf-8") as it:
        return it.read()


def without_comments(text):
    """A design with its first comment alone, and without blank lines."""
    lines = text.split("\n")
    first = next(k for k, line in enumerate(lines) if not line.startswith("#"))
    kept = lines[:first] + [line for line in lines[first:] if line.strip() and not line.startswith("#")]
    assert not re.search(r'["\\]', "".join(kept)), "a copy would need an escape"
    return "".join(f"{line}\n" for line in kept)


def example_of(name):
    return f"examples/designs/{SHORT.get(name, name.lower())}.hcl"


def designs(text):
    """The file of the copied designs, with each copy as its example is."""
    return DESIGN.sub(lambda found: found[1] + without_comments(read(example_of(found[2]))), text)


def program(text):
    """The definition of a program, with its bytes as the listing has them."""
    code = bytes.fromhex("".join(re.findall(r"^0x[0-9a-f]+: ([0-9a-f]*)", read(LISTING), re.M)))
    return re.sub(r"^call_bytes = .*$", "call_bytes = " + " ∷ ".join([*map(str, code), "[]"]), text, flags=re.M)


def data():
    """The files that a stored run of a program reads, with the example of the same name."""
    found = sorted(os.path.relpath(it, TOP) for it in glob.glob(f"{TOP}/crates/*/data/*"))
    return {path: os.path.relpath(it, TOP) for path in found for it in glob.glob(f"{TOP}/examples/*/{os.path.basename(path)}")}


def made():
    """Each file with copies, and its text."""
    return {DESIGNS: designs(read(DESIGNS)), PROGRAM: program(read(PROGRAM)), **{path: read(example) for path, example in data().items()}}


if __name__ == "__main__":
    for name, new in made().items():
        with open(f"{TOP}/{name}", "w", encoding="utf-8") as out:
            out.write(new)
