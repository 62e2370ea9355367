"""crates.txt names what each crate uses: no line has a crate or library that no file of the crate mentions."""
import glob
import re

from helpers.cases import same
from helpers.paths import TOP, needs


def mentioned(crate):
    """All words of the crate's files."""
    words = set()
    for file in glob.glob(f"{TOP}/crates/{crate}/s*/**/*.*t*", recursive=True) + glob.glob(f"{TOP}/crates/{crate}/proofs/**/*.antt", recursive=True):
        with open(file, encoding="utf-8") as it:
            words.update(re.findall(r"\w+", it.read()))
    return words


def test_no_line_names_what_its_crate_does_not_use():
    same({crate: unused for crate, names in needs().items() if (unused := [name for name in names if name not in mentioned(crate)])}, {})
