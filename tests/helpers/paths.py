"""Where things are."""
import os

TOP = os.path.dirname(os.path.dirname(os.path.dirname(os.path.abspath(__file__))))
EXAMPLES = f"{TOP}/examples"
DESIGNS, PROGRAMS = f"{EXAMPLES}/designs", f"{EXAMPLES}/programs"
ROWS = f"{TOP}/tests/rows"
# The designs that aren't for PIPE.
SEQUENTIAL = ("seq", "seq_plus")


def names(folder, ending):
    """The files of a folder with this ending, without it, in order."""
    return sorted(name[: -len(ending)] for name in os.listdir(folder) if name.endswith(ending))


def pipeline_designs():
    return [name for name in names(DESIGNS, ".hcl") if name not in SEQUENTIAL]


def needs():
    """For each crate the crates and libraries that its line of crates.txt names."""
    with open(f"{TOP}/crates.txt", encoding="utf-8") as it:
        lines = [line.split(":") for line in it if ":" in line and not line.startswith("#")]
    return {crate.split()[0]: names.split() for crate, names in lines}
