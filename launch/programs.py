"""The programs of the repository, by the names of their crates, and the laws on them. Each program has a launcher beside `prove`, a link to `y86` with `-`
in place of `_`."""
import os

PROGRAMS = ("y86", "y86_stages", "y86_tell")
# The crates of laws on what a program answers, such as a `yes`. The program doesn't need them, but `prove` proves them with it.
LAWS = {"y86": ("y86_call_laws",)}


def programs_in(here):
    """Returns the programs whose crates are there."""
    return [it for it in PROGRAMS if os.path.isfile(f"{here}/crates/{it}/src/main.rt")]


def laws_on(here, programs):
    """Returns the crates of laws on the programs, those that are there."""
    return [it for program in programs for it in LAWS.get(program, ()) if os.path.isfile(f"{here}/crates/{it}/src/lib.rt")]


def launcher(crate):
    """Returns the name of a program's launcher."""
    return crate.replace("_", "-")
