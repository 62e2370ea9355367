"""Gets the LLVM module of a program: of the proved build, or of the sources as they are.

Both hand the module to the toolchain's clang, in a folder that an argument names. Here that folder has links to the real one, and a clang that copies the
module first.
"""
import os
import re
import shlex
import shutil
import subprocess
import tempfile

import unproved
from wasm.compiling import NotCompiled

# The real clang, which gets the module all the same.
KEEPS_PROVED = """\
#!/bin/sh
for it in "$@"; do
    case $it in
        module.bc) cp module.bc {module} ;;
    esac
done
exec {clang} "$@"
"""
VERDICT = re.compile(r"^logic=proved .*$", re.M)


def is_ours(here: str, name: str) -> bool:
    """Returns whether a crate is one of the repository."""
    return os.path.isdir(f"{here}/crates/{name}")


def listed(here: str) -> dict[str, list[str]]:
    """Returns the crates of the repository, each with all that crates.txt names below it."""
    found = {}
    with open(f"{here}/crates.txt", encoding="utf-8") as file:
        for line in file:
            name, colon, below = line.partition("#")[0].partition(":")
            if colon:
                found[name.split()[0]] = below.split()
    return found


def stands_on(here: str, crate: str) -> list[str]:
    """Returns the crates of the repository that a crate stands on."""
    below, found = listed(here), [crate]
    for name in found:
        found += [it for it in below[name] if is_ours(here, it) and it not in found]
    return found[1:]


def words_of(here: str, crate: str, top: str) -> list[str]:
    """Returns the arguments with which the toolchain's command `rt` builds the program of a crate."""
    below = listed(here)[crate]
    words = ["--crate-name", crate, "src/main.rt"]
    for it in sorted({"core", "std", *[it for it in below if not is_ours(here, it)]}):
        words += ["--extern", f"{it}={top}/rlibs/{it}.rlib"]
    words += ["-L", f"dependency={top}/rlibs"]
    for it in below:
        if is_ours(here, it):
            words += ["--extern", f"{it}={here}/crates/{it}/out/rlib/{it}.rlib"]
    for it in stands_on(here, crate):
        words += ["-L", f"dependency={here}/crates/{it}/out/rlib"]
    return [*words, "--antt-project", f"{top}/rattle/logic/antt-project.json", "--logic-built", f"{top}/logic_built", "--links", f"{crate}="]


def linked_tools(tools: str, room: str, clang: str) -> str:
    """Makes a folder of links to the toolchain's, with this clang, and returns it."""
    os.makedirs(f"{room}/tools/bin")
    os.symlink(f"{tools}/lib", f"{room}/tools/lib")
    for name in os.listdir(f"{tools}/bin"):
        if name != "clang":
            os.symlink(f"{tools}/bin/{name}", f"{room}/tools/bin/{name}")
    with open(f"{room}/tools/bin/clang", "w", encoding="utf-8") as it:
        it.write(clang)
    os.chmod(it.name, 0o755)
    return f"{room}/tools"


def proved(here: str, crate: str, kit: unproved.Kit, module: str, jobs: int) -> str:
    """Proves the program's crate over its proved libraries, builds it, and keeps its module in a file. Returns the line of the verdict."""
    with tempfile.TemporaryDirectory(prefix="y86-module-") as room:
        # (nothing in the repository is written)
        shutil.copytree(f"{here}/crates/{crate}", f"{room}/{crate}", ignore=shutil.ignore_patterns("out"))
        clang = KEEPS_PROVED.format(module=shlex.quote(os.path.abspath(module)), clang=shlex.quote(f"{kit.tools}/bin/clang"))
        tools = linked_tools(kit.tools, room, clang)
        # (the default, x86-64-v2, asks the processor at the start)
        how = ["--jobs", str(jobs), "--cpu", "x86-64", "--toolchain", tools, "--backend", "llvm", "-o", f"{room}/made.o"]
        words = [f"{kit.top}/bin/rattle", "build", *words_of(here, crate, kit.top), *how]
        made = subprocess.run(words, cwd=f"{room}/{crate}", stdin=subprocess.DEVNULL, stdout=subprocess.PIPE, stderr=subprocess.STDOUT, check=False)
    verdict = VERDICT.search(made.stdout.decode(errors="replace"))
    if made.returncode or not verdict or not os.path.isfile(module):
        raise NotCompiled(f"the module of {crate} wasn't built: rattle ended with status {made.returncode}", made.stdout)
    return verdict[0]


def as_it_is(here: str, crate: str, kit: unproved.Kit, module: str) -> None:
    """Keeps in a file the module of the program as its sources are, with the checks that the toolchain puts into it."""
    with tempfile.TemporaryDirectory(prefix="y86-module-") as room:
        shutil.copy(unproved.module_of(here, crate, kit, room), module)
