"""Makes `y86.html`, the workbench in a browser, of the programs of the repository: proved, or as their sources are.

The WebAssembly of a program is kept in its crate's folder `out`, under the sum of all that it is made from.
"""
import contextlib
import glob
import hashlib
import os
import re
import sys
import tempfile
from concurrent.futures import ThreadPoolExecutor
from dataclasses import dataclass

import unproved
from handout import commit_of, said_by
from programs import PROGRAMS, programs_in
from proving import jobs_at_once, tell
from wasm import compiling, keeping


@dataclass(frozen=True)
class Program:
    """A program for the page: its crate, its WebAssembly, and the line of its verdict where it was proved."""

    crate: str
    file: str
    verdict: str

    @property
    def name(self) -> str:
        """What it is called on the page: as its launcher."""
        return self.crate.replace("_", "-")


def crates_there(here: str) -> list[str]:
    """Returns the crates of the programs that are there; the page does without the others."""
    return programs_in(here)


def sum_of(here: str, crate: str, kit: unproved.Kit) -> str:
    """Returns the sum of what a program's WebAssembly is made from."""
    found = hashlib.sha256(unproved.sum_of(here, crate, kit).encode())
    for it in sorted(glob.glob(f"{here}/launch/wasm/*.*")):
        with open(it, "rb") as file:
            found.update(file.read())
    return found.hexdigest()


def made(here: str, crate: str, kit: unproved.Kit, to: str, is_proved: bool) -> str:
    """Compiles a program into a file, and returns its verdict's line, which is empty where it isn't proved."""
    with tempfile.TemporaryDirectory(prefix="y86-browser-") as room:
        module, verdict = f"{room}/kept.bc", ""
        if is_proved:
            verdict = keeping.proved(here, crate, kit, module, jobs_at_once())
        else:
            keeping.as_it_is(here, crate, kit, module)
        compiling.compiled(kit.tools, module, to)
    return verdict


def path_of(here: str, crate: str, kit: unproved.Kit, is_proved: bool) -> str:
    """Returns where a program's WebAssembly is kept."""
    return f"{here}/crates/{crate}/out/{'proved' if is_proved else 'unproved'}-{sum_of(here, crate, kit)}.wasm"


def webassembly(here: str, crate: str, kit: unproved.Kit, is_proved: bool) -> Program:
    """Returns a program's WebAssembly, which is compiled where it isn't kept."""
    path = path_of(here, crate, kit, is_proved)
    said = f"{path}.verdict"
    if not (os.path.isfile(path) and os.path.isfile(said)):
        what = "is proved once more, for its module, and compiled" if is_proved else "is compiled"
        tell(f"{crate} {what} for the browser")
        os.makedirs(os.path.dirname(path), exist_ok=True)
        fresh = f"{path}.{os.getpid()}"
        verdict = made(here, crate, kit, fresh, is_proved)
        with open(said, "w", encoding="utf-8") as it:
            it.write(verdict)
        os.replace(fresh, path)
        forget(path)
    with open(said, encoding="utf-8") as it:
        return Program(crate, path, it.read())


def forget(path: str) -> None:
    """Removes what was kept of earlier sources."""
    kind = path[: path.rindex("-")]
    for it in glob.glob(f"{glob.escape(kind)}-*.wasm*"):
        if not it.startswith(path):
            with contextlib.suppress(OSError):
                os.remove(it)


def all_of(here: str, is_proved: bool) -> list[Program]:
    """Returns the programs of the page. Proofs are made one after another, since each takes all processors."""
    kit = unproved.Kit()
    with ThreadPoolExecutor(1 if is_proved else len(PROGRAMS)) as pool:
        return list(pool.map(lambda it: webassembly(here, it, kit, is_proved), crates_there(here)))


def about(here: str, programs: list[Program], is_proved: bool) -> dict[str, object]:
    """Returns what the page says of where it comes from."""
    sums = {}
    for it in programs:
        with open(it.file, "rb") as file:
            sums[it.name] = hashlib.sha256(file.read()).hexdigest()
    return {
        "proved": is_proved,
        "commit": commit_of(here),
        "toolchain": said_by(["rt", "version"], here).strip(),
        "sums": sums,
        "functions": {it.name: functions_of(it.verdict) for it in programs if it.verdict},
        "crates": len({name for it in programs for name in (it.crate, *keeping.stands_on(here, it.crate))}),
    }


def functions_of(verdict: str) -> int:
    """Returns how many functions of its own crate a verdict counts."""
    found = re.search(r"\bfunctions=(\d+)", verdict)
    return int(found[1]) if found else 0


def page(here: str, file: str, is_proved: bool, without: frozenset[str] = frozenset()) -> int:
    """Makes the page, without these files of examples/. Returns the status to end with."""
    sys.path.insert(0, f"{here}/web")
    from build import NoPage, written

    try:
        programs = all_of(here, is_proved)
        written(here, {it.name: it.file for it in programs}, about(here, programs, is_proved), file, without)
    except (compiling.NotCompiled, unproved.NoAnswer) as it:
        tell(f"no page: {it}{unproved.log_of(f'{here}/crates/y86/out', it.said)}")
        return 1
    except NoPage as it:
        tell(f"no page: {it}")
        return 1
    except OSError as error:
        tell(f"{error.filename}: {error.strerror}")
        return 1
    tell(f"{file} is the workbench, {os.path.getsize(file):,} bytes: open it in a browser")
    return 0
