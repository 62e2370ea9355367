"""The commands of each page print what the page says, and the wrong files of docs/OBLIGATIONS.md are those of tests/rows/."""
import os
import shutil

import pytest

from helpers.cases import identifier, same
from helpers.pages import Session, almost_right, pages, transcripts, wrong_definitions
from helpers.paths import ROWS, TOP
from helpers.rows import rows_of
from programs import launcher, programs_in


def commands():
    """Each command of each page. Those of one page run on one processor."""
    for page in pages():
        for number, (line, command, _) in enumerate(transcripts(page)):
            group = pytest.mark.xdist_group(page)
            yield pytest.param(page, number, id=identifier(f"{page}:{line} {command}"), marks=group)


@pytest.fixture(scope="session")
def sessions(programs, tmp_path_factory):
    """The sessions of the pages, each in a folder that has what the top of the repository has for users."""
    found = {}

    def session(page):
        if page not in found:
            room = tmp_path_factory.mktemp("page")
            shutil.copytree(f"{TOP}/examples", room / "examples")
            for name in ("lab", "tools", "y86-lab", "y86-recheck"):
                if os.path.exists(f"{TOP}/{name}"):
                    os.symlink(f"{TOP}/{name}", room / name)
            environment = dict(os.environ)
            for crate in programs_in(TOP):
                os.symlink(programs(crate), room / launcher(crate))
                environment[crate.upper()] = programs(crate)
            found[page] = Session(page, room, environment)
        return found[page]

    return session


@pytest.mark.parametrize("page, number", commands())
def test_command(page, number, sessions):
    same(sessions(page).answer(number), transcripts(page)[number][2])


def test_wrong_definitions():
    """docs/OBLIGATIONS.md shows definitions of rows/obligations.txt, with what is wrong about them."""
    rows = {row.shows.partition(": ")[0]: row for row in rows_of(f"{ROWS}/obligations.txt")}
    same(list(rows), [*(f"S{it}" for it in range(1, 17)), "S16 of SEQ+", *(f"O{it}" for it in range(1, 28))])
    shown = list(wrong_definitions())
    assert shown
    for obligation, words, definitions in shown:
        row = rows[obligation]
        wrong, base = row.shows.partition(": ")[2], row.designs["d.hcl"]
        same((obligation, definitions), (obligation, row.files["d.hcl"].decode().rstrip("\n")))
        same((obligation, words[: len(wrong)]), (obligation, wrong[0].upper() + wrong[1:]))
        assert base == ("std" if obligation[0] == "O" else "seq") or f"`{base}.hcl`" in words, words


def test_almost_right():
    """The table of docs/OBLIGATIONS.md has rows of rows/almost_right.txt that have a program, in their order."""
    rows = [row.shows for row in rows_of(f"{ROWS}/almost_right.txt") if "p.yo" in row.files]
    shown = [f"{obligation}: {wrong}" for obligation, wrong in almost_right()]
    assert shown
    same(shown, [it for it in rows if it in shown])
    same(len(rows) - len(shown), 10)
