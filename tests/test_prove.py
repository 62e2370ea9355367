"""`prove`, in a repository of its own over a stand-in for the toolchain: what is proved and built, when it isn't, and what is said of that."""
import os
import re
import signal
import subprocess
import time

import pytest

from helpers.cases import same
from helpers.repository import CHANGED, COMPILED, PROGRAM, Repository, first_line
from proving import jobs_at_once, jobs_for_gate, processors

ALL = ("low", "left", "right", "high", "y86")
BUILT = "y86: y86 is built, and no source has changed since\n"
SAID = (1, "first|now\n", "checked: first\n")


@pytest.fixture
def repository(folder):
    return Repository(folder)


def without_pause(repository):
    """The words that prove, and that say each moment how far it is."""
    code = f"""\
import sys
sys.path.insert(0, '{repository.top}/launch')
import proving
proving.SILENT_FOR = 0
sys.exit(proving.build('{repository.top}', ('y86',)))"""
    return ["python3", "-c", code]


def without_times(said):
    return re.sub(r"\d+ min \d+ s", "TIME", said)


def is_proved_lines(said):
    return [it for it in without_times(said).splitlines() if " is proved" in it]


def until(run, said):
    """Reads what a proof says up to this line."""
    while (line := run.stderr.readline().decode()) and said not in line:
        pass
    return without_times(line)


def begun(repository):
    """A proof in which the crate `right` takes a minute."""
    repository.write("crates/right/src/lib.rt", "takes 60 s")
    return subprocess.Popen(without_pause(repository), env=repository.environment(), stderr=subprocess.PIPE, cwd=repository.work)


# ---- a proof that fails, or isn't begun

def test_no_toolchain(repository):
    same(repository.run([repository.prove], has_rt=False), (127, "", "y86: the toolchain's command rt isn't on the PATH\n"))


def test_words_that_are_none(repository):
    status, out, err = repository.run([repository.prove, "now"])
    same((status, out, err.startswith("usage: prove ")), (2, "", True))


def test_a_program_by_name(repository):
    same(repository.run([repository.prove, "y86"])[0], 0)
    same(repository.run([repository.prove, "y86"]), (0, "", BUILT))


@pytest.mark.parametrize("words, why", (
    (("y86", "y87"), "there is no program y87; the programs are y86"),
    (("y86", "--page", "y86.html"), "--to and --page need all programs"),
    (("--to", "class", "y86"), "--to and --page need all programs"),
    (("--unproved-page", "y86.html", "y86"), "--unproved-page goes with no other option"),
))
def test_programs_that_cannot_be_proved_so(words, why, repository):
    status, out, err = repository.run([repository.prove, *words])
    same((status, out, err.splitlines()[-1]), (2, "", f"prove: error: {why}"))


@pytest.mark.parametrize("crate", ("right", "high"))
def test_a_crate_without_a_proof(crate, repository):
    repository.write(f"crates/{crate}/src/lib.rt", "no proof")
    status, _, err = repository.run([repository.prove])
    said = f"y86: no proof of {crate}; {repository.out()}/prove.log says why"
    same((status, err.splitlines()[-1], os.path.exists(f"{repository.out()}/y86")), (1, said, False))


def test_the_log_of_a_crate_without_a_proof(repository):
    repository.write("crates/right/src/lib.rt", "no proof")
    repository.run([repository.prove])
    with open(f"{repository.out()}/prove.log", encoding="utf-8") as it:
        same(it.read().splitlines()[-1], "rt: right NOT PROVED")


def test_a_proof_that_is_broken_off(repository):
    with begun(repository) as run:
        said = until(run, "2 of 5 are")
        run.send_signal(signal.SIGTERM)
        last = run.communicate(timeout=60)[1].decode().splitlines()[-1]
    same((said, run.returncode, last), ("y86: 2 of 5 are proved, after TIME\n", 130, "y86: broken off: nothing is built"))


def test_a_source_that_changes_during_the_proof(repository):
    repository.write("crates/right/src/lib.rt", "takes 2 s")
    with subprocess.Popen(without_pause(repository), env=repository.environment(), stderr=subprocess.PIPE, cwd=repository.work) as run:
        until(run, "2 of 5 are")
        repository.write("crates/low/src/lib.rt", "// changed")
        last = run.communicate(timeout=60)[1].decode().splitlines()[-1]
    same((run.returncode, last), (1, "y86: sources changed during the proof: run this again"))
    same(os.path.exists(f"{repository.out()}/y86"), False)


# ---- a proof that succeeds

def test_a_proof(repository):
    status, _, err = repository.run([repository.prove])
    same((status, is_proved_lines(err)), (0, [f"y86: {name} is proved, {number} of 5, after TIME" for number, name in enumerate(ALL, 1)]))


def test_no_crate_that_the_program_does_not_stand_on_is_proved(repository):
    repository.run([repository.prove])
    same(os.path.exists(repository.out("tests")), False)


def test_the_laws_on_a_program_are_proved_with_it(repository):
    repository.add_laws("y86_call_laws")
    status, _, err = repository.run([repository.prove])
    same((status, [it.split()[1] for it in is_proved_lines(err)]), (0, [*ALL, "y86_call_laws"]))


def test_laws_without_a_proof(repository):
    repository.add_laws("y86_call_laws")
    repository.write("crates/y86_call_laws/src/lib.rt", "no proof")
    status, _, err = repository.run([repository.prove])
    said = f"y86: no proof of y86_call_laws; {repository.out()}/prove.log says why"
    same((status, err.splitlines()[-1], os.path.exists(f"{repository.out()}/y86")), (1, said, False))


def test_programs_are_proved_together(repository):
    repository.add_program("y86_stages", "other", below="right")
    status, _, err = repository.run([repository.prove])
    same((status, [it.split()[1] for it in is_proved_lines(err)]), (0, [*ALL, "y86_stages"]))


def test_each_of_several_programs_is_built(repository):
    repository.add_program("y86_stages", "other")
    repository.run([repository.prove])
    came = [repository.run([f"{repository.top}/{name}", "say"], has_rt=False)[:2] for name in ("y86", "y86-stages")]
    same(came, [(1, "first\n"), (1, "other\n")])


def test_that_several_are_built_is_said(repository):
    repository.add_program("y86_stages", "other")
    first, second = (without_times(repository.run([repository.prove])[2]).splitlines()[-1] for _ in "12")
    same((first, second), ("y86: y86 and y86-stages are built, after TIME", "y86: y86 and y86-stages are built, and no source has changed since"))


def test_the_jobs_fit_the_machine():
    assert 1 <= jobs_at_once() <= processors() <= len(os.sched_getaffinity(0))


@pytest.mark.parametrize("memory, is_told", [(None, True), (17_000_000_000, True), (18_000_000_000, False)])
def test_rt_divides_four_processors_itself_if_there_is_memory_for_it(monkeypatch, memory, is_told):
    monkeypatch.setattr("proving.processors", lambda: 4)
    monkeypatch.setattr("proving.free_memory", lambda: memory)
    assert jobs_for_gate() == ("4" if is_told else "")


# ---- the program is built, and sources change

@pytest.fixture(scope="module")
def proved(tmp_path_factory):
    """A repository whose program is proved, to be copied."""
    repository = Repository(os.path.realpath(tmp_path_factory.mktemp("proved")))
    assert repository.run([repository.prove])[0] == 0
    return repository


@pytest.fixture
def built(proved, folder):
    """A repository whose program is proved."""
    return proved.copied(folder)


def say(repository, **more):
    return repository.run([repository.y86, "say", "now"], **more)


def changed(repository, name="first"):
    """The answer of the unproved program where sources have changed since the proof."""
    return 1, f"{name}|now\n", first_line(repository, CHANGED, compiled=COMPILED) + f"checked: {name}\n"


def test_it_answers_with_no_toolchain(built):
    same(say(built, has_rt=False), SAID)


def test_nothing_is_proved_twice(built):
    same(built.run([built.prove]), (0, "", BUILT))


def test_a_change_of_a_test(built):
    built.write("crates/tests/src/lib.rt", "// changed")
    same(say(built), SAID)


def test_a_source_with_another_date(built):
    built.write("crates/y86/src/main.rt", PROGRAM)
    same(say(built), SAID)


def test_a_changed_source(built):
    built.write("crates/y86/src/main.rt", PROGRAM.replace("first", "second"))
    same(say(built), changed(built, "second"))


def test_a_source_of_another_name(built):
    os.rename(f"{built.top}/crates/left/src/lib.rt", f"{built.top}/crates/left/src/left.rt")
    same(say(built), changed(built))


def test_the_source_of_before(built):
    os.rename(f"{built.top}/crates/left/src/lib.rt", f"{built.top}/crates/left/src/left.rt")
    say(built)
    os.rename(f"{built.top}/crates/left/src/left.rt", f"{built.top}/crates/left/src/lib.rt")
    same(say(built), SAID)


def gate(repository):
    time.sleep(0.02)
    subprocess.run(["rt", "ci"], cwd=repository.top, env=repository.environment(), check=True)


def test_the_gate_leaves_the_program_built(built):
    gate(built)
    same(say(built), SAID)


def test_a_change_after_the_gate(built):
    gate(built)
    time.sleep(0.02)
    built.write("crates/high/src/lib.rt", "// changed")
    same(say(built), changed(built))


def test_it_is_proved_again_after_a_change(built):
    built.write("crates/high/src/lib.rt", "// changed")
    same((built.run([built.prove])[0], say(built)), (0, SAID))
