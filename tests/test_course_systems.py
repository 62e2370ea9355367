"""What course systems run of examples/class: Gradescope's two scripts, and the workflow for GitHub, each over a folder that was handed out."""
import json
import os
import shutil
import subprocess
import sys
import xml.etree.ElementTree as tree

import pytest

import handout
from helpers.cases import cases, same
from helpers.paths import TOP
from helpers.programs import put
from programs import launcher, programs_in

CLASS = f"{TOP}/examples/class"
pytestmark = pytest.mark.skipif(sys.version_info < (3, 11), reason="a rubric needs Python 3.11 or later")


@pytest.fixture(scope="session")
def handed(programs, tmp_path_factory):
    """The folder that a teacher hands out, with the programs that are tested."""
    room = os.path.realpath(tmp_path_factory.mktemp("handed"))
    handout.fill(TOP, {launcher(crate): programs(crate) for crate in programs_in(TOP)}, f"{room}/y86")
    return f"{room}/y86"


def fill(folder, files):
    """Copies files and folders, each by the name that it gets."""
    for name, source in files.items():
        target = os.path.join(folder, name)
        os.makedirs(os.path.dirname(target), exist_ok=True)
        if os.path.isdir(source):
            shutil.copytree(source, target)
        else:
            shutil.copy(source, target)


def fill_rubric(folder, part):
    fill(folder, {"rubric.toml": f"{CLASS}/{part}.toml", "references": f"{CLASS}/references"})


# A server: the folder is on the PATH, and each student works in a folder of his own.


def files_of(folder):
    return {os.path.join(at, name) for at, _, names in os.walk(folder) for name in names}


def test_the_folder_on_the_path(handed, folder):
    """All programs answer there, and nothing is written into the folder of the class."""
    before = files_of(handed)
    shutil.copy(f"{TOP}/examples/programs/add.ys", folder)
    shutil.copy(f"{TOP}/examples/designs/std.hcl", f"{folder}/mine.hcl")
    script = "y86 yas add.ys >add.yo && y86 check pipe mine.hcl && y86-stages mine.hcl add.yo >/dev/null && y86-tell check pipe mine.hcl >/dev/null && y86-lab try add.ys mine.hcl"
    environment = {"PATH": f"{handed}:{os.path.dirname(sys.executable)}:/usr/bin:/bin", "HOME": "/root", "LANG": "C.UTF-8"}
    done = subprocess.run(["bash", "-c", script], cwd=folder, env=environment, stdin=subprocess.DEVNULL, capture_output=True, text=True, timeout=300, check=False)
    same((done.returncode, done.stderr, done.stdout.splitlines()[0], files_of(handed) - before), (0, "", "yes pt=1111111 pb=1111111 tv=0 lf=0 je=0 rm=0", set()))


def test_commands_of_the_page():
    """Each command on docs/TEACHING.md is run: a transcript by test_pages.py, and the two others here and in test_handout.py."""
    with open(f"{TOP}/docs/TEACHING.md", encoding="utf-8") as file:
        blocks = [block for block in file.read().split("\n\n") if block.startswith("    ")]
    others = [block.strip() for block in blocks if not block.startswith("    $ ")]
    same(others, ["./prove --to y86-class --without-solutions", "export PATH=/srv/y86-class:$PATH"])
    with open(f"{TOP}/tests/test_handout.py", encoding="utf-8") as file:
        assert '"--to", "for class", "--without-solutions"' in file.read()


# Gradescope. It puts the zip's files into /autograder/source, and a copy of run_autograder into /autograder.

# The apt-get of the image writes down its words; of the two Pythons the older one has no tomllib.
APT_GET = '#!/bin/sh\necho "$@" >>"$0.log"\n'
OLD_PYTHON = '#!/bin/sh\n[ "$1" = -c ] && exit 1\necho "python3 is too old" >&2\nexit 2\n'


@pytest.fixture
def autograder(handed, folder):
    """Lays out a folder as Gradescope does, with the submission, and runs its scripts with this folder in place of /autograder."""

    def run(part, submission, python=None):
        top = f"{folder}/autograder"
        fill(f"{top}/source", {name: f"{CLASS}/gradescope/{name}" for name in ("setup.sh", "run_autograder")})
        fill(f"{top}/source", {"y86": handed})
        fill_rubric(f"{top}/source/rubric", part)
        shutil.copytree(submission, f"{top}/submission")
        os.mkdir(f"{top}/results")
        put(folder, {"apt-get": APT_GET, **({"python3": python} if python else {})})
        for name in ("apt-get", "python3") if python else ("apt-get",):
            os.chmod(f"{folder}/{name}", 0o755)
        os.symlink(sys.executable, f"{folder}/python3.11" if python else f"{folder}/python3")
        for name in ("setup.sh", "run_autograder"):
            with open(f"{top}/source/{name}", encoding="utf-8") as file:
                text = file.read()
            assert "/autograder/" in text
            put(f"{top}/source", {name: text.replace("/autograder/", f"{top}/")})
        shutil.copy(f"{top}/source/run_autograder", f"{top}/run_autograder")
        environment = {"PATH": f"{folder}:/usr/bin:/bin", "HOME": "/root", "LANG": "C.UTF-8"}
        for script in (f"{top}/source/setup.sh", f"{top}/run_autograder"):
            done = subprocess.run([script], cwd=folder, env=environment, stdin=subprocess.DEVNULL, capture_output=True, text=True, timeout=300, check=False)
            same((script, done.returncode, done.stderr if not python else ""), (script, 0, ""))
        with open(f"{top}/results/results.json", encoding="utf-8") as file:
            return json.load(file)

    return run


# The fields of results.json as Gradescope's page "Autograder specifications" has them, each with its type or its values.
FORMATS = {"text", "html", "simple_format", "md", "ansi"}
VISIBILITIES = {"hidden", "after_due_date", "after_published", "visible"}
RESULTS = {"score": (int, float), "execution_time": (int, float), "output": str, "output_format": FORMATS, "test_output_format": FORMATS, "test_name_format": FORMATS,
    "visibility": VISIBILITIES, "stdout_visibility": VISIBILITIES, "extra_data": dict, "tests": list, "leaderboard": list}
TEST = {"score": (int, float), "max_score": (int, float), "status": {"passed", "failed"}, "name": str, "name_format": FORMATS, "number": str, "output": str,
    "output_format": FORMATS, "tags": list, "visibility": VISIBILITIES, "extra_data": dict}


def wrong_fields(data, fields):
    def is_right(name, value):
        wanted = fields.get(name)
        return value in wanted if isinstance(wanted, set) else wanted is not None and isinstance(value, wanted) and not isinstance(value, bool)

    return {name: value for name, value in data.items() if not is_right(name, value)}


# The part, the student, and the scores: of each test, and of all.
GRADED = [
    ("programs", "bob", [10.0, 0.0, 0.0], 10.0),
    ("programs", "Ελένη", [10.0, 0.0, 0.0], 10.0),
    ("seq", "ann", [5.0, 5.0, 5.0, 5.0], 20.0),
    ("seq", "dee", [0.0, 0.0, 0.0, 0.0], 0.0),
    ("pipe", "ann", [15.0, 10.0, 15.0, 40.31, 6.4], 86.71),
]


@cases((f"{part} {name}", part, name, scores, total) for part, name, scores, total in GRADED)
def test_gradescope(row, autograder):
    _, part, name, scores, total = row
    data = autograder(part, f"{CLASS}/hand_ins/{part}/{name}")
    same(([each["score"] for each in data["tests"]], data["score"]), (scores, total))
    same((wrong_fields(data, RESULTS), [wrong_fields(each, TEST) for each in data["tests"]]), ({}, [{} for _ in scores]))


def test_gradescope_of_an_empty_submission(autograder, folder):
    """Each test says what is missing."""
    os.mkdir(f"{folder}/empty")
    data = autograder("pipe", f"{folder}/empty")
    same((data["score"], {each["output"] for each in data["tests"]}), (0.0, {"pipe.hcl: it is missing", "ncopy.ys: it is missing"}))


def test_gradescope_with_an_older_python(autograder, folder):
    """Where python3 can't read TOML, setup.sh installs one that can, and run_autograder takes it."""
    same(autograder("programs", f"{CLASS}/hand_ins/programs/ann", python=OLD_PYTHON)["score"], 30.0)
    with open(f"{folder}/apt-get.log", encoding="utf-8") as file:
        same(file.read().splitlines(), ["update", "install -y python3", "install -y python3.11"])


# GitHub. A checkout is a folder; each `run` is a script of bash that ends at the first command that fails.


def steps_of(workflow):
    yaml = pytest.importorskip("yaml")
    with open(workflow, encoding="utf-8") as file:
        data = yaml.safe_load(file)
    (job,) = data["jobs"].values()
    # (YAML 1.1 takes the key `on` for a truth)
    same((data[True], job["runs-on"]), ("push", "ubuntu-latest"))
    return job["steps"]


def test_workflow(handed, folder):
    """Its steps, with the student's repository and that of the class in the places where the checkouts put them."""
    commands, artifact = [], None
    for step in steps_of(f"{CLASS}/github/grade.yml"):
        used, words = step.get("uses", "").partition("@")[0], step.get("with", {})
        if used == "actions/checkout" and "repository" in words:
            same(words["repository"], "${{ vars.Y86_CLASS }}")
            fill(f"{folder}/{words['path']}", {"y86": handed})
            fill_rubric(f"{folder}/{words['path']}/rubric", "pipe")
        elif used == "actions/checkout":
            shutil.copytree(f"{CLASS}/hand_ins/pipe/bob", f"{folder}/{words['path']}")
        elif used == "actions/upload-artifact":
            same(step["if"], "always()")
            artifact = words["path"].split()
        else:
            assert not used, used
            commands.append(step["run"])
            done = subprocess.run(["bash", "-e", "-c", step["run"]], cwd=folder, stdin=subprocess.DEVNULL, capture_output=True, text=True, timeout=300, check=False,
                env={"PATH": f"{os.path.dirname(sys.executable)}:/usr/bin:/bin", "HOME": "/root", "LANG": "C.UTF-8"})
            same((done.returncode, done.stdout, done.stderr), (0, "", ""))
    same((len(commands), artifact), (1, ["grade.xml", "feedback"]))
    (suite,) = tree.parse(f"{folder}/grade.xml").getroot()
    same([case.get("name") for case in suite if case.find("failure") is None], ["hazards and exceptions", "bytes of the copy loop"])
    (page,) = os.listdir(f"{folder}/feedback")
    with open(f"{folder}/feedback/{page}", encoding="utf-8") as file:
        assert "O10" in file.read()
