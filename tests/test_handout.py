"""What `prove --to FOLDER` hands out: it works without the toolchain and without the repository.

The files and the README are tested over a stand-in for the toolchain. Every command of the pages and every tool is run from a folder with the programs that
are tested here; the PATH has no more than what the pages' commands name.
"""
import hashlib
import os
import re
import shutil
import subprocess
import sys

import pytest

import handout
from helpers.cases import cases, identifier, same
from helpers.pages import Session, transcripts
from helpers.paths import TOP
from helpers.repository import Repository
from programs import launcher, programs_in
from y86lab import cli, hcl

# All that the commands of the pages may call beside the programs.
TOOLS = "awk bash cat cp cut diff env find grep head ls mkdir paste printf rm sed seq sh sort tail tr uniq wc xargs".split()

# ---- over the stand-in


@pytest.fixture(scope="module")
def template(tmp_path_factory):
    """A repository whose two programs are proved, and committed. A file of no commit lies beside those of the repository."""
    repository = Repository(os.path.realpath(tmp_path_factory.mktemp("handed")))
    repository.add_program("y86_stages", "other")
    assert repository.run([repository.prove])[0] == 0
    for words in (["init", "-q"], ["add", "."], ["-c", "user.name=x", "-c", "user.email=x@y", "commit", "-qm", "all"]):
        subprocess.run(["git", *words], cwd=repository.top, env=repository.environment(), check=True)
    # (the toolchain of the proof counts, and none that came since)
    with open(f"{repository.bin}/rt", "r+", encoding="utf-8") as it:
        text = it.read().replace("stand-in 1", "stand-in 2")
        it.seek(0)
        it.write(text)
    repository.write("examples/designs/solution.hcl", "of the teacher\n")
    return repository


@pytest.fixture
def repository(template, folder):
    return template.copied(folder)


@pytest.fixture
def handed(repository):
    """The folder that is handed out."""
    assert repository.run([repository.prove, "--to", "for class"])[0] == 0
    return f"{repository.work}/for class"


def files_in(folder):
    return sorted(os.path.relpath(f"{at}/{name}", folder) for at, _, names in os.walk(folder) for name in names)


def read(path):
    with open(path, encoding="utf-8") as it:
        return it.read()


def test_what_is_handed_out(handed):
    same(files_in(handed), ["README.md", "VERSION", "docs/HCL.md", "examples/designs/not_taken.hcl", "examples/designs/std.hcl", "y86", "y86-stages", "y86.html"])


def test_what_its_readme_says(repository, handed):
    commit = subprocess.run(["git", "rev-parse", "HEAD"], cwd=repository.top, env=repository.environment(), stdout=subprocess.PIPE, text=True, check=True).stdout
    sums = [f"{hashlib.sha256(open(f'{handed}/{name}', 'rb').read()).hexdigest()}  {name}" for name in ("y86", "y86-stages")]
    wanted = ["1. **One**, and\n   more.\n2. Two.\n", "The 6 crates", "`stand-in 1`", f"the commit {commit.strip()}.", *sums, "./y86-stages examples/designs/std.hcl"]
    text = read(f"{handed}/README.md")
    same([it for it in wanted if it not in text] + [it for it in ("3. No.",) if it in text], [])


def test_what_its_version_says(handed):
    """`y86-lab --version` prints it there."""
    lines = read(f"{handed}/VERSION").splitlines()
    assert re.fullmatch("The Y86-64 workbench, the commit [0-9a-f]{40}", lines[0]), lines
    same(lines[1:], [f"{name}: proved and built, by the toolchain stand-in 1" for name in ("y86", "y86-stages")])


def test_without_solutions_of_the_book(repository):
    repository.run([repository.prove, "--to", "for class", "--without-solutions"])
    folder = f"{repository.work}/for class"
    same(files_in(folder), ["README.md", "VERSION", "docs/HCL.md", "examples/designs/std.hcl", "y86", "y86-stages", "y86.html"])
    same(read(f"{folder}/y86.html"), "True examples/designs/not_taken.hcl\n")


def test_the_programs_run_where_no_toolchain_is(repository, handed):
    came = [repository.run([f"./{name}", "say"], cwd=handed, has_rt=False) for name in ("y86", "y86-stages")]
    same(came, [(1, "first\n", "checked: first\n"), (1, "other\n", "checked: other\n")])


def test_what_is_built_is_handed_out_with_no_toolchain(repository):
    same(repository.run([repository.prove, "--to", "again"], has_rt=False)[0], 0)


def test_a_folder_that_is_not_empty(repository, handed):
    status, _, err = repository.run([repository.prove, "--to", "for class"])
    same((status, err.splitlines()[-1]), (1, "y86: for class is there already, and not empty"))


def test_a_link_to_a_page_that_is_not_handed_out(handed):
    """The link's text stays."""
    same(read(f"{handed}/docs/HCL.md"), "signals, [a place](#here), figures\n")


# ---- with the programs that are tested


@pytest.fixture(scope="session")
def class_folder(programs, tmp_path_factory):
    """The folder of a class, with the programs that are tested, and a PATH of the tools that the pages' commands name."""
    room = os.path.realpath(tmp_path_factory.mktemp("class"))
    built = {launcher(crate): programs(crate) for crate in programs_in(TOP)}
    handout.fill(TOP, built, f"{room}/folder")
    handout.fill(TOP, built, f"{room}/without", has_solutions=False)
    for path, names in ((f"{room}/tools", [*TOOLS, "python3"]), (f"{room}/python", ["python3"])):
        os.mkdir(path)
        for name in names:
            os.symlink(sys.executable if name == "python3" else shutil.which(name), f"{path}/{name}")
    return room


def handed_pages():
    """The pages that are handed out, by their names there."""
    return ["examples/README.md", *(f"docs/{name}" for name in handout.PAGES if os.path.exists(f"{TOP}/docs/{name}"))]


def commands():
    for page in handed_pages():
        for number, (line, command, _) in enumerate(transcripts(page)):
            yield pytest.param(page, number, id=identifier(f"{page}:{line} {command}"), marks=pytest.mark.xdist_group(f"handed out {page}"))


@pytest.fixture(scope="session")
def sessions(class_folder, tmp_path_factory):
    found = {}

    def session(page):
        if page not in found:
            room = f"{tmp_path_factory.mktemp('session')}/folder"
            shutil.copytree(f"{class_folder}/folder", room)
            found[page] = Session(page, room, {"PATH": f"{class_folder}/tools", "HOME": "/nonexistent", "LANG": "C.UTF-8"})
        return found[page]

    return session


@pytest.mark.parametrize("page, number", commands())
def test_command(page, number, sessions):
    same(sessions(page).answer(number), transcripts(page)[number][2])


TOOL_CALLS = [
    ("y86-lab", ["./y86-lab", "--help"], 0),
    ("y86-lab explain", ["./y86-lab", "explain", "examples/designs/std.hcl"], 0),
    ("y86-lab explain, a no", ["./y86-lab", "explain", "examples/designs/stall_and_bubble.hcl"], 1),
    ("y86-lab witness", ["./y86-lab", "witness", "examples/designs/stall_and_bubble.hcl", "--seed", "1"], 0),
    ("y86-lab page", ["./y86-lab", "page", "examples/designs/std.hcl", "examples/programs/load_use.yo", "-o", "page.html"], 0),
    ("y86-lab cycles", ["./y86-lab", "cycles", "examples/designs/std.hcl", "examples/programs/load_use.yo"], 0),
    ("y86-lab archlab", ["./y86-lab", "archlab", "examples/copy/ncopy.ys", "examples/designs/std.hcl"], 0),
    ("y86-lab swap", ["./y86-lab", "swap", "examples/designs/std.hcl", "examples/designs/std.hcl"], 0),
    ("y86-lab class", ["./y86-lab", "class", "examples/designs/std.hcl"], 0),
    ("y86-lab aig confirm", ["./y86-lab", "aig", "confirm", "examples/designs/std.hcl"], 0),
    ("y86-recheck", ["python3", "tools/y86-recheck", "examples/certificates/tiny.crt"], 0),
    ("y86-recheck --help", ["python3", "tools/y86-recheck", "--help"], 0),
]


@cases(TOOL_CALLS)
def test_tool(row, class_folder, folder):
    """Each tool starts with nothing but Python on the PATH, and prints no traceback."""
    _, words, status = row
    shutil.copytree(f"{class_folder}/folder", f"{folder}/class")
    environment = {"PATH": f"{class_folder}/python", "HOME": "/nonexistent", "LANG": "C.UTF-8"}
    done = subprocess.run(words, cwd=f"{folder}/class", env=environment, stdin=subprocess.DEVNULL, capture_output=True, text=True, timeout=600, check=False)
    same((done.returncode, "Traceback" in done.stderr), (status, False))


@pytest.mark.parametrize("command", [it.name for it in cli.all_commands()])
def test_help_of_each_command(command, class_folder):
    environment = {"PATH": f"{class_folder}/python", "HOME": "/nonexistent", "LANG": "C.UTF-8"}
    done = subprocess.run(["./y86-lab", command, "--help"], cwd=f"{class_folder}/folder", env=environment, capture_output=True, text=True, check=False)
    same((done.returncode, done.stderr), (0, ""))


@pytest.mark.parametrize("which", ("folder", "without"))
def test_links(which, class_folder):
    """Each link of a page leads to a file that is there."""
    lost = []
    for name in files_in(f"{class_folder}/{which}"):
        if name.endswith(".md"):
            for target in re.findall(r"\]\(([^)\s#:]+)(?:#[^)\s]*)?\)", read(f"{class_folder}/{which}/{name}")):
                if not os.path.exists(os.path.join(class_folder, which, os.path.dirname(name), target)):
                    lost.append(f"{name}: {target}")
    same(lost, [])


def test_no_file_of_the_repository_alone(class_folder):
    """Nothing that is handed out says where the repository is, or what isn't handed out."""
    tops = {name.partition("/")[0] for name in files_in(f"{class_folder}/folder")}
    same(tops & {"crates", "launch", "tests", "bench", "prove"}, set())


def test_without_solutions(class_folder):
    left = set(files_in(f"{class_folder}/folder")) - set(files_in(f"{class_folder}/without"))
    same([name for name in files_in(f"{class_folder}/without") if name.startswith(handout.SOLUTIONS)], [])
    assert {"examples/designs/load_forwarding.hcl", "examples/copy/ncopy_tree.ys", "docs/TUTORIAL.md"} <= left


def definitions(path):
    """The definitions of an HCL file, without comments and blanks."""
    design = hcl.Design(read(path))
    return {(it.name, tuple(token.text for token in hcl.tokens_of(design.text[it.body.start : it.body.end]))) for it in design.definitions}


def test_no_file_is_almost_a_solution(class_folder):
    """Of each HCL file that stays, the design that is most like it stays, too."""
    whole, without = f"{class_folder}/folder", f"{class_folder}/without"
    designs = {name: definitions(f"{whole}/{name}") for name in files_in(whole) if name.startswith("examples/designs/")}
    stay = [name for name in designs if os.path.exists(f"{without}/{name}")]
    almost = []
    for name in files_in(without):
        if name.endswith(".hcl"):
            own = definitions(f"{without}/{name}")
            shared = {other: len(own & theirs) for other, theirs in designs.items()}
            if max(shared.values()) > max(shared[other] for other in stay):
                almost.append(f"{name}: {max(shared, key=lambda other: shared[other])}")
    same(almost, [])


def test_commands_without_solutions(class_folder):
    """No command of a page that stays names what was left out."""
    left = set(files_in(f"{class_folder}/folder")) - set(files_in(f"{class_folder}/without"))
    pages = [it for it in handed_pages() if not it.startswith(handout.SOLUTIONS)]
    commands = [command for page in pages for _, command, _ in transcripts(page)]
    same([it for it in commands if any(name in it for name in left)], [])


def test_the_copy_loop_of_the_book_stays(class_folder):
    same(os.path.exists(f"{class_folder}/without/examples/copy/ncopy.ys"), True)
