"""The command line of `y86-lab`: its help, its man pages and completions, and how it ends."""
import os
import re
import shutil
import subprocess
import sys

import pytest

from helpers.cases import same
from helpers.paths import TOP
from y86lab import cli, manual
from y86lab.calls import Programs
from y86lab.errors import LabError

LAB = f"{TOP}/y86-lab"
NAMES = [command.name for command in cli.all_commands()]


def lab(*words, folder=TOP, **environment):
    done = subprocess.run([LAB, *words], cwd=folder, stdin=subprocess.DEVNULL, capture_output=True, text=True, env={**os.environ, **environment}, check=False)
    return done.returncode, done.stdout, done.stderr


@pytest.mark.parametrize("words", [(), *[(name,) for name in NAMES], *[("aig", kind) for kind in ("cnf", "blif", "confirm")]], ids=" ".join)
def test_help_is_no_fault(words):
    status, out, err = lab(*words, "--help")
    same((status, err, out.startswith(f"usage: {' '.join(('y86-lab', *words))}")), (0, "", True))
    same(lab(*words, "-h"), (status, out, err))


def test_help_lists_all_that_is_there():
    """The commands, and the programs for people beside them."""
    out = lab("--help")[1]
    same([name for name in NAMES if not re.search(rf"^  {name} ", out, re.M)], [])
    there = [program.name for program in manual.BESIDE if os.path.exists(f"{TOP}/{program.name}")]
    same([name for name in there if not re.search(rf"^  {re.escape(name)} ", out, re.M)], [])
    assert {"y86", "y86-stages", "tools/y86-recheck", "prove"} <= set(there)


def test_without_arguments_the_help_is_a_fault():
    same(lab(), (2, lab("--help")[1], ""))


@pytest.mark.parametrize("word,suggestion", [("explian", "; did you mean `explain`?"), ("cycels", "; did you mean `cycles`?"), ("xyz", "")])
def test_a_misspelt_command(word, suggestion):
    same(lab(word), (2, "", f"usage: y86-lab COMMAND ..\ny86-lab: error: there is no command `{word}`{suggestion}\n"))


@pytest.mark.parametrize("words", ["explain", "explain a b", "explain a --ful", "class", "swap a", "aig", "aig cnf a x", "completion fish", "man nothing", "page a b c",
    "cycles a b --mem 7", "cycles a b --mem 1048584", "cycles a b --limit 100000001", "witness a --tries 0", "class . --jobs -1", "watch a --times 0"])
def test_wrong_arguments(words):
    status, out, err = lab(*words.split())
    same((status, out, err.count("Traceback"), bool(err)), (2, "", 0, True))


def test_through_a_link_from_another_folder(folder):
    """The entry finds its package through links, and no module of the caller's folder is taken for one of Python's."""
    os.symlink(LAB, f"{folder}/first")
    os.symlink("first", f"{folder}/second")
    for name in ("random", "csv", "argparse", "json"):
        with open(f"{folder}/{name}.py", "w", encoding="ascii") as file:
            file.write("raise SystemExit('taken')\n")
    done = subprocess.run(["./second", "--help"], cwd=folder, capture_output=True, text=True, check=False)
    same((done.returncode, done.stdout), (0, lab("--help")[1]))
    same([name for name in os.listdir(f"{TOP}/tools") if name == "__pycache__"], [])


def test_without_python(folder):
    for name in ("sh", "dirname", "readlink"):
        os.symlink(shutil.which(name), f"{folder}/{name}")
    same(lab("--help", PATH=folder), (127, "", "y86-lab: the command python3 isn't on the PATH\n"))


def test_no_program():
    """Of each program that a command calls."""
    status, out, err = lab("explain", "README.md", Y86_TELL="/nowhere/y86-tell")
    same((status, out, err), (127, "", "/nowhere/y86-tell: No such file or directory; Y86_TELL in the environment may name another program\n"))
    status, out, err = lab("swap", "README.md", "README.md", Y86="/nowhere/y86")
    same((status, out, err), (127, "", "/nowhere/y86: No such file or directory; Y86 in the environment may name another program\n"))


def test_no_file():
    same(lab("explain", "nowhere.hcl"), (3, "", "nowhere.hcl: No such file or directory\n"))
    same(lab("cycles", "nowhere.hcl", "a.yo"), (3, "", "nowhere.hcl: No such file or directory\n"))
    same(lab("aig", "blif", "nowhere.aag"), (3, "", "nowhere.aag: No such file or directory\n"))


def test_full_output():
    """As of `y86`, status 4 tells that standard output could not be written."""
    with open("/dev/full", "w", encoding="ascii") as full:
        done = subprocess.run([LAB, "completion", "bash"], stdout=full, stderr=subprocess.PIPE, text=True, check=False)
    same((done.returncode, done.stderr), (4, "standard output: No space left on device\n"))


def test_an_output_that_nobody_reads():
    done = subprocess.run(["bash", "-c", f"set -o pipefail; {LAB} completion zsh | true"], capture_output=True, text=True, check=False)
    assert done.stderr == "" and done.returncode in (0, 1)


ENDS = [(LabError("told", 5), 5, "told\n"), (RecursionError(), 1, "the definitions depend on each other too deeply for this command; ./y86 check can answer\n"),
    (KeyboardInterrupt(), 130, ""), (OSError(28, "No space left on device"), 4, "standard output: No space left on device\n")]


@pytest.mark.parametrize("ended,status,err", ENDS, ids=[type(ended).__name__ for ended, _, _ in ENDS])
def test_what_ends_a_command(ended, status, err, monkeypatch, capsys):
    def run(*_):
        raise ended

    monkeypatch.setattr(cli, "run", run)
    same((cli.main(), capsys.readouterr().err), (status, err))


def test_version():
    """In the repository: the commit, and of each program whether it is proved."""
    status, out, err = lab("--version")
    same((status, err), (0, ""))
    assert re.match(r"The Y86-64 workbench, (commit [0-9a-f]{12}(, with changes that are in no commit)?|sources of no commit)\n", out), out
    assert re.search(r"^y86: (proved and built|not proved)", out, re.M), out


def test_version_of_a_folder_that_was_handed_out(folder):
    """There a file says what was built."""
    shutil.copytree(f"{TOP}/tools", f"{folder}/tools")
    shutil.copy(LAB, f"{folder}/y86-lab")
    with open(f"{folder}/VERSION", "w", encoding="ascii") as file:
        file.write("The Y86-64 workbench, commit 0123456789ab\n")
    done = subprocess.run([f"{folder}/y86-lab", "--version"], capture_output=True, text=True, check=False)
    same((done.returncode, done.stdout), (0, "The Y86-64 workbench, commit 0123456789ab\n"))


# The table of the programs.


def forms(program):
    return {form.name: form for form in program.forms}


def test_table_has_the_commands_of_the_page():
    """Each row of docs/COMMANDS.md, with its words, is in the table, and no other."""
    with open(f"{TOP}/docs/COMMANDS.md", encoding="utf-8") as file:
        page = file.read()
    rows = [row for line in re.findall(r"^\| (`\w+ [^|]*`) \|", page, re.M) for row in re.findall(r"`([^`]*)`", line)]
    written = {}
    for row in rows:
        name, *rest = row.split(" ")
        written.setdefault(name, set()).update(re.findall(r"--\w+", row))
        words = [word for word in re.sub(r"\[[^]]*\]", "", " ".join(rest)).split() if word not in ("seq", "seqplus", "pipe")]
        same((name, [word for word in forms(manual.Y86)[name].words.split() if "|" not in word]), (name, words))
    same({name: {option.name for option in form.options} for name, form in forms(manual.Y86).items()}, written)


def test_table_has_the_forms_of_y86_tell():
    """As docs/TELL.md lists them."""
    with open(f"{TOP}/docs/TELL.md", encoding="utf-8") as file:
        listed = re.findall(r"^    \./y86-tell (\w+ .*)$", file.read().partition("\n## ")[0], re.M)
    table = []
    for name, form in forms(manual.TELL).items():
        options = [f"[{option.name}{' ' + option.value if option.value else ''}]" for option in form.options]
        table.append(" ".join([name, form.words, *options]))
    same(table, listed)


def test_table_has_the_options_of_prove():
    said = subprocess.run([sys.executable, f"{TOP}/prove", "--help"], capture_output=True, text=True, check=True).stdout
    same([option.name for form in manual.PROVE.forms for option in form.options], [name for name in re.findall(r"^  (--[\w-]+)", said, re.M) if name != "--help"])


def test_table_has_the_options_of_y86_stages(y86_stages):
    usage = y86_stages("nothing")[2].decode()
    same({option.name for form in manual.STAGES.forms for option in form.options}, set(re.findall(r"--\w+", usage)))


def test_table_has_the_commands_of_the_program(y86):
    usage = y86("nothing")[2].decode()
    same(set(re.fullmatch(r"usage: y86 (.*)\n", usage)[1].split("|")), set(forms(manual.Y86)))


def test_man_pages():
    for program in ("y86", "y86-stages", "y86-tell", "y86-recheck", "prove", "y86-lab"):
        status, out, err = lab("man", program)
        same((program, status, err, out.startswith(f".TH {program.upper()} 1 ")), (program, 0, "", True))
    if shutil.which("man") and shutil.which("groff"):
        text = subprocess.run(["man", "-l", "-"], input=lab("man", "y86")[1], env={**os.environ, "MANWIDTH": "100", "LC_ALL": "C"}, capture_output=True, text=True, check=False)
        same(text.stderr, "")
        assert re.search(r"y86 psim HCL OBJ \[--full\] \[--mem N\] \[--limit N\] \[--trace\] \[--checked\]", text.stdout), text.stdout


def test_a_command_of_a_command():
    """Each has its own line in the man page, with its arguments."""
    aig = next(form for form in cli.all_programs()[-1].forms if form.name == "aig")
    same([form.name for form in aig.parts], ["aig cnf", "aig blif", "aig confirm"])
    same(manual.usage(aig.parts[0]).replace("\\", ""), "aig cnf AAG OUTPUT [--help]")
    assert "aig confirm [HCL ..] [--help] [--broken ROWS] [--solver NAME] [--full]\n" in lab("man", "y86-lab")[1].replace("\\", "")


def test_an_option_that_is_needed():
    """It has no brackets in the man page; an option of few values names them."""
    grade = next(form for form in cli.all_programs()[-1].forms if form.name == "grade")
    same(manual.usage(grade).replace("\\", "").partition(" [--output")[0], "grade FOLDER [--help] --rubric FILE [--format csv|json|junit|gradescope]")


def completed(folder, *words):
    """What bash completes, in a folder."""
    script = f'''source {folder}/completion.bash
        COMP_WORDS=({" ".join(f"'{word}'" for word in words)}); COMP_CWORD={len(words) - 1}
        _y86_complete "{words[0]}"; printf '%s\\n' "${{COMPREPLY[@]}}"'''
    done = subprocess.run(["bash", "-c", script], cwd=folder, capture_output=True, text=True, check=False)
    same(done.stderr, "")
    return sorted(done.stdout.split())


def test_bash_completion(folder):
    with open(f"{folder}/completion.bash", "w", encoding="ascii") as file:
        file.write(lab("completion", "bash")[1])
    for name in ("a.hcl", "b.hcl", "p.yo", "p.ys", "c.crt", "n.aag", "notes.txt"):
        with open(f"{folder}/{name}", "w", encoding="ascii"):
            pass
    os.mkdir(f"{folder}/work")
    same(completed(folder, "y86", "y"), ["yas", "yis"])
    same(completed(folder, "./y86", ""), sorted(forms(manual.Y86)))
    same(completed(folder, "./y86-lab", "e"), ["explain"])
    same(completed(folder, "y86", "yas", ""), ["p.ys", "work"])
    same(completed(folder, "y86", "psim", ""), ["a.hcl", "b.hcl", "p.yo", "work"])
    same(completed(folder, "y86", "psim", "a"), ["a.hcl"])
    same(completed(folder, "y86", "psim", "a.hcl", "p.yo", "--"), ["--checked", "--full", "--limit", "--mem", "--trace"])
    same(completed(folder, "y86", "check", "s"), ["seq", "seqplus"])
    same(completed(folder, "y86", "recheck", "c"), ["c.crt"])
    same(completed(folder, "y86-stages", "a"), ["a.hcl"])
    same(completed(folder, "y86-stages", "a.hcl", "p.yo", "--d"), ["--diagram"])
    same(completed(folder, "y86-lab", "class", "n"), ["n.aag", "notes.txt"])
    same(completed(folder, "y86-lab", "aig", "c"), ["cnf", "confirm"])
    same(completed(folder, "y86-lab", "aig", "confirm", "a"), ["a.hcl"])
    same(completed(folder, "y86-lab", "aig", "confirm", "--s"), ["--solver"])
    same(completed(folder, "y86-tell", "check", "p"), ["pipe"])
    same(completed(folder, "y86-tell", "fault", "se"), ["seq", "seqplus"])


def test_zsh_completion(folder):
    if not shutil.which("zsh"):
        pytest.skip("there is no zsh")
    with open(f"{folder}/_y86", "w", encoding="ascii") as file:
        file.write(lab("completion", "zsh")[1])
    done = subprocess.run(["zsh", "-f", "-c", f"autoload -U compinit; compinit -u -D; source {folder}/_y86; print ${{_comps[y86-lab]}}"], cwd=folder, capture_output=True, text=True, check=False)
    same((done.returncode, done.stdout, done.stderr), (0, "_y86_complete\n", ""))


def test_programs_by_the_environment(folder):
    """A variable names another program, from the folder of the call."""
    programs = Programs(TOP, {"Y86_STAGES": "stages", "Y86": ""})
    same((programs.named("y86"), programs.named("y86-stages")), (f"{TOP}/y86", f"{os.getcwd()}/stages"))
    same((programs.is_there("y86"), programs.is_there("y86-stages")), (True, False))


@pytest.mark.parametrize("version", ("3.9", "3.10", "3.12", "3.13"))
def test_other_pythons(version, folder):
    """The lab needs Python 3.9 or later, and nothing but its own library."""
    python = shutil.which(f"python{version}")
    if not python or subprocess.run([python, "--version"], capture_output=True, check=False).returncode:
        pytest.skip(f"there is no Python {version}")
    done = subprocess.run([python, "-I", "-S", "-B", f"{TOP}/tools", "completion", "bash"], cwd=folder, capture_output=True, text=True, check=False)
    same((done.returncode, done.stdout, done.stderr), (0, lab("completion", "bash")[1], ""))


def test_the_library_alone():
    """No module of the lab needs another one than Python's own and the lab's."""
    script = "import sys; sys.path.insert(0, 'tools'); import y86lab.cli; print(*{name.partition('.')[0] for name in sys.modules})"
    done = subprocess.run([sys.executable, "-I", "-S", "-B", "-c", script], cwd=TOP, capture_output=True, text=True, check=False)
    names = set(done.stdout.split()) - set(sys.stdlib_module_names) - {"__main__", "y86lab"}
    same((done.stderr, {name for name in names if not name.startswith("_")}), ("", set()))
