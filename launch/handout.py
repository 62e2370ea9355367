"""Puts into a folder what a class needs to work without the toolchain."""
import hashlib
import os
import re
import shutil
import subprocess
import time

from programs import launcher
from proving import crates_to_prove, tell

# The folders and files that are handed out.
FOLDERS = ("examples", "tools", "web")
FILES = ("y86-lab",)
# The pages of docs/, in the order to read them, and what each is for.
PAGES = {
    "BROWSER.md": "the workbench in a browser, `y86.html`: nothing to install",
    "TUTORIAL.md": "three weeks: programs, an instruction for SEQ, and a pipeline that becomes fast",
    "ASSEMBLY.md": "how to write and run a Y86-64 program",
    "HCL.md": "how to write a processor: each signal, and what to do about each fault",
    "OBLIGATIONS.md": "what a `no` means, and what to do about it",
    "STAGES.md": "pipeline diagrams",
    "TELL.md": "answers in sentences",
    "LAB.md": "tools for a student's evening and a teacher's class",
    "TEACHING.md": "a class: what to hand out, and how to grade",
    "COMMANDS.md": "every command, its arguments and exit statuses",
    "THEOREM.md": "why a `yes` holds for every program",
    "TRUST.md": "what to read and to trust to believe a `yes`",
    "CERTIFICATES.md": "the format of a certificate, for those who write a checker of their own",
    "AIGER.md": "the obligations for SAT solvers",
}
# What solves an exercise of the book (CS:APP 3e, 4.53 to 4.57, and part C of the lab), or shows how to. `--without-solutions` leaves it out.
SOLUTIONS = (
    *(f"examples/designs/{it}.hcl" for it in (
        "no_bypassing", "with_iaddq", "not_taken", "backward_taken", "load_forwarding", "one_at_a_time", "early_jumps_and_loads",
        "not_taken_early_jumps", "backward_taken_early_jumps", "all_shortcuts",
    )),
    "examples/copy/ncopy_",
    "examples/tutorial/",
    # (`a_setting` and `picked_words` are `no_bypassing` and `backward_taken` but for two definitions each)
    "examples/slow/",
    "examples/class/",
    "docs/TUTORIAL.md",
    "docs/TEACHING.md",
)
README = """\
# y86

The Y86-64 workbench, proved and built, for a class that works with Y86-64 programs and processors: nothing has to be proved, built or installed here.
It runs on Linux on x86-64 and needs the C library alone{libc}.{python}

## Begin here

Run a program:

    ./y86 yis examples/programs/asum.yo

Is the book's pipeline right for every program?

    ./y86 check pipe examples/designs/std.hcl
{calls}{browser}
Then read the pages, in this order:

{pages}

[examples/README.md](examples/README.md) says what is in `examples/`: programs, processors, copy loops.
The pages name some files that aren't here: they are in the repository{left_out}.

## What was proved

{proved}

The {crates} crates that the programs need were proved on {date}{toolchain}, from {commit}.

## Is this what was built?

    $ sha256sum {names}
    {sums}
"""
# What the README shows of a program, and asks.
CALLS = {
    "y86-stages": "\nWhich instruction is where in each clock cycle?\n\n    ./y86-stages examples/designs/std.hcl examples/programs/load_use.yo --diagram\n",
    "y86-tell": "\nWhy is this pipeline refused?\n\n    ./y86-tell check pipe examples/designs/stall_and_bubble.hcl\n",
}


def said_by(words, here):
    """Returns what a command prints, or nothing where it fails."""
    try:
        run = subprocess.run(words, cwd=here, stdout=subprocess.PIPE, stderr=subprocess.DEVNULL, text=True, check=False)
    except OSError:
        return ""
    return run.stdout if run.returncode == 0 else ""


def files_of(here, has_solutions):
    """Returns the files to hand out: those of the repository, and none that lies beside them."""
    files = [*FILES, *[f"docs/{it}" for it in PAGES]]
    listed = said_by(["git", "ls-files", "-z", "--", *FOLDERS, *files], here)
    if listed:
        found = [it for it in listed.split("\0") if it]
    else:
        found = [os.path.relpath(f"{at}/{name}", here) for it in FOLDERS for at, _, names in os.walk(f"{here}/{it}") for name in names]
        found = [it for it in sorted(found) if "/__pycache__/" not in it] + files
    return [it for it in found if os.path.isfile(f"{here}/{it}") and (has_solutions or not it.startswith(SOLUTIONS))]


def solutions(here):
    """Returns the files that solve exercises of the book."""
    return {it for it in files_of(here, True) if it.startswith(SOLUTIONS)}


def commit_of(here):
    commit = said_by(["git", "rev-parse", "HEAD"], here).strip()
    if not commit:
        return "sources of no commit"
    changed = said_by(["git", "status", "--porcelain", "--untracked-files=no"], here).strip()
    return f"the commit {commit}" + (", with changes that are in no commit" if changed else "")


def toolchain_of(here, built):
    """Returns the toolchain that proved the program: the one that `prove` noted, or else the one that is here."""
    try:
        with open(f"{os.path.dirname(built)}/toolchain", encoding="utf-8") as it:
            return it.read().strip()
    except OSError:
        return said_by(["rt", "version"], here).strip()


def what_is_proved(here):
    """Returns the README's own words: the numbered list under its heading, without links."""
    with open(f"{here}/README.md", encoding="utf-8") as it:
        section = it.read().partition("\n## What is proved\n")[2].partition("\n## ")[0]
    points = re.findall(r"^\d\. .*(?:\n   .*)*", section, flags=re.M)
    return re.sub(r"\[([^]]*)\]\([^)]*\)", r"\1", "\n".join(points))


def bytes_of(file):
    with open(file, "rb") as it:
        return it.read()


def libc_of(files):
    """Returns the least version of the GNU C library that has what the programs call, in words."""
    found = [it for file in files for it in re.findall(rb"\0GLIBC_(\d+\.\d+(?:\.\d+)?)(?=\0)", bytes_of(file))]
    versions = [tuple(map(int, it.split(b"."))) for it in found]
    return f" (GNU's, {'.'.join(map(str, max(versions)))} or later)" if versions else ""


def without_links_out(text, page, files):
    """Returns a page without its links to files that aren't handed out; their texts stay."""

    def shown(link):
        target = os.path.normpath(os.path.join(os.path.dirname(page), link[2].partition("#")[0]))
        is_here = ":" in link[2] or link[2].startswith("#") or target in files or any(it.startswith(f"{target}/") for it in files)
        return link[0] if is_here else link[1]

    return re.sub(r"\[([^]]*)\]\(([^)\s]*)\)", shown, text)


def readme(here, programs, built, files, has_solutions, has_page):
    toolchain = toolchain_of(here, next(iter(built.values())))
    pages = [f"- [docs/{name}](docs/{name}): {what}" for name, what in PAGES.items() if f"docs/{name}" in files]
    return README.format(
        libc=libc_of(built.values()),
        python=" `./y86-lab` also needs Python 3.9 or later, and its command `grade` 3.11." if "y86-lab" in files else "",
        calls="".join(CALLS.get(name, "") for name in built),
        browser="\n`y86.html` does the same in a browser: open it.\n" if has_page else "",
        pages="\n".join(pages),
        left_out="" if has_solutions else ", or solve exercises of the book",
        proved=what_is_proved(here),
        crates=len(crates_to_prove(here, programs)),
        date=time.strftime("%Y-%m-%d", time.gmtime(max(os.stat(it).st_mtime for it in built.values()))),
        toolchain=f" by the toolchain `{toolchain}`" if toolchain else "",
        commit=commit_of(here),
        names=" ".join(built),
        sums="\n    ".join(f"{hashlib.sha256(bytes_of(it)).hexdigest()}  {name}" for name, it in built.items()),
    )


def version(here, built):
    """Returns what `y86-lab --version` prints in a folder that was handed out."""
    toolchain = toolchain_of(here, next(iter(built.values())))
    by = f", by the toolchain {toolchain}" if toolchain else ""
    return "\n".join([f"The Y86-64 workbench, {commit_of(here)}", *[f"{name}: proved and built{by}" for name in built], ""])


def fill(here, built, folder, has_solutions=True, has_page=False):
    """Fills a folder with programs, each the path of a built one by the name of its launcher, and with what belongs to them. Returns the files' names.
    With `has_page` the README names the workbench for a browser, which is put there later."""
    files = files_of(here, has_solutions)
    os.makedirs(folder, exist_ok=True)
    for it in files:
        os.makedirs(os.path.dirname(f"{folder}/{it}") or folder, exist_ok=True)
        shutil.copy(f"{here}/{it}", f"{folder}/{it}")
        if it.endswith(".md"):
            with open(f"{folder}/{it}", "r+", encoding="utf-8") as page:
                text = without_links_out(page.read(), it, files)
                page.seek(0)
                page.write(text)
                page.truncate()
    for name, it in built.items():
        shutil.copy(it, f"{folder}/{name}")
    with open(f"{folder}/VERSION", "w", encoding="utf-8") as it:
        it.write(version(here, built))
    with open(f"{folder}/README.md", "w", encoding="utf-8") as it:
        it.write(readme(here, [name.replace("-", "_") for name in built], built, files, has_solutions, has_page))
    return files


def hand_out(here, programs, folder, has_solutions=True):
    """Fills the folder with the programs, by the names of their crates, and what belongs to them. Returns the status to end with."""
    if os.path.lexists(folder) and not (os.path.isdir(folder) and not os.listdir(folder)):
        tell(f"{folder} is there already, and not empty")
        return 1
    built = {launcher(program): f"{here}/crates/{program}/out/{program}" for program in programs}
    try:
        files = fill(here, built, folder, has_solutions, has_page=True)
    except OSError as error:
        tell(f"{error.filename}: {error.strerror}")
        return 1
    tell(f"{folder} has {', '.join(built)}, {len(files)} files of examples, pages and tools, and README.md, where to begin")
    return 0
