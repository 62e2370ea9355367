"""Proves the crates that programs need, and the laws on them, and builds the programs. As a script it prints RT_JOBS for `rt ci`."""
import os
import re
import shutil
import signal
import subprocess
import sys
import tempfile
import time

from programs import laws_on

# The memory to expect of a job of the prover, in bytes. A few jobs take more (docs/BENCH.md).
OF_A_JOB = 2_000_000_000
# `rt ci` expects up to so much of a crate, on average over those that it proves at once.
EXPECTED_OF_A_CRATE = 4_500_000_000
# A line comes at least so often, in seconds.
SILENT_FOR = 60
# What `rt ci` says of a crate.
PROVED = re.compile(r"^rt: (\w+) (?:proved|is kept)\b", re.M)
NOT_PROVED = re.compile(r"^rt: (\w+) NOT PROVED\b", re.M)


class Stopped(Exception):
    """Why the programs aren't built."""


def tell(text):
    print(f"y86: {text}", file=sys.stderr, flush=True)


def crates_of(here, programs):
    """Returns the crates of the programs and those that they need, each with those that it needs directly, lowest first."""
    listed = {}
    with open(f"{here}/crates.txt", encoding="utf-8") as file:
        for line in file:
            name, colon, below = line.partition("#")[0].partition(":")
            if colon:
                listed[name.split()[0]] = below.split()
    found = {}

    def add(name):
        below = [it for it in listed[name] if it in listed]
        for it in below:
            if it not in found:
                add(it)
        found[name] = below

    for program in programs:
        add(program)
    return found


def crates_to_prove(here, programs):
    """Returns the crates of the programs, those of the laws on them, and those that these need."""
    return crates_of(here, [*programs, *laws_on(here, programs)])


def number_in(file, pattern):
    try:
        with open(file, encoding="utf-8") as it:
            return int(re.search(pattern, it.read(), re.M)[1])
    except (OSError, TypeError):
        return None


def processors():
    """Returns how many processors this process may use."""
    number = len(os.sched_getaffinity(0))
    quota, period = number_in("/sys/fs/cgroup/cpu.max", r"^(\d+)"), number_in("/sys/fs/cgroup/cpu.max", r" (\d+)")
    return max(min(number, quota // period), 1) if quota and period else number


def free_memory():
    """Returns the free memory in bytes, or None if the system doesn't say."""
    free = number_in("/proc/meminfo", r"^MemAvailable:\s+(\d+)")
    return free and 1024 * free


def jobs_at_once():
    """Returns how many jobs the machine has processors and free memory for."""
    free = free_memory()
    return max(min(processors(), free // OF_A_JOB), 1) if free else processors()


def jobs_for_gate():
    """Returns the value of RT_JOBS for `rt ci`: empty if it can divide the processors itself, and else the number of jobs at once.

    By its own estimate of memory, `rt ci` leaves processors idle if there isn't plenty.
    Where there is, it is better without RT_JOBS: a crate that all others wait for then gets several processors.
    """
    free = free_memory()
    return "" if free and free >= processors() * EXPECTED_OF_A_CRATE else str(jobs_at_once())


def copied(here, crates, room):
    """Makes a repository of these crates alone, without must-fail edits."""
    with open(f"{here}/crates.txt", encoding="utf-8") as it:
        lines = [line for line in it if line.partition(":")[0].strip() in crates]
    with open(f"{room}/crates.txt", "w", encoding="utf-8") as it:
        it.writelines(lines)
    if os.path.isfile(f"{here}/HANDLES"):
        shutil.copy(f"{here}/HANDLES", room)
    for name in crates:
        shutil.copytree(f"{here}/crates/{name}", f"{room}/crates/{name}", ignore=shutil.ignore_patterns("out", "must-fail"))


class Proof:
    """A run of the gate's proofs, `rt ci`, over a copy of the crates to prove. What it says goes to the file `log`."""

    def __init__(self, room, number, log):
        self.log, self.number, self.told = log, number, []
        with open(log, "wb") as to:
            how = {"cwd": room, "stdin": subprocess.DEVNULL, "stdout": to, "stderr": subprocess.STDOUT, "start_new_session": True}
            self.command = subprocess.Popen(["rt", "ci"], env={**os.environ, "RT_JOBS": jobs_for_gate()}, **how)
        self.start = self.last = time.monotonic()

    def since(self):
        seconds = int(time.monotonic() - self.start)
        return f"{seconds // 60} min {seconds % 60} s"

    def said(self):
        with open(self.log, encoding="utf-8", errors="replace") as it:
            return it.read()

    def tell_news(self):
        """Says which crates have been proved since it was last called, and now and then that nothing has."""
        for crate in PROVED.findall(self.said())[len(self.told):]:
            self.told.append(crate)
            self.last = time.monotonic()
            tell(f"{crate} is proved, {len(self.told)} of {self.number}, after {self.since()}")
        if time.monotonic() - self.last >= SILENT_FOR:
            self.last = time.monotonic()
            tell(f"{len(self.told)} of {self.number} are proved, after {self.since()}")

    def run(self):
        """Waits for the end. Raises Stopped if something has no proof."""
        try:
            while not self.has_ended():
                self.tell_news()
        finally:
            self.end()
        self.tell_news()
        if self.command.returncode:
            failed = NOT_PROVED.search(self.said())
            raise Stopped(f"{f'no proof of {failed[1]}' if failed else 'the proof failed'}; {self.log} says why")

    def has_ended(self):
        """Waits for the end, but no longer than a moment."""
        try:
            self.command.wait(timeout=1)
        except subprocess.TimeoutExpired:
            return False
        return True

    def end(self):
        """Ends `rt ci` and the provers that it began."""
        if self.command.poll() is None:
            os.killpg(self.command.pid, signal.SIGTERM)
        self.command.wait()


def taken_over(here, room, crates, programs):
    """Brings the proved libraries and the programs from the copy into the repository."""
    for name in crates:
        made, out = f"{room}/crates/{name}/out", f"{here}/crates/{name}/out"
        os.makedirs(out, exist_ok=True)
        if os.path.isdir(f"{made}/rlib"):
            shutil.rmtree(f"{out}/rlib", ignore_errors=True)
            shutil.move(f"{made}/rlib", f"{out}/rlib")
        if name in programs:
            # (a program that is half written isn't taken for one that is built)
            shutil.copy(f"{made}/{name}", f"{out}/{name}.{os.getpid()}")
            os.replace(f"{out}/{name}.{os.getpid()}", f"{out}/{name}")


def sources(here, program, *words):
    """Runs launch/built.sh, and returns its status and what it printed."""
    run = subprocess.run(["sh", f"{here}/launch/built.sh", here, program, *words], stdout=subprocess.PIPE, text=True, check=False)
    return run.returncode, run.stdout.strip()


def broken_off(number, _):
    raise KeyboardInterrupt(number)


def are_built(programs):
    names = [it.replace("_", "-") for it in programs]
    return f"{names[0]} is built" if len(names) == 1 else f"{', '.join(names[:-1])} and {names[-1]} are built"


def mark(here, program, sum_before):
    """Notes that a program is built, from which sources and by which toolchain."""
    sources(here, program, "mark", sum_before)
    with open(f"{here}/crates/{program}/out/toolchain", "w", encoding="utf-8") as it:
        subprocess.run(["rt", "version"], stdout=it, check=False)


def proved(here, programs, room):
    """Proves the programs in a copy in the folder `room`, and brings them into the repository. Returns how long that took."""
    crates = crates_to_prove(here, programs)
    sums = {it: sources(here, it, "sum")[1] for it in programs}
    copied(here, crates, room)
    os.makedirs(f"{here}/crates/{programs[0]}/out", exist_ok=True)
    tell(f"proving {len(crates)} crates; that takes half an hour to an hour and a half on four processors")
    proof = Proof(room, len(crates), f"{here}/crates/{programs[0]}/out/prove.log")
    proof.run()
    if any(sources(here, it, "sum")[1] != sums[it] for it in programs):
        raise Stopped("sources changed during the proof: run this again")
    taken_over(here, room, crates, programs)
    for it in programs:
        mark(here, it, sums[it])
    return proof.since()


def build(here, programs):
    """Proves what isn't proved, and builds the programs. Returns the status to end with."""
    wanted = [it for it in programs if sources(here, it, "is_current")[0]]
    if not wanted:
        tell(f"{are_built(programs)}, and no source has changed since")
        return 0
    if not shutil.which("rt"):
        tell("the toolchain's command rt isn't on the PATH")
        return 127
    for number in (signal.SIGHUP, signal.SIGINT, signal.SIGTERM):
        signal.signal(number, broken_off)
    try:
        with tempfile.TemporaryDirectory(prefix="y86-proof-") as room:
            tell(f"{are_built(wanted)}, after {proved(here, wanted, room)}")
    except KeyboardInterrupt:
        tell("broken off: nothing is built")
        return 130
    except Stopped as why:
        tell(str(why))
        return 1
    return 0


if __name__ == "__main__":
    print(jobs_for_gate())
