#!/usr/bin/env python3
"""Measures a run of the gate: `python3 bench/gate.py [--crates] [COMMAND ..]`, by default `rt ci`.

It prints rows of the table of docs/BENCH.md: the time, the processor time, the largest process, the time of each kind of work, and the longest path of
crates that have to be proved one after another, by processor time. With `--crates` it also prints the figures of each crate. The output of the command
goes to standard error. `./prove` can be measured too.

Every second it looks at the provers of the run. A prover is a process with the argument `--crate-name`, so the processor time of a crate can lack the last
second of each of its processes. The processor time of the whole run is exact.
"""
import argparse
import glob
import os
import re
import resource
import subprocess
import sys
import time

TOP = os.path.dirname(os.path.dirname(os.path.realpath(__file__)))
TICKS = os.sysconf("SC_CLK_TCK")
KINDS = ("proofs", "tests", "edits")


class Prover:
    """A process of the prover: its crate, its kind of work, when it was seen, its processor time in seconds and its peak memory in MB."""

    def __init__(self, crate, kind, now):
        self.crate, self.kind, self.first, self.last = crate, kind, now, now
        self.seconds, self.memory = 0.0, 0


def crate_and_kind(process):
    """The crate that a process works on, and the kind of work; None for any other process."""
    with open(f"{process}/cmdline", encoding="utf-8", errors="replace") as it:
        words = it.read().split("\0")
    if "--crate-name" not in words:
        return None
    crate = words[words.index("--crate-name") + 1]
    is_edit = "rt-edit" in os.readlink(f"{process}/cwd")
    return crate, "edits" if is_edit else "tests" if "--test" in words else "proofs"


def stats():
    """For each process its folder in /proc, and its fields of proc(5)'s `stat` from the state on."""
    found = {}
    for process in glob.glob("/proc/[0-9]*"):
        try:
            with open(f"{process}/stat", encoding="utf-8") as it:
                found[int(os.path.basename(process))] = process, it.read().rpartition(")")[2].split()
        except OSError:
            # (the process has ended)
            continue
    return found


def look(run, provers):
    """Notes what the provers that a process has started, itself or by others, have used."""
    now, there = time.monotonic(), stats()

    def is_of_run(number):
        while number in there and number != run:
            number = int(there[number][1][1])
        return number == run

    for number, (process, fields) in there.items():
        try:
            found = is_of_run(number) and crate_and_kind(process)
            with open(f"{process}/status", encoding="utf-8") as it:
                peak = re.search(r"VmHWM:\s+(\d+)", it.read())
        except OSError:
            continue
        if not found:
            continue
        # (a number of a process can be used again)
        prover = provers.setdefault((process, fields[19]), Prover(*found, now))
        prover.last, prover.seconds = now, (int(fields[11]) + int(fields[12])) / TICKS
        if peak:
            prover.memory = max(prover.memory, int(peak[1]) // 1024)


def needs():
    """The crates of the repository that each crate needs, lowest first."""
    found = {}
    with open(f"{TOP}/crates.txt", encoding="utf-8") as file:
        for line in file:
            name, colon, below = line.partition("#")[0].partition(":")
            if colon:
                found[name.strip()] = [it for it in below.split() if it in found]
    return found


def longest_path(below, seconds):
    """The crates that have to be proved one after another on the path that takes longest, after its seconds."""
    ends = {}
    for crate, lower in below.items():
        best = max((ends[it] for it in lower), default=(0.0, []), key=lambda it: it[0])
        ends[crate] = best[0] + seconds.get(crate, 0.0), [*best[1], crate]
    return max(ends.values(), key=lambda it: it[0])


def proofs_of(provers):
    """The processor seconds of each crate's proof. One process proves a crate, so that is how long the proof takes where a processor is free for it."""
    found = {}
    for it in provers:
        if it.kind == "proofs":
            found[it.crate] = found.get(it.crate, 0.0) + it.seconds
    return found


def minutes(seconds):
    return f"{seconds / 60:.0f} minutes"


def report(provers, wall, processor):
    """Prints the rows of the table."""
    total = {kind: sum(it.seconds for it in provers if it.kind == kind) for kind in KINDS}
    print(f"| time | {minutes(wall)} |")
    print(f"| processor time | {minutes(processor)} |")
    print(f"| of this for {', '.join(KINDS)} | {', '.join(minutes(total[kind]) for kind in KINDS)} |")
    if provers:
        largest = max(provers, key=lambda it: it.memory)
        print(f"| the largest process | {largest.memory / 1000:.1f} GB, of `{largest.crate}` |")
        seconds, path = longest_path(needs(), proofs_of(provers))
        print(f"| the longest path of crates | {minutes(seconds)}: {', '.join(f'`{it}`' for it in path)} |")


def report_crates(provers):
    """Prints a row for each crate: processor seconds of each kind of work, and peak memory in MB."""
    proofs = proofs_of(provers)
    print(f"crate {' '.join(KINDS)} memory")
    for crate in sorted({it.crate for it in provers}, key=lambda it: -proofs.get(it, 0)):
        own = [it for it in provers if it.crate == crate]
        kinds = " ".join(f"{sum(it.seconds for it in own if it.kind == kind):.0f}" for kind in KINDS)
        print(f"{crate} {kinds} {max(it.memory for it in own)}")


def main():
    parser = argparse.ArgumentParser(description=__doc__.partition("\n")[0])
    parser.add_argument("--crates", action="store_true", help="print the figures of each crate too")
    parser.add_argument("command", nargs=argparse.REMAINDER, help="what to run at the top of the repository: rt ci, if it is left out")
    arguments = parser.parse_args()
    start = time.monotonic()
    run = subprocess.Popen(arguments.command or ["rt", "ci"], cwd=TOP, stdin=subprocess.DEVNULL, stdout=sys.stderr, start_new_session=True)
    provers = {}
    while run.poll() is None:
        look(run.pid, provers)
        time.sleep(1)
    used = resource.getrusage(resource.RUSAGE_CHILDREN)
    report([*provers.values()], time.monotonic() - start, used.ru_utime + used.ru_stime)
    if arguments.crates:
        report_crates([*provers.values()])
    return run.returncode


if __name__ == "__main__":
    sys.exit(main())
