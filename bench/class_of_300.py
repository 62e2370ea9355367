#!/usr/bin/env python3
"""Times the grading of a class: `python3 bench/class_of_300.py [--hand-ins N] [--feedback]` prints rows of the table of docs/BENCH.md.

The hand-ins are those of examples/class in turn, each with its number in a comment, so that no two files are the same. The last rows are the longest work:
each hand-in is a pipeline that is accepted, with a copy loop that runs on all lengths. `--make FOLDER` leaves the hand-ins of all parts in a folder.
"""
import argparse
import os
import resource
import shutil
import subprocess
import sys
import tempfile
import time

TOP = os.path.dirname(os.path.dirname(os.path.realpath(__file__)))
CLASS = f"{TOP}/examples/class"
PARTS = ("programs", "seq", "pipe")


def make(folder, part, number, students):
    """Makes hand-ins of a part of the lab from those of some students."""
    for each in range(number):
        source = f"{CLASS}/hand_ins/{part}/{students[each % len(students)]}"
        target = f"{folder}/{each:03} {students[each % len(students)]}"
        shutil.copytree(source, target)
        for at, _, names in os.walk(target):
            for name in names:
                with open(f"{at}/{name}", "a", encoding="utf-8") as file:
                    file.write(f"\n# hand-in {each}\n")


def students_of(part):
    return sorted(os.listdir(f"{CLASS}/hand_ins/{part}"))


def timed(*words):
    """The seconds of a call of the lab, and those of all its processes on a processor."""
    start, before = time.monotonic(), resource.getrusage(resource.RUSAGE_CHILDREN)
    subprocess.run([f"{TOP}/y86-lab", *words], stdout=subprocess.DEVNULL, check=True)
    seconds, after = time.monotonic() - start, resource.getrusage(resource.RUSAGE_CHILDREN)
    on_processor = after.ru_utime + after.ru_stime - before.ru_utime - before.ru_stime
    return f"{seconds:.1f} s, {on_processor:.1f} s on a processor"


def main():
    parser = argparse.ArgumentParser(description=__doc__.partition("\n")[0])
    parser.add_argument("--hand-ins", type=int, default=300, metavar="N")
    parser.add_argument("--feedback", action="store_true", help="write the pages too")
    parser.add_argument("--make", metavar="FOLDER", help="make the hand-ins, and time nothing")
    arguments = parser.parse_args()
    if arguments.make:
        for part in PARTS:
            make(f"{arguments.make}/{part}", part, arguments.hand_ins, students_of(part))
        return
    classes = [(part, part, students_of(part)) for part in PARTS] + [("pipe, all accepted", "pipe", ["ann"])]
    with tempfile.TemporaryDirectory() as folder:
        for name, part, students in classes:
            make(f"{folder}/{name}", part, arguments.hand_ins, students)
            words = ["grade", f"{folder}/{name}", "--rubric", f"{CLASS}/{part}.toml"]
            print(f"| `y86-lab grade`, {arguments.hand_ins} hand-ins of {name} | {timed(*words)} |", flush=True)
            if arguments.feedback:
                seconds = timed(*words, "--feedback", f"{folder}/pages of {name}")
                print(f"| the same with `--feedback` | {seconds} |", flush=True)
        seconds = timed("archlab", f"{folder}/{name}", "--full", "--curves", f"{folder}/curves")
        print(f"| `y86-lab archlab`, the same hand-ins, with their plots | {seconds} |", flush=True)


if __name__ == "__main__":
    sys.exit(main())
