#!/usr/bin/env python3
"""The certificates of all examples, and of designs with comparisons more: how long they are, and how long it takes to write them.

    python3 bench/certificate_lengths.py PROGRAM [--count N] [--from N] [--bytes N] [--seconds S] [--keep FOLDER]

The files are those of examples/designs and examples/slow, and N designs with one or two cases more, each guarded by one to four
comparisons (`with_comparisons`); every second one is changed too (`changed`). Each that `check pipe` accepts gets a certificate, which
`recheck` has to accept. Printed are the five longest and the five that took longest; these go to FOLDER. The status is 1 if a
certificate has more than 60,000,000 bytes, took more than two seconds of the processor, or isn't accepted.
"""
import argparse
import os
import random
import resource
import shutil
import subprocess
import sys
import tempfile

from changed_files import HERE, changed, is_name, run, tokens, with_comparisons

BYTES, SECONDS = 60_000_000, 2.0
ENDED = 120


def read(path):
    with open(path, encoding="utf-8") as file:
        return file.read()


def examples():
    """The names and texts of the examples for PIPE."""
    found = []
    for folder in ("designs", "slow"):
        top = os.path.join(HERE, "examples", folder)
        for name in sorted(os.listdir(top)):
            if name.endswith(".hcl") and name not in ("seq.hcl", "seq_plus.hcl"):
                found.append((name, read(os.path.join(top, name))))
    return found


def names_in(texts):
    return sorted({t for text in texts for t in tokens(text) if is_name(t) and not t.isupper()})


def compared(texts, names, number):
    """A design with comparisons more, by its number; an odd one is changed too."""
    rng = random.Random(f"comparisons {number}")
    text = rng.choice(texts)
    return with_comparisons(rng, changed(rng, text, names) if number % 2 else text)


def call(words, out):
    """The status and the seconds of the processor of one call."""
    limit = lambda: resource.setrlimit(resource.RLIMIT_CPU, (ENDED, ENDED + 1))
    with subprocess.Popen(words, stdout=out, stderr=subprocess.DEVNULL, preexec_fn=limit) as child:
        _, status, used = os.wait4(child.pid, 0)
        child.returncode = os.waitstatus_to_exitcode(status)
        return child.returncode, used.ru_utime + used.ru_stime


class Certified:
    """What a certificate came to."""

    def __init__(self, program, name, path, room):
        cert = os.path.join(room, "it.crt")
        with open(cert, "wb") as out:
            status, self.seconds = call([program, "check", "pipe", path, "--cert"], out)
        self.name, self.path, self.bytes = name, path, os.path.getsize(cert)
        self.accepted = status == 0 and call([program, "recheck", path, cert], subprocess.DEVNULL)[0] == 0

    def fits(self, most, seconds):
        return self.accepted and self.bytes <= most and self.seconds <= seconds

    def line(self):
        return f"{self.name}: {self.bytes:,} bytes in {self.seconds:.2f} s, {'accepted' if self.accepted else 'not accepted'}"


def certified(program, files, room):
    """The certificates of the files that are accepted."""
    for name, text in files:
        path = os.path.join(room, name)
        with open(path, "w", encoding="utf-8") as file:
            file.write(text)
        if run(program, path, ENDED)[0] == 0:
            yield Certified(program, name, path, room)


def main():
    parser = argparse.ArgumentParser()
    parser.add_argument("program")
    parser.add_argument("--count", type=int, default=2000)
    parser.add_argument("--from", type=int, default=0, dest="first")
    parser.add_argument("--bytes", type=int, default=BYTES)
    parser.add_argument("--seconds", type=float, default=SECONDS)
    parser.add_argument("--keep")
    args = parser.parse_args()
    usual = examples()
    texts = [text for _, text in usual]
    names = names_in(texts)
    more = ((f"{n:05d}.hcl", compared(texts, names, n)) for n in range(args.first, args.first + args.count))
    with tempfile.TemporaryDirectory() as room:
        rows = list(certified(os.path.abspath(args.program), [*usual, *more], room))
        longest = sorted(rows, key=lambda row: -row.bytes)[:5]
        slowest = sorted(rows, key=lambda row: -row.seconds)[:5]
        bad = [row for row in rows if not row.fits(args.bytes, args.seconds)]
        for title, some in (("longest", longest), ("slowest", slowest), ("over a limit, or not accepted", bad)):
            print(*(f"{title}: {row.line()}" for row in some), sep="\n")
        if args.keep:
            os.makedirs(args.keep, exist_ok=True)
            for row in longest + slowest + bad:
                shutil.copy(row.path, args.keep)
    print(f"{len(rows)} certificates, {max(row.bytes for row in rows):,} bytes and {max(row.seconds for row in rows):.2f} s at most; {len(bad)} bad")
    return 1 if bad else 0


if __name__ == "__main__":
    sys.exit(main())
