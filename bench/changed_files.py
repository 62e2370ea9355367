#!/usr/bin/env python3
"""Changes of the pipeline designs of examples/, and what `check pipe` takes on each.

    python3 bench/changed_files.py PROGRAM [--count N] [--seed N] [--jobs N] [--seconds S] [--keep FOLDER]

Each file is a design with one to eight changes: a name, an operator or a constant put for another, two cases exchanged, a case or a
member of a set left out, a condition negated. Files that the check doesn't read (names that aren't there, words for truths, loops) are
made again until there are N that it answers for. The seed tells which files they are. Printed are the numbers of answers, the times (of
the processor) and the memory; the slowest files go to FOLDER. The status is 1 if a call took more than half a second, or 30 MB.
"""
import argparse
import os
import random
import re
import resource
import subprocess
import sys
import tempfile
from concurrent.futures import ThreadPoolExecutor

HERE = os.path.dirname(os.path.dirname(os.path.abspath(__file__)))
TOKEN = re.compile(r"\s+|#[^\n]*|[A-Za-z_]\w*|0x[0-9a-fA-F]+|\d+|&&|\|\||[=!<>]=|.", re.S)
OTHERS = {"==": ["!=", "<"], "!=": ["=="], "<": ["<=", "=="], "<=": ["<"], ">": [">=", "=="], ">=": [">"], "&&": ["||"], "||": ["&&"]}
CODES = "INOP IHALT IRRMOVQ IIRMOVQ IRMMOVQ IMRMOVQ IOPQ IJXX ICALL IRET IPUSHQ IPOPQ IIADDQ".split()
STATUSES = "SAOK SADR SINS SHLT SBUB".split()
KEPT = {"word", "bool", "in", "wordsig", "boolsig"}


def tokens(text):
    return TOKEN.findall(text)


def is_name(token):
    return bool(re.match(r"[A-Za-z_]", token)) and token not in KEPT


def spots(ts, wanted):
    """The places of tokens behind the first `=` of a definition."""
    behind, found = False, []
    for at, t in enumerate(ts):
        if t == ";" and depth_at(ts, at) == 0:
            behind = False
        elif t == "=" and not behind:
            behind = True
        elif behind and wanted(t):
            found.append(at)
    return found


def depth_at(ts, at):
    return sum(ts[:at].count(b) for b in "[{(") - sum(ts[:at].count(b) for b in "]})")


def cases(ts):
    """For each list of cases the spans of its cases."""
    found, open_at = [], []
    for at, t in enumerate(ts):
        if t == "[":
            open_at.append([at + 1])
        elif t == ";" and open_at:
            open_at[-1].append(at + 1)
        elif t == "]" and open_at:
            starts = open_at.pop()
            found.append([(a, b) for a, b in zip(starts, starts[1:])])
    return [spans for spans in found if len(spans) > 1]


def change_name(rng, ts, names):
    at = rng.choice(spots(ts, lambda t: is_name(t) and not t.isupper()))
    kind = ts[at].rsplit("_", 1)[-1]
    alike = [n for n in names if n.rsplit("_", 1)[-1] == kind and n != ts[at]]
    ts[at] = rng.choice(alike if alike and rng.random() < 0.6 else names)


def change_operator(rng, ts, names):
    at = rng.choice(spots(ts, lambda t: t in OTHERS))
    ts[at] = rng.choice(OTHERS[ts[at]])


def change_constant(rng, ts, names):
    at = rng.choice(spots(ts, lambda t: t.isupper() or t.isdigit()))
    like = CODES if ts[at] in CODES else STATUSES if ts[at] in STATUSES else ["0", "1"] if ts[at].isdigit() else ["RNONE", "RRSP"]
    ts[at] = rng.choice(like)


def exchange_cases(rng, ts, names):
    spans = rng.choice(cases(ts))
    (a, b), (c, d) = sorted(rng.sample(spans, 2))
    ts[:] = ts[:a] + ts[c:d] + ts[b:c] + ts[a:b] + ts[d:]


def drop_case(rng, ts, names):
    a, b = rng.choice(rng.choice(cases(ts))[:-1])
    del ts[a:b]


def drop_member(rng, ts, names):
    at = rng.choice(spots(ts, lambda t: t == ","))
    end = at + 1
    while ts[end] not in (",", "}"):
        end += 1
    del ts[at:end]


def negate(rng, ts, names):
    at = rng.choice(spots(ts, lambda t: is_name(t) and not t.isupper()))
    ts[at] = "!" + ts[at]


CHANGES = [change_name] * 4 + [change_operator] * 2 + [change_constant] * 2 + [exchange_cases, drop_case, drop_member, negate]


def changed(rng, text, all_names):
    ts = tokens(text)
    names = sorted(set(t for t in ts if is_name(t) and not t.isupper())) if rng.random() < 0.8 else all_names
    for _ in range(rng.randint(1, 8)):
        try:
            rng.choice(CHANGES)(rng, ts, names)
        except IndexError:
            continue
    return "".join(ts)


REGISTERS = "D_rA D_rB E_dstE E_dstM E_srcA E_srcB M_dstE M_dstM W_dstE W_dstM d_srcA d_srcB d_dstE d_dstM e_dstE".split()
STAGE_CODES = "f_icode D_icode E_icode M_icode W_icode".split()


def comparison(rng):
    """A comparison, mostly of two registers."""
    kind = rng.random()
    if kind < 0.8:
        left, right = rng.sample(REGISTERS, 2)
        return f"{left} {rng.choice(['==', '==', '==', '!=', '<', '<='])} {right}"
    if kind < 0.9:
        return f"{rng.choice(REGISTERS)} == {rng.choice(['RRSP', 'RNONE'])}"
    return f"{rng.choice(STAGE_CODES)} == {rng.choice(CODES[:-1])}"


def with_comparisons(rng, text):
    """Puts one or two cases more in front of lists of cases. Each is guarded by one to four comparisons and has a value that its list has already, so
    that often nothing changes that an obligation is about."""
    ts = tokens(text)
    for _ in range(rng.choice([1, 1, 2])):
        at = rng.choice([k for k, t in enumerate(ts) if t == "["])
        values = [case.split(":")[-1].strip() for case in "".join(ts[at + 1 : ts.index("]", at)]).split(";") if ":" in case]
        guard = comparison(rng)
        for _ in range(rng.randint(0, 3)):
            guard += rng.choice([" && ", " && ", " && ", " || "]) + comparison(rng)
        where = rng.choice(["", "", f"{rng.choice(STAGE_CODES)} == {rng.choice(CODES[:-1])} && "])
        ts[at:at + 1] = ["[", f" {where}({guard}) : {rng.choice(values)};"]
    return "".join(ts)


def run(program, path, seconds):
    """The status, the seconds of the processor and the memory of one call; a status of None is a call that was ended."""

    def limit():
        resource.setrlimit(resource.RLIMIT_CPU, (seconds, seconds + 1))
        resource.setrlimit(resource.RLIMIT_AS, (4 << 30, 4 << 30))

    child = subprocess.Popen([program, "check", "pipe", path], stdout=subprocess.DEVNULL, stderr=subprocess.DEVNULL, preexec_fn=limit)
    _, status, used = os.wait4(child.pid, 0)
    child.returncode = 0
    return os.WEXITSTATUS(status) if os.WIFEXITED(status) else None, used.ru_utime + used.ru_stime, used.ru_maxrss / 1024


def designs(program):
    folder = os.path.join(HERE, "examples", "designs")
    found = []
    for name in sorted(os.listdir(folder)):
        if name.endswith(".hcl") and run(program, os.path.join(folder, name), 20)[0] in (0, 1):
            with open(os.path.join(folder, name)) as file:
                found.append((name, file.read()))
    return found


def one(program, texts, all_names, seed, number, seconds, folder):
    rng = random.Random(f"{seed} {number}")
    while True:
        name, text = rng.choice(texts)
        path = os.path.join(folder, f"{number:05d}_{name}")
        with open(path, "w") as file:
            file.write(changed(rng, text, all_names))
        status, time, memory = run(program, path, seconds)
        if status in (0, 1, 6, None):
            return status, time, memory, path


def main():
    parser = argparse.ArgumentParser()
    parser.add_argument("program")
    parser.add_argument("--count", type=int, default=2000)
    parser.add_argument("--seed", default="1")
    parser.add_argument("--jobs", type=int, default=2)
    parser.add_argument("--seconds", type=int, default=20)
    parser.add_argument("--keep")
    args = parser.parse_args()
    program = os.path.abspath(args.program)
    texts = designs(program)
    all_names = sorted(set(t for _, text in texts for t in tokens(text) if is_name(t) and not t.isupper()))
    with tempfile.TemporaryDirectory() as folder, ThreadPoolExecutor(args.jobs) as pool:
        rows = list(pool.map(lambda n: one(program, texts, all_names, args.seed, n, args.seconds, folder), range(args.count)))
        rows.sort(key=lambda row: row[1])
        for status, time, memory, path in rows[-5:]:
            print(f"{os.path.basename(path)}: status {status}, {time:.2f} s, {memory:.0f} MB")
            if args.keep:
                os.makedirs(args.keep, exist_ok=True)
                with open(path) as old, open(os.path.join(args.keep, os.path.basename(path)), "w") as new:
                    new.write(old.read())
    times = [row[1] for row in rows]
    most = max(row[2] for row in rows)
    count = lambda status: sum(row[0] == status for row in rows)
    over = sum(time > 0.5 for time in times)
    print(f"{len(rows)} files of {len(texts)} designs, seed {args.seed}: {count(0)} yes, {count(1)} no, {count(6)} without memory, {count(None)} ended")
    print(f"half of them within {times[len(times) // 2]:.2f} s, 99 of 100 within {times[len(times) * 99 // 100]:.2f} s, all within {times[-1]:.2f} s; {over} over 0.5 s; {most:.0f} MB at most")
    return 1 if over or most > 30 or count(6) or count(None) else 0


if __name__ == "__main__":
    sys.exit(main())
