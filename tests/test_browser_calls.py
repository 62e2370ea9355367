"""The programs as WebAssembly answer as the native ones do, with the same bytes and the same status. Needs Node."""
import os

import pytest

from helpers.browser_build import Call, answers, node, worker_answers
from helpers.cases import same
from helpers.paths import DESIGNS, PROGRAMS, ROWS, names
from helpers.programs import Program
from helpers.rows import rows_of
from test_limits import TEXTS

pytestmark = pytest.mark.xdist_group("browser calls")
CHECKED = ("pipe", "seq", "seqplus")
# One of so many of the calls below is made.
SHARE = 10


def read(path):
    with open(path, "rb") as it:
        return it.read()


def designs():
    return {f"{it}.hcl": read(f"{DESIGNS}/{it}.hcl") for it in names(DESIGNS, ".hcl")}


def sources():
    return {f"{it}.ys": read(f"{PROGRAMS}/{it}.ys") for it in names(PROGRAMS, ".ys")}


def objects():
    return {f"{it}.yo": read(f"{PROGRAMS}/{it}.yo") for it in names(PROGRAMS, ".yo")}


def of_programs():
    for name, text in sources().items():
        for more in ([], ["--full"], ["--mem", "64"]):
            yield Call("y86", ["yas", name, *more], {name: text})
    for name, text in objects().items():
        yield Call("y86", ["yis", name], {name: text})
        yield Call("y86", ["yis", name, "--full", "--limit", "5"], {name: text})


def of_designs():
    for name, text in designs().items():
        files = {name: text}
        for more in ([], ["--full"]):
            yield Call("y86", ["hcl", name, *more], files)
            for path in CHECKED:
                yield Call("y86", ["check", path, name, *more], files)
        for words in (["sample", name, "7", "1000"], ["big", "1000", name], ["aig", name]):
            yield Call("y86", words, files)


def of_runs():
    for name, text in designs().items():
        for program, held in objects().items():
            files = {name: text, program: held}
            yield Call("y86", ["psim", name, program, "--trace"], files)
            yield Call("y86", ["psim", name, program, "--checked"], files)
            yield Call("y86_stages", [name, program, "--diagram"], files)
            yield Call("y86_stages", [name, program, "--full", "--from", "3", "--to", "9"], files)
            yield Call("y86", ["ssim", name, program], files)
            yield Call("y86", ["ssimp", name, program], files)


def of_rows():
    """The calls of tests/rows/."""
    for file in sorted(os.listdir(ROWS)):
        for row in rows_of(f"{ROWS}/{file}"):
            files = {name: text.encode() if isinstance(text, str) else text for name, text in row.contents().items()}
            for words, _ in row.calls:
                yield Call("y86", ["" if it == "''" else it for it in words.split()], files)


def faults():
    """Calls that are refused."""
    files = {"README.md": b"# The workbench\n", "std.hcl": designs()["std.hcl"], "empty": b""}
    lines = ["", "yas", "nothing", "yas no-such-file", "hcl README.md", "yas README.md", "yis README.md", "psim std.hcl README.md", "sample std.hcl 0 1000001", "recheck std.hcl README.md"]
    lines += ["aigrun README.md 1", "yas ä\U0001f600", "psim std.hcl README.md --limit 0", "yas empty", "yis empty", "hcl empty"]
    for it in lines:
        yield Call("y86", it.split(), files)
    yield Call("y86", ["yas", ""], files)


def at_the_limits():
    """Deep and long files."""
    for words, text, *_ in TEXTS:
        *parts, last = words.replace("'", "").split(" ", 1)[0], words.replace("'", "").split(" ", 1)[1]
        yield Call("y86", [*parts, last], {last: text})
    for depth in (1000, 20000):
        for text in (b"bool F_bubble = " + b"(" * depth + b"1" + b")" * depth + b";", b"bool F_bubble = " + b"!" * depth + b"1;", b"bool F_bubble = 1" + b" && 1" * depth + b";"):
            yield Call("y86", ["hcl", "deep.hcl"], {"deep.hcl": text})
            yield Call("y86", ["check", "pipe", "deep.hcl"], {"deep.hcl": text})
    yield Call("y86", ["yas", "long.ys", "--mem", "1048576"], {"long.ys": b"    addq %rax, %rax\n" * 40000})


def compared(calls, programs, folder):
    """Fails where an answer isn't the native program's."""
    found = answers(calls)
    for it, (came, fault) in zip(calls, found):
        native = Program(programs(it.crate), folder)(*it.words, files=it.files)
        same((it.words, fault, *came), (it.words, "", *native))
        for name in it.files:
            os.remove(os.path.join(folder, name))


def test_a_tenth_of_all(programs, folder):
    every = [*of_programs(), *of_designs(), *of_runs(), *of_rows()]
    assert len(every) > 1000
    compared(every[3::SHARE], programs, folder)


def test_faults(programs, folder):
    compared(list(faults()), programs, folder)


def test_limits(programs, folder):
    compared(list(at_the_limits()), programs, folder)


def test_certificate(programs, folder):
    """A certificate is the native program's, and either program accepts the other's."""
    text = designs()["std.hcl"]
    (written, fault), = answers([Call("y86", ["check", "pipe", "std.hcl", "--cert"], {"std.hcl": text})])
    files = {"std.hcl": text, "std.crt": written.out}
    native = Program(programs("y86"), folder)
    same((fault, written), ("", native("check", "pipe", "std.hcl", "--cert", files={"std.hcl": text})))
    (rechecked, _), = answers([Call("y86", ["recheck", "std.hcl", "std.crt"], files)])
    same(rechecked, native("recheck", "std.hcl", "std.crt", files=files))
    assert rechecked.status == 0


def limited(words, files):
    """A call under limits of the memory, from none to less than the program needs."""
    return [Call("y86", words, files, limit) for limit in (0, *range(16 << 20, 1 << 20, -(1 << 20)), *range(1 << 20, 0, -(1 << 17)))]


def test_memory():
    """Under each limit of the memory the answer is the right one, or `out of memory` with status 6."""
    files = {**designs(), **objects()}
    for words in (["check", "pipe", "std.hcl"], ["check", "pipe", "stall_and_bubble.hcl"], ["check", "seq", "seq.hcl"], ["psim", "std.hcl", "asum.yo", "--trace"], ["aig", "no_bypassing.hcl"]):
        given = {it: files[it] for it in words if it in files}
        (wanted, fault), *others = answers(limited(words, given))
        same(fault, "")
        refused = [came for came, fault in others if fault or came != wanted]
        assert refused, "no limit was too low"
        for came in refused:
            same((came.status, came.err), (6, b"out of memory\n"))


def test_output():
    """Output that isn't taken whole ends in status 4, and is no answer."""
    files = {"asum.ys": sources()["asum.ys"]}
    (whole, _), *others = answers([Call("y86", ["yas", "asum.ys"], files, 0, room) for room in (0, *range(1, 2000, 400))])
    same(whole.status, 0)
    for came, fault in others:
        same((came.status, fault, came.err, whole.out.startswith(came.out) and came.out != whole.out), (4, "", b"", True))


def test_worker(programs, folder):
    """The page's worker answers each call by its own files, and tells output and faults apart; nothing of the call before is left."""
    native, std, wrong = Program(programs("y86"), folder), designs()["std.hcl"], b"bool Stat = 1;\n"
    calls = [(["check", "pipe", "my.hcl"], std), (["check", "pipe", "my.hcl"], None), (["hcl", "my.hcl"], wrong), (["check", "pipe", "my.hcl"], wrong), (["check", "pipe", "my.hcl"], std)]
    # (an empty text; letters of two, three and four bytes)
    calls += [(["yas", "my.hcl"], b""), (["yas", "my.hcl"], "    nop # \u00e9\u20ac\U0001f600\n".encode())]
    found = worker_answers([Call("y86", words, {} if text is None else {"my.hcl": text.decode()}) for words, text in calls])
    for number, (said, (words, text)) in enumerate(zip(found, calls, strict=True)):
        wanted = native(*words, files={} if text is None else {"my.hcl": text})
        same((said["id"], said["fault"], said["status"], said["out"].encode(), said["err"].encode()), (number, "", *wanted))
        if text is not None:
            os.remove(os.path.join(folder, "my.hcl"))


def test_worker_output():
    """The worker takes 96 MiB of output and no more. Output beyond them ends in status 4, and is no answer."""
    loop = "0x000: 700000000000000000 | loop: jmp loop\n"
    said, = worker_answers([Call("y86", ["psim", "std.hcl", "loop.yo", "--trace", "--limit", "10000000"], {"std.hcl": designs()["std.hcl"].decode(), "loop.yo": loop})])
    same((said["status"], said["fault"], said["err"]), (4, "", ""))
    assert 95 << 20 < len(said["out"]) <= 96 << 20


def test_node_is_there():
    assert node()
