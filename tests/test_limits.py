"""Texts at the limits, and the real system at its worst: disks that are full, streams that are closed, FIFOs, files that grow, little memory."""
import os
import re
import resource
import shutil
import subprocess
import threading
import time

import pytest

from helpers.cases import cases, same
from helpers.designs import example
from helpers.paths import EXAMPLES
from helpers.programs import put

HALT = b"0x000: 00\n"
REPORT = (
    b"Stopped in 1 steps at PC = 0x0.  Status 'HLT', CC Z=1 S=0 O=0\nChanges to registers:\n\nChanges to memory:\n"
)


def parentheses(pairs):
    return b"bool F_bubble = " + b"(" * pairs + b"1" + b")" * pairs + b";"


def declarations(count):
    return b"".join(b"wordsig n%03d 'x'\n" % (at + 1) for at in range(count))


def labels(count):
    return b"".join(b"a%05d:\n" % at for at in range(count))


def listed(count):
    return b"".join(b"0x000:                      | a%05d:\n" % at for at in range(count))


# ---- texts at the limits: the words, the file that the last word names, the status, standard output, standard error
TEXTS = [
    ("hcl h.hcl", parentheses(64), 0, b"bool F_bubble = 1;\n", b""),
    ("hcl h.hcl", parentheses(65), 5, b"", b"h.hcl:1:81: DepthOver64\n"),
    ("hcl h.hcl", declarations(256), 0, declarations(256), b""),
    ("hcl h.hcl", declarations(257), 5, b"", b"h.hcl:257:9: NamesOver256\n"),
    ("hcl h.hcl", b" " * 65536, 0, b"", b""),
    ("hcl h.hcl", b" " * 65537, 7, b"", b"h.hcl: TooLong 65536\n"),
    ("yis p.yo", b"0x00000000000000000: 00\n", 5, b"", b"p.yo:1: AddressTooWide\n"),
    ("yis p.yo", b"0xfffffffffffffffe: 000000\n", 5, b"", b"p.yo:1: OutsideMemory\n"),
    ("yis p.yo", b"0x: 00\n", 5, b"", b"p.yo:1: Syntax\n"),
    ("yis p.yo", b"0x000 00\n", 5, b"", b"p.yo:1: Syntax\n"),
    ("yis p.yo", b"0x9999:\n", 0, REPORT, b""),
    ("yis p.yo", b"\n" * 1048576, 0, REPORT, b""),
    ("yis p.yo", b"\n" * 1048577, 7, b"", b"p.yo: TooLong 1048576\n"),
    ("yas a.ys", labels(65535), 0, listed(65535), b""),
    ("yas a.ys", labels(65536), 5, b"", b"a.ys:65536: LabelLimit\n"),
    ("yis 'a b.yo'", HALT, 0, REPORT, b""),
]



@cases(TEXTS)
def test_text(row, y86):
    words, text, *wanted = row
    words = [quoted or word for quoted, word in re.findall(r"'([^']*)'|(\S+)", words)]
    same(y86(*words, files={words[-1]: text}), tuple(wanted))


# A text whose comment fills the file: an input, and an output that is its negation.
AAG = b"aag 1 1 0 1 0\n2\n3\nc\n"


@pytest.mark.parametrize("size, wanted", [(33554432, (0, b"o0 256\n", b"")), (33554433, (7, b"", b"t.aag: TooLong 33554432\n"))])
def test_a_long_aiger_text(size, wanted, y86):
    same(y86("aigrun", "t.aag", "7", files={"t.aag": AAG.ljust(size, b"\0")}), wanted)


def test_an_empty_hcl_file(y86):
    same(y86("psim", "e.hcl", "p.yo", files={"e.hcl": "", "p.yo": HALT}), (5, b"", b"e.hcl: Missing f_pc\n"))


STD = example("std")
# The design's last `;`, comments aside: a text with less than all definitions is no design.
LAST = max(at for at, byte in enumerate(STD) if byte == ";" and "#" not in STD[STD.rfind("\n", 0, at) + 1 : at])


@pytest.mark.parametrize("length", range(len(STD) + 1))
def test_prefix_of_std(length, y86):
    status, out, _ = y86("psim", "h.hcl", "p.yo", files={"h.hcl": STD[:length], "p.yo": HALT})
    same((status, out == b""), (0, False) if length > LAST else (5, True))


# ---- streams that take nothing

FILES = {"p.yo": HALT, "odd.yo": "0x000: 0\n", "std.hcl": STD, "long.hcl": " " * 65537}
WRITING = ["yis p.yo", "hcl std.hcl", "psim std.hcl p.yo --trace", "psim std.hcl p.yo --checked", "check pipe std.hcl --full"]
TELLING = [("yis", 2), ("yis absent.yo", 3), ("yis odd.yo", 5), ("hcl long.hcl", 7)]


@pytest.mark.parametrize("words", WRITING)
def test_a_full_disk(words, y86):
    with open("/dev/full", "wb") as full:
        same(y86(*words.split(), files=FILES, stdout=full), (4, None, b""))


@pytest.mark.parametrize("words", WRITING)
def test_standard_output_closed(words, y86):
    same(y86(*words.split(), files=FILES, stdout=None, preexec_fn=lambda: os.close(1)), (4, None, b""))


@pytest.mark.parametrize("words", WRITING)
def test_a_broken_pipe(words, y86):
    reader, writer = os.pipe()
    os.close(reader)
    try:
        same(y86(*words.split(), files=FILES, stdout=writer), (4, None, b""))
    finally:
        os.close(writer)


@cases(TELLING)
def test_a_full_disk_under_standard_error(row, y86):
    words, status = row
    with open("/dev/full", "wb") as full:
        same(y86(*words.split(), files=FILES, stderr=full), (status, b"", None))


@cases(TELLING)
def test_standard_error_closed(row, y86):
    words, status = row
    same(y86(*words.split(), files=FILES, stderr=None, preexec_fn=lambda: os.close(2)), (status, b"", None))


def limited(megabytes):
    size = megabytes << 20
    return lambda: resource.setrlimit(resource.RLIMIT_AS, (size, size))


def test_out_of_memory_with_a_full_disk_under_standard_error(y86):
    with open("/dev/full", "wb") as full:
        same(y86("check", "pipe", "std.hcl", files=FILES, stderr=full, preexec_fn=limited(5)), (6, b"", None))


@pytest.mark.parametrize("megabytes", (20, 16, 12, 8))
def test_little_memory(megabytes, y86):
    """The usual answer, or out of memory and nothing on standard output."""
    usual = y86("check", "pipe", "std.hcl", files=FILES)
    came = y86("check", "pipe", "std.hcl", preexec_fn=limited(megabytes))
    same(came, usual if came.status != 6 else (6, b"", b"out of memory\n"))


# ---- files that can't be read, and names of all kinds


def test_a_directory(y86, folder):
    os.mkdir(f"{folder}/folder")
    same(y86("yis", "folder"), (3, b"", b"read fault folder\n"))


NAMES = [
    ("no such file", "a b.yo ", (3, b"", b"read fault a b.yo \n")),
    ("a name with a line feed", "a\nb", (3, b"", b"read fault a\nb\n")),
    ("a name with bytes of a text", "\u00e9.yo", (3, b"", "read fault \u00e9.yo\n".encode())),
    ("an endless file", "/dev/zero", (7, b"", b"/dev/zero: TooLong 1048576\n")),
]


@cases(NAMES)
def test_name(row, y86):
    same(y86("yis", row[1]), row[2])


def test_a_name_that_is_no_text(y86, usage):
    same(y86("yis", b"\xff.yo").text(), usage)


def test_no_permission(y86, folder, programs):
    os.chmod(folder, 0o755)
    y86.path = shutil.copy(programs("y86"), f"{folder}/program")
    put(folder, {"closed.yo": HALT})
    os.chmod(f"{folder}/closed.yo", 0)
    user = (lambda: os.setuid(65534)) if os.geteuid() == 0 else None
    same(y86("yis", "closed.yo", preexec_fn=user), (3, b"", b"read fault closed.yo\n"))


# ---- a FIFO, and a file that grows


@pytest.fixture
def waiting(y86, folder):
    """A call that reads a FIFO which nobody has written yet."""
    os.mkfifo(f"{folder}/fifo.yo")
    with subprocess.Popen([y86.path, "yis", "fifo.yo"], cwd=folder, stdout=subprocess.PIPE, stderr=subprocess.PIPE) as call:
        time.sleep(0.5)
        yield call
        call.kill()


def test_a_fifo_that_is_never_written(waiting):
    same(waiting.poll(), None)


def test_a_fifo_when_it_is_written(waiting, folder):
    put(folder, {"fifo.yo": HALT})
    out, err = waiting.communicate(timeout=60)
    same((waiting.returncode, out, err), (0, REPORT, b""))


@pytest.mark.parametrize("number", range(5))
def test_a_file_that_grows(number, y86, folder):
    """Its bytes up to some length are read, or it is too long."""
    put(folder, {"grows.yo": b"\n" * 1000000})
    stop = threading.Event()

    def write():
        with open(f"{folder}/grows.yo", "ab") as file:
            while not stop.is_set():
                file.write(b"\n" * 512)
                file.flush()

    writer = threading.Thread(target=write)
    writer.start()
    try:
        came = y86("yis", "grows.yo")
    finally:
        stop.set()
        writer.join()
    same(came, (7, b"", b"grows.yo: TooLong 1048576\n") if came.status else (0, REPORT, b""))


# ---- designs that were slow to check, and the first line of the answer, on which solvers agree
SLOW = {
    "a_setting": b"no O1",
    "bubble_fields": b"no O10",
    "compared_registers": b"yes pt=1111111 pb=1111111 tv=0 lf=0 je=0 rm=0",
    "picked_words": b"no O21",
    "unread_choice": b"no O6",
    "unread_product": b"no O4",
}


@cases(SLOW.items())
def test_within_five_seconds(row, y86, pytestconfig):
    """The proved program answers so soon; an unproved one may take a minute."""
    name, answer = row
    path = f"{EXAMPLES}/slow/{name}.hcl"
    seconds = 5 if pytestconfig.getoption("proved") else 60
    status, out, _ = y86("check", "pipe", path, preexec_fn=lambda: resource.setrlimit(resource.RLIMIT_CPU, (seconds, seconds + 1)))
    same((status, out.split(b"\n")[0]), (0 if answer.startswith(b"yes") else 1, answer))
