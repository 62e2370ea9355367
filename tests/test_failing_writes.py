"""Each write on standard output of a call fails in turn, until a call has no fault: the call ends with status 4, nothing on standard error, and a proper
prefix of its text. The same where each write takes one byte: then just the bytes before the failed write are out."""
import os

import pytest

from helpers.cases import same
from helpers.paths import EXAMPLES
from helpers.shims import built

SHIM = r"""
#define _GNU_SOURCE
#include <dlfcn.h>
#include <errno.h>
#include <stdlib.h>
#include <unistd.h>

static unsigned long count, failing, most;
static ssize_t (*next_write)(int, const void *, size_t);

ssize_t write(int fd, const void *at, size_t size) {
    if (!next_write) {
        next_write = dlsym(RTLD_NEXT, "write");
        failing = strtoul(getenv("FAIL_WRITE"), 0, 10);
        most = strtoul(getenv("MOST_BYTES"), 0, 10);
    }
    if (fd != 1 || !size) return next_write(fd, at, size);
    if (++count == failing) {
        errno = ENOSPC;
        return -1;
    }
    return next_write(fd, at, most && size > most ? most : size);
}
"""
CALLS = [
    "yis programs/asum.yo",
    "yas programs/add.ys",
    "hcl designs/seq_plus.hcl",
    "psim designs/std.hcl programs/add.yo --trace",
    "psim designs/std.hcl programs/add.yo --checked",
    "check pipe designs/stall_and_bubble.hcl",
]


@pytest.mark.slow
@pytest.mark.parametrize("most", (0, 1), ids=("whole writes", "one byte a write"))
@pytest.mark.parametrize("words", CALLS)
def test_each_write_fails(words, most, y86, folder):
    library = built(folder, SHIM)

    def call(number):
        return y86(*words.split(), folder=EXAMPLES, env={**os.environ, "LD_PRELOAD": library, "FAIL_WRITE": str(number), "MOST_BYTES": str(most)})

    usual, number, wrong = call(0), 1, []
    while (came := call(number)) != usual:
        is_prefix = usual.out.startswith(came.out) and len(came.out) < len(usual.out)
        if came.status != 4 or came.err or not is_prefix or most == 1 and len(came.out) != number - 1:
            wrong.append((number, came))
        number += 1
    same((wrong, number > 1), ([], True))
