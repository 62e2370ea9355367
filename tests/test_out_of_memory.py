"""Each request for memory of a call is refused in turn, up to the last: the call ends with status 6, nothing on standard output and one line on
standard error, or as with enough memory. `check pipe` takes minutes."""
import os

import pytest

from helpers.cases import same
from helpers.paths import EXAMPLES
from helpers.shims import REFUSING, built

CALLS = [
    "yis programs/asum.yo",
    "yas programs/asum.ys",
    "hcl designs/std.hcl",
    "ssim designs/seq.hcl programs/asum.yo",
    "psim designs/std.hcl programs/asum.yo --trace",
    "check seq designs/seq.hcl",
    "check pipe designs/std.hcl",
    "check pipe designs/stall_and_bubble.hcl",
    "sample designs/std.hcl 7 512",
    "aig designs/std.hcl",
]
# So many calls in a row that end as with enough memory are behind the last request.
BEHIND = 50


@pytest.mark.slow
@pytest.mark.parametrize("words", CALLS)
def test_each_request_refused(words, y86, folder):
    library = built(folder, REFUSING)

    def call(number):
        return y86(*words.split(), folder=EXAMPLES, env={**os.environ, "LD_PRELOAD": library, "FAIL_ALLOC": str(number)})

    usual, number, usual_again, wrong = call(0), 0, 0, []
    while usual_again < BEHIND:
        number += 1
        came = call(number)
        if came == (6, b"", b"out of memory\n"):
            usual_again = 0
        elif came == usual:
            usual_again += 1
        else:
            wrong.append((number, came))
    same(wrong, [])
