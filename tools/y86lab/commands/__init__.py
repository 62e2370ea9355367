"""The commands of the lab, in the order of the help."""
from __future__ import annotations

from . import (
    aiger,
    archlab,
    classroom,
    cycles,
    draw,
    explain,
    grade,
    page,
    run_both,
    swap,
    watch,
    witness,
)

COMMANDS = (
    explain.COMMAND,
    witness.COMMAND,
    watch.COMMAND,
    run_both.COMMAND,
    page.COMMAND,
    draw.COMMAND,
    cycles.COMMAND,
    archlab.COMMAND,
    swap.COMMAND,
    classroom.COMMAND,
    grade.COMMAND,
    aiger.COMMAND,
)
