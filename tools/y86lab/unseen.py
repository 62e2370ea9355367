"""A mistake of a file for SEQ that no program shows: a wrong `icode` by which no other signal goes wrong."""
from __future__ import annotations

import tempfile

from .calls import Programs
from .errors import DONE
from .hcl import Design, replaced

RIGHT = "word icode = imem_icode;"


def is_icode_unseen(programs: Programs, design: Design, full: bool) -> bool:
    """Whether all other signals of a file are right with the `icode` that it defines.

    Each use of `icode` gets the body of its definition, and the definition is made right. If this file is accepted,
    the signals that it computes from the wrong `icode` meet all obligations.
    """
    own = design.by_name.get("icode")
    if own is None:
        return False
    body, text = design.text[own.body.start : own.body.end], design.text
    for use in sorted(design.uses("icode"), key=lambda use: -use.start):
        text = f"{text[: use.start]}({body}){text[use.end :]}"
    with tempfile.NamedTemporaryFile("w", suffix=".hcl", encoding="utf-8") as file:
        file.write(replaced(Design(text), Design(RIGHT)))
        file.flush()
        return programs.check("seq", file.name, full).status == DONE
