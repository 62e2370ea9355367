"""All false obligations of a sequential processor, found by y86 alone, which says the first.

The signals that the first one is about get a right file's definitions, and y86 is asked again, until it says yes.
So each later obligation is judged where the earlier ones hold.
"""
from __future__ import annotations

import os
import re
import tempfile
from dataclasses import dataclass
from typing import Mapping

from .. import hcl
from ..calls import Limits, Programs, full_flag
from ..errors import DONE


@dataclass(frozen=True)
class Mending:
    """Asks y86 again and again, each time with the signals of the last false obligation as a right file has them.

    The earlier obligations hold by then, so what these signals read is right already, or has no obligation of its own.
    """

    programs: Programs
    datapath: str
    full: bool
    limits: Limits
    right: hcl.Design
    signals: Mapping[str, tuple[str, ...]]

    def all_false(self, design: hcl.Design, first: str) -> tuple[str, ...]:
        """The labels that were false in turn; none if y86 didn't come to a yes."""
        labels = [first]
        with tempfile.TemporaryDirectory() as folder:
            path = os.path.join(folder, "mended.hcl")
            while True:
                others = self.definitions(labels)
                with open(path, "w", encoding="utf-8") as file:
                    file.write(hcl.replaced(design, others))
                answer = self.programs.run("check", self.datapath, path, *full_flag(self.full), limits=self.limits)
                if answer.status == DONE:
                    return tuple(labels)
                said = re.match(r"no (S\d+)$", answer.out, re.M)
                if not said or said[1] in labels:
                    return ()
                labels.append(said[1])

    def definitions(self, labels: list[str]) -> hcl.Design:
        """The right file's definitions of the signals of these obligations, and of the signals that these read."""
        names = list(dict.fromkeys(name for label in labels for name in self.signals[label]))
        for name in names:
            own = self.right.by_name.get(name)
            read = [used.name for used in hcl.names_in(own.body)] if own else []
            names += [below for below in dict.fromkeys(read) if below not in names and below in self.right.by_name]
        wanted = [self.right.by_name[name] for name in names if name in self.right.by_name]
        return hcl.Design("".join(f"{self.right.text[each.start:each.end]}\n" for each in wanted))
