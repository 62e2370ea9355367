"""A page for each hand-in: its grade, what y86-tell says of its processor, a picture, a program that shows a mistake.

A page is one HTML file that can be mailed. No text of a hand-in is markup in it.
"""
from __future__ import annotations

import html
import os
import re
import subprocess
import sys

from ..calls import LAUNCHER, Limits, Programs, full_flag
from ..errors import DONE, FAULT, REFUSED, TOO_LONG
from .formats import number
from .grader import Grade
from .handins import HandIn
from .obligations import Verdict
from .rubric import Rubric

TOOLS = os.path.dirname(os.path.dirname(os.path.dirname(os.path.realpath(__file__))))
PAGE = """<!DOCTYPE html>
<html lang="en"><head><meta charset="utf-8"><meta name="viewport" content="width=device-width, initial-scale=1">
<title>{title}</title><style>
:root {{ color-scheme: light dark; }}
body {{ font: 16px/1.5 system-ui, sans-serif; max-width: 60rem; margin: 2rem auto; padding: 0 1rem; }}
table {{ border-collapse: collapse; }}
th, td {{ padding: .3rem .8rem; text-align: left; border-bottom: 1px solid #8884; }}
td.points {{ text-align: right; white-space: nowrap; }}
pre {{ overflow-x: auto; padding: .8rem; border: 1px solid #8884; border-radius: 6px; font-size: .85rem; }}
.stages {{ display: grid; grid-template-columns: repeat(auto-fit, minmax(8rem, 1fr)); gap: .5rem; margin: 1rem 0; }}
.stages div {{ border: 2px solid #4a7fb5; border-radius: 6px; padding: .4rem .6rem; font-size: .85rem; }}
.stages div.bubble {{ border-color: #8886; color: color-mix(in srgb, CanvasText 70%, Canvas); }}
.stages div.wrong {{ border-style: dashed; border-color: #c4553b; }}
.stages b {{ display: block; }}
</style></head><body>
<h1>{title}</h1>
<p>{points} of {most} points.</p>
<table><thead><tr><th>for</th><th>points</th><th>why</th></tr></thead><tbody>
{rows}
</tbody></table>
{details}
</body></html>
"""
ROW = '<tr><td>{name}</td><td class="points">{points} of {most}</td><td>{reason}</td></tr>'
# A stage of a counterexample in y86-tell's words: of PIPE, and of the sequential processors.
STAGE = re.compile(
    r"^    ([FDEMW]  (?:fetch|decode|execute|memory|write-back)|The instruction(?: before)?:) +(.+)$", re.M
)


def printed(programs: Programs, seconds: float, *words: str) -> str:
    """What a command of the lab prints within a time. It is a process of its own, since many pages are made at once."""
    try:
        done = subprocess.run(
            [sys.executable, "-B", TOOLS, *words],
            env=dict(programs.environment),
            stdin=subprocess.DEVNULL,
            capture_output=True,
            check=False,
            timeout=seconds,
        )
    except subprocess.TimeoutExpired:
        return "There was no answer in time."
    lines = done.stderr.decode("utf-8", "replace").splitlines(True)
    return done.stdout.decode("utf-8", "replace") + "".join(line for line in lines if not line.startswith(LAUNCHER))


def picture(said: str) -> str:
    """The stages of a counterexample, those of PIPE with the oldest instruction on the right; empty if none is told."""
    boxes = []
    for stage, what in STAGE.findall(said):
        kind = "bubble" if what == "bubble" else "wrong" if "wrong path" in what else "good"
        parts = "<br>".join(html.escape(part) for part in what.split(", "))
        boxes.append(f'<div class="{kind}"><b>{" ".join(stage.rstrip(":").split())}</b>{parts}</div>')
    return f'<div class="stages">{"".join(boxes)}</div>\n' if boxes else ""


class Pages:
    """Makes the pages of a class. A search for a program takes at most so many seconds."""

    def __init__(self, programs: Programs, rubric: Rubric, limits: Limits, seconds: int) -> None:
        self.programs, self.rubric, self.limits, self.seconds = programs, rubric, limits, seconds
        self.flags = full_flag(rubric.full)

    def page(self, hand_in: HandIn, grade: Grade) -> str:
        """The page of a hand-in."""
        rows = [
            ROW.format(
                name=html.escape(score.name),
                points=number(score.points),
                most=number(score.most),
                reason=html.escape(score.reason),
            )
            for score in grade.scores
        ]
        wrong = {name: verdict for name, verdict in sorted(grade.verdicts.items()) if verdict.false or verdict.fault}
        return PAGE.format(
            title=html.escape(f"{self.rubric.name}: {grade.name}"),
            points=number(grade.points),
            most=number(grade.most),
            rows="\n".join(rows),
            details="\n".join(self.details(name, hand_in.files[name], verdict) for name, verdict in wrong.items()),
        )

    def details(self, name: str, path: str, verdict: Verdict) -> str:
        """What is said of a processor that isn't accepted. What the check can't decide in time isn't asked again."""
        title = f"<h2>{html.escape(name)}</h2>\n"
        if not verdict.is_answered:
            return f"{title}<p>{html.escape(verdict.fault)}</p>"
        said = self.said_of(verdict.datapath, path).replace(path, name)
        details = f"{title}{picture(said)}<pre>{html.escape(said)}</pre>"
        if verdict.fault:
            return details
        seconds = self.limits.timeout() + self.seconds
        words = ["witness", *self.flags, "--seconds", str(self.seconds), "--", path]
        shown = printed(self.programs, seconds, *words).replace(path, name)
        return f"{details}\n<h2>A program that shows it</h2>\n<pre>{html.escape(shown)}</pre>"

    def said_of(self, datapath: str, path: str) -> str:
        """What y86-tell says of a file; what the lab says if that program doesn't."""
        words = ["check", datapath, path, *self.flags]
        answer = self.programs.run(*words, program="y86-tell", limits=self.limits)
        if answer.status in (DONE, REFUSED, FAULT, TOO_LONG):
            return answer.out + answer.err
        return printed(self.programs, self.limits.timeout(), "explain", *self.flags, "--", path)
