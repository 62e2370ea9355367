"""The cycles per element of copy loops by the number of words: as CSV, and as a plot in SVG."""
from __future__ import annotations

import csv
import io
import math
from dataclasses import dataclass, field
from typing import Sequence

from .cells import cell, xml_text
from .copy_loop import score

LENGTHS = range(1, 65)
COLOURS = ("#0072b2", "#d55e00", "#009e73", "#cc79a7", "#b8860b", "#56b4e9", "#8a5fbf", "#7f7f7f")
# Where the plot is in the picture.
LEFT, TOP, WIDTH, HEIGHT = 60, 50, 480, 300
MARKS = (1, 2, 5, 10, 20, 50, 100, 200, 500, 1000, 2000)
LONGEST_NAME = 24
PICTURE = """<svg xmlns="http://www.w3.org/2000/svg" viewBox="0 0 840 400">
<style>
svg {{ background: #fff; fill: #222; font: 12px system-ui, sans-serif; }}
.grid {{ stroke: #8886; }}
.curve {{ fill: none; stroke-width: 1.6; stroke-linejoin: round; }}
@media (prefers-color-scheme: dark) {{ svg {{ background: #181818; fill: #ddd; }} }}
</style>
<text x="{left}" y="24" font-size="15">{title}</text>
<text x="{left}" y="41">cycles per element, on a logarithmic axis</text>
{parts}
<text x="{middle}" y="390" text-anchor="middle">number of words</text>
</svg>
"""


@dataclass(frozen=True)
class Curve:
    """The cycles of a copy loop by length, the bytes of the function, and why it scores nothing."""

    name: str
    cycles: dict[int, int] = field(default_factory=dict)
    size: int = 0
    why: str = ""

    @property
    def mean(self) -> float:
        return sum(self.each(length) for length in LENGTHS) / len(LENGTHS)

    @property
    def score(self) -> float:
        return score(self.mean) if self.cycles and not self.why else 0.0

    def each(self, length: int) -> float:
        """The cycles for an element."""
        return self.cycles[length] / length

    def in_words(self) -> str:
        return f"{self.name[:LONGEST_NAME]}: {self.mean:.2f}"


def written(rows: Sequence[Sequence[str]]) -> str:
    out = io.StringIO()
    csv.writer(out, lineterminator="\n").writerows(rows)
    return out.getvalue()


def table_of_one(curve: Curve) -> str:
    """A row for each length."""
    rows = [[str(length), str(curve.cycles[length]), f"{curve.each(length):.2f}"] for length in LENGTHS]
    return written([["length", "cycles", "per element"], *rows])


def table_of_all(curves: Sequence[Curve]) -> str:
    """A row for each hand-in."""
    rows = [["name", "score", "mean", "bytes", "why", *map(str, LENGTHS)]]
    for curve in curves:
        cycles = [str(curve.cycles.get(length, "")) for length in LENGTHS]
        mean = f"{curve.mean:.2f}" if curve.cycles else ""
        size = str(curve.size) if curve.size else ""
        rows.append([cell(curve.name), f"{curve.score:.1f}", mean, size, cell(curve.why), *cycles])
    return written(rows)


@dataclass(frozen=True)
class Scale:
    """Where the values of a plot are in the picture."""

    low: float
    high: float

    def across(self, length: int) -> float:
        return LEFT + WIDTH * (length - 1) / (LENGTHS[-1] - 1)

    def down(self, value: float) -> float:
        return TOP + HEIGHT * (1 - math.log(value / self.low) / math.log(self.high / self.low))

    def points(self, curve: Curve) -> str:
        return " ".join(f"{self.across(length):.1f},{self.down(curve.each(length)):.1f}" for length in LENGTHS)


def scale_of(curves: Sequence[Curve]) -> Scale:
    """The scale between two marks that has room for all values."""
    values = [curve.each(length) for curve in curves for length in LENGTHS] or [MARKS[0]]
    low = max((mark for mark in MARKS if mark <= min(values)), default=MARKS[0])
    return Scale(low, min((mark for mark in MARKS if mark >= max(values) and mark > low), default=MARKS[-1]))


def grid(scale: Scale) -> list[str]:
    """The lines of the marks, and the numbers beside them."""
    parts = []
    for mark in MARKS:
        if scale.low <= mark <= scale.high:
            height = scale.down(mark)
            parts.append(f'<path class="grid" d="M{LEFT} {height:.1f}h{WIDTH}"/>')
            parts.append(f'<text x="{LEFT - 8}" y="{height + 4:.1f}" text-anchor="end">{mark}</text>')
    for length in (1, 8, 16, 24, 32, 40, 48, 56, 64):
        place = scale.across(length)
        parts.append(f'<path class="grid" d="M{place:.1f} {TOP}v{HEIGHT}"/>')
        parts.append(f'<text x="{place:.1f}" y="{TOP + HEIGHT + 18}" text-anchor="middle">{length}</text>')
    return parts


def line(scale: Scale, curve: Curve, look: str) -> str:
    name = xml_text(f"{curve.name}: {curve.mean:.2f} cycles per element")
    return f'<polyline class="curve" {look} points="{scale.points(curve)}"><title>{name}</title></polyline>'


def plot(title: str, curves: Sequence[Curve]) -> str:
    """The curves in one picture, the best one first in its legend. Of many only some have a colour."""
    scale, ranked = scale_of(curves), sorted(curves, key=lambda curve: curve.mean)
    parts, legend = grid(scale), [(curve, curve.in_words()) for curve in ranked]
    if len(ranked) > len(COLOURS):
        parts += [line(scale, curve, 'style="stroke: #8888; stroke-width: 1"') for curve in ranked]
        places = {"best": 0, "median": len(ranked) // 2, "worst": len(ranked) - 1}
        legend = [(ranked[place], f"{what}: {ranked[place].in_words()}") for what, place in places.items()]
    for number, (curve, words) in enumerate(legend):
        height = TOP + 10 + 20 * number
        parts.append(line(scale, curve, f'stroke="{COLOURS[number]}"'))
        parts.append(f'<path d="M{LEFT + WIDTH + 16} {height - 4}h20" stroke="{COLOURS[number]}" stroke-width="2"/>')
        parts.append(f'<text x="{LEFT + WIDTH + 42}" y="{height}">{xml_text(words)}</text>')
    return PICTURE.format(title=xml_text(title), left=LEFT, middle=LEFT + WIDTH // 2, parts="\n".join(parts))
