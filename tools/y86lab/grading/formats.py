"""Grades as CSV, JSON, JUnit XML, and the results that Gradescope reads."""
from __future__ import annotations

import csv
import io
import json
from typing import Callable, Sequence
from xml.sax.saxutils import quoteattr

from ..cells import cell, xml, xml_text
from .grader import Grade
from .rubric import Rubric


def number(value: float) -> str:
    """A number of points as people write it."""
    return f"{value:.2f}".rstrip("0").rstrip(".")


def as_csv(rubric: Rubric, grades: Sequence[Grade]) -> str:
    """A row for each hand-in: the name, the points, the most points, and the points of each item."""
    out = io.StringIO()
    table = csv.writer(out, lineterminator="\n")
    table.writerow([cell(text) for text in ("name", "points", "of", *[item.name for item in rubric.items])])
    for grade in grades:
        points = [number(score.points) for score in grade.scores]
        table.writerow([cell(grade.name), number(grade.points), number(grade.most), *points])
    return out.getvalue()


def as_json(rubric: Rubric, grades: Sequence[Grade]) -> str:
    """Everything that is known of each hand-in."""
    data = {
        "rubric": rubric.name,
        "of": rubric.most,
        "grades": [
            {
                "name": grade.name,
                "points": round(grade.points, 2),
                "items": [
                    {"name": score.name, "points": score.points, "of": score.most, "reason": score.reason}
                    for score in grade.scores
                ],
                "cycles": {str(length): cycles for length, cycles in sorted(grade.cycles.items())},
            }
            for grade in grades
        ],
    }
    return json.dumps(data, indent=2) + "\n"


def as_gradescope(rubric: Rubric, grades: Sequence[Grade]) -> str:
    """The results of one hand-in, as Gradescope's autograder reads them."""
    grade = grades[0]
    data = {
        "score": round(grade.points, 2),
        "output": f"{rubric.name}: {number(grade.points)} of {number(grade.most)}",
        "output_format": "text",
        "tests": [
            {
                "name": score.name,
                "score": score.points,
                "max_score": score.most,
                "output": score.reason,
                "output_format": "text",
                "status": "passed" if score.points == score.most else "failed",
            }
            for score in grade.scores
        ],
    }
    return json.dumps(data, indent=2) + "\n"


def as_junit(rubric: Rubric, grades: Sequence[Grade]) -> str:
    """A test suite for each hand-in. An item with all its points passes."""
    lines = ['<?xml version="1.0" encoding="UTF-8"?>', f"<testsuites name={quoteattr(xml(rubric.name))}>"]
    for grade in grades:
        failures = sum(score.points < score.most for score in grade.scores)
        counts = f'tests="{len(grade.scores)}" failures="{failures}" errors="0"'
        lines.append(f"  <testsuite name={quoteattr(xml(grade.name))} {counts}>")
        for score in grade.scores:
            lines.append(f"    <testcase classname={quoteattr(xml(grade.name))} name={quoteattr(xml(score.name))}>")
            points = f"{number(score.points)} of {number(score.most)}"
            if score.points < score.most:
                lines.append(f"      <failure message={quoteattr(points)}>{xml_text(score.reason)}</failure>")
            lines.append("    </testcase>")
        lines.append("  </testsuite>")
    return "\n".join([*lines, "</testsuites>", ""])


FORMATS: dict[str, Callable[[Rubric, Sequence[Grade]], str]] = {
    "csv": as_csv,
    "json": as_json,
    "junit": as_junit,
    "gradescope": as_gradescope,
}
