"""The places in a file that a refusal is about: those of y86-tell, and the definitions of the signals that it names."""
from __future__ import annotations

from typing import Iterator, Optional

from . import hcl
from .tell import Json


def of_refusal(path: str, text: str, said: Json) -> Iterator[str]:
    """A line `FILE:LINE:COLUMN: O10: MESSAGE` for each wrong signal, and for each change that repairs a motion."""
    design = hcl.design_of(text)
    for refuted in said.get("refuted", []):
        label = refuted["obligation"]["label"]
        for signal, message in messages(refuted):
            case = next((each["case"] for each in refuted["signals"] if each["signal"] == signal), None)
            place = f":{case['line']}:{case['column']}" if case else definition_place(design, signal)
            yield f"{path}{place}: {label}: {message}"


def definition_place(design: Optional[hcl.Design], signal: str) -> str:
    """Where a file defines a signal; empty if it doesn't."""
    definition = design.by_name.get(signal) if design else None
    return f":{design.line(definition.start)}:{design.column(definition.start)}" if design and definition else ""


def messages(refuted: Json) -> Iterator[tuple[str, str]]:
    """What is said of a signal, for each signal that is wrong or could be changed."""
    wrong = [each for each in refuted["signals"] if not each["right"]]
    for each in wrong:
        wanted = each["wanted"]
        rest = f"It has to be {value_in_words(wanted)}." if wanted else "No value is right: D has to wait."
        yield each["signal"], f"{each['signal']} is {value_in_words(each['value'])}. {rest}"
    motion = refuted["motion"]
    if not motion:
        return
    faults = " ".join(motion["faults"])
    repairs = list(repairs_of(motion))
    for signal, change in repairs:
        yield signal, f"{faults} {change} repairs it.".strip()
    if not wrong and not repairs:
        asked = [f"{stage}_{name}" for stage in "FDEMW" for name in ("stall", "bubble") if motion[stage][name]]
        for signal in asked or [""]:
            yield signal, f"{faults} {signal} is 1." if signal else faults


def repairs_of(motion: Json) -> Iterator[tuple[str, str]]:
    """The changes that repair a motion, each with the signal at which it begins."""
    for signal in motion["invert"]:
        yield signal, f"Inverting {signal}"
    if motion["f_pc"]:
        yield "f_pc", f"Letting f_pc be {' or '.join(motion['f_pc'])}"
    for first, second in motion.get("invert_both", []):
        yield first, f"Inverting {first} and {second}"
    for pair in motion.get("invert_and_f_pc", []):
        yield pair["invert"], f"Inverting {pair['invert']} and letting f_pc be {pair['f_pc']}"


def value_in_words(value: Optional[Json]) -> str:
    """A value of a signal: a name, or a number with what it stands for."""
    if not value:
        return "nothing"
    if "name" in value:
        return str(value["name"])
    return f"{value['number']} ({value['constant']})" if value.get("constant") else str(value["number"])
