"""What docs/OBLIGATIONS.md says as `y86-tell show` does: of each obligation its signals in the table at the head, what it demands, and why.

The sentences stand once, in crates/explanations. `python3 tests/helpers/obligations_page.py` writes them into the page, and test_tell_show.py compares.
"""
import json
import os
import re
import subprocess
import sys
import textwrap

TOP = os.path.dirname(os.path.dirname(os.path.dirname(os.path.abspath(__file__))))
PAGE = f"{TOP}/docs/OBLIGATIONS.md"
WIDTH = 120


def section_of(obligation):
    """The heading of an obligation's section."""
    label = obligation["label"]
    return f"{label} of SEQ+" if obligation["datapaths"] == ["seqplus"] else label


def filled(text):
    return textwrap.fill(text, WIDTH, break_long_words=False, break_on_hyphens=False)


def sentences(text):
    """A paragraph, each sentence on a line of its own."""
    return "\n".join(filled(it) for it in re.split(r"(?<=\.) ", text))


def paragraphs(obligation):
    """What an obligation demands, and why."""
    why = f"*Why.* {obligation['reason']}"
    return f"{sentences(obligation['demand'])}\n\n{sentences(why)}\n"


def entry(obligation):
    """An obligation in the table at the head: its link and its signals. Stalls and bubbles have a row of their own."""
    label = obligation["label"]
    signals = [f" `{it}`" for it in obligation["signals"] if not it.endswith(("_stall", "_bubble"))]
    return f"[{label}](#{label.lower()}){''.join(signals)}"


def with_obligations(text, obligations):
    """The page with what these obligations say."""
    for it in obligations:
        before, found, after = text.partition(f"\n### {section_of(it)}\n\n")
        assert found, f"docs/OBLIGATIONS.md has no section {section_of(it)}"
        _, _, rest = after.partition("\n\n*Why.*")
        text = before + found + paragraphs(it) + "\n" + rest.partition("\n\n")[2]
        if it["datapaths"] != ["seqplus"]:
            label = it["label"]
            text, count = re.subn(rf"\[{label}\]\(#{label.lower()}\)(?: `\w+`)*", entry(it), text, count=1)
            assert count, f"docs/OBLIGATIONS.md has no link to {label}"
    return text


def main():
    shown = subprocess.run([f"{TOP}/y86-tell", "show", "--json"], stdout=subprocess.PIPE, check=True).stdout
    with open(PAGE, encoding="utf-8") as file:
        text = file.read()
    with open(PAGE, "w", encoding="utf-8") as file:
        file.write(with_obligations(text, json.loads(shown)["obligations"]))


if __name__ == "__main__":
    sys.exit(main())
