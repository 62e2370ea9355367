"""Texts that others chose, as a table and as XML take them."""
from __future__ import annotations

import re
from xml.sax.saxutils import escape

# A spreadsheet takes a cell that begins so for a formula.
FORMULA = ("=", "+", "-", "@", "\t", "\r")
# Characters that XML doesn't take.
NOT_IN_XML = re.compile("[^\t\n\r\u0020-\ud7ff\ue000-\ufffd\U00010000-\U0010ffff]")


def cell(value: str) -> str:
    """A value as the text of a cell that is no formula."""
    return f"'{value}" if value.startswith(FORMULA) else value


def xml(text: str) -> str:
    """A text without the characters that XML doesn't take."""
    return NOT_IN_XML.sub("\ufffd", text)


def xml_text(text: str) -> str:
    """A text as XML has it between tags."""
    return escape(xml(text))
