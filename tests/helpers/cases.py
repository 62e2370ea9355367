"""Cases of a test, and how they are compared."""
import re

import pytest


def identifier(name):
    """A case's name as pytest shows it and as `-k` takes it: `O2 isn't asked` is `O2-isnt-asked`."""
    text = name if isinstance(name, str) else repr(name)
    text = re.sub("['`\"]", "", text.encode("ascii", "backslashreplace").decode())
    return re.sub(r"[^\w.:+/]+", "-", text).strip("-")[:120] or "empty"


def cases(rows):
    """Runs a test once for each row. A row's first part is its name; the test gets the whole row as `row`."""
    return pytest.mark.parametrize("row", [pytest.param(row, id=identifier(row[0])) for row in rows])


def shown(value):
    """A value as it is best read: bytes and texts of several lines as they are, with what is around them."""
    if isinstance(value, bytes):
        value = value.decode("utf-8", "backslashreplace")
    if isinstance(value, str):
        return value
    if isinstance(value, tuple):
        return "\n".join(shown(it) for it in value)
    return repr(value)


def same(came, wanted):
    """Fails with both values where they differ."""
    if came != wanted:
        pytest.fail(f"--- wanted\n{shown(wanted)}\n--- came\n{shown(came)}\n--- as values\nwanted {wanted!r:.2000}\ncame   {came!r:.2000}", pytrace=False)
