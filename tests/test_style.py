"""pyflakes over all Python (test_tools_style.py has mypy and pylint over the tools). Where it isn't installed, these tests are skipped."""
import io
import os

import pytest

from helpers.paths import TOP

FOLDERS = ("bench", "launch", "tests", "tools", "web")


def python_files():
    """The files of Python, by their ending or their first line."""
    for folder in FOLDERS:
        for at, _, names in os.walk(f"{TOP}/{folder}"):
            for name in sorted(names):
                path = f"{at}/{name}"
                with open(path, "rb") as it:
                    is_script = "." not in name and b"python" in it.readline()
                if name.endswith(".py") or is_script:
                    yield os.path.relpath(path, TOP)
    yield "prove"


@pytest.mark.parametrize("path", python_files())
def test_pyflakes(path):
    api = pytest.importorskip("pyflakes.api", reason="pyflakes isn't installed (python3-pyflakes)")
    reporter = pytest.importorskip("pyflakes.reporter").Reporter
    said = io.StringIO()
    api.checkPath(f"{TOP}/{path}", reporter(said, said))
    assert said.getvalue() == ""
