"""Writes the workbench: one HTML file that needs no other.

The modules of src/ become one script, each a function that returns what it exports, so that their names don't meet. The programs are packed by gzip and
base64. Texts and examples come from docs/ and examples/. A Content-Security-Policy lets the page run its own script and nothing else.
"""
import base64
import gzip
import hashlib
import html
import json
import os
import re

from choices import examples
from texts import texts

HERE = os.path.dirname(os.path.realpath(__file__))
IMPORT = re.compile(r'^import \{([^}]*)\} from "(\.\.?/[\w./]+)\.mjs";$', re.M)
EXPORT = re.compile(r"^export (?:const|let|class|function\*?|async function) (\w+)", re.M)
MOST = 2_000_000
UNPROVED = "Nothing here is proved: the programs in this page were compiled from sources as they were."
POLICY = (
    "default-src 'none'; script-src '{script}' 'wasm-unsafe-eval'; worker-src blob:; style-src 'unsafe-inline'; img-src data: blob:; base-uri 'none'; form-action 'none'"
)


class NoPage(Exception):
    """Why the page can't be made."""


def read(path: str) -> str:
    """Returns the text of a file."""
    with open(path, encoding="utf-8") as it:
        return it.read()


def packed(path: str) -> str:
    """Returns the bytes of a file, packed, as text."""
    with open(path, "rb") as it:
        return base64.b64encode(gzip.compress(it.read(), 9, mtime=0)).decode()


def as_json(value: object) -> str:
    """Returns a value for a script that holds data; no text in it may end the script."""
    return json.dumps(value, separators=(",", ":"), ensure_ascii=False).replace("<", "\\u003c")


def named(name: str, other: str) -> str:
    """Returns the name of a module that another one imports by this path."""
    return os.path.normpath(os.path.join(os.path.dirname(name), other))


def below(name: str, found: list[str], above: tuple[str, ...] = ()) -> list[str]:
    """Adds a module after those that it imports."""
    for _, path in IMPORT.findall(read(f"{HERE}/src/{name}.mjs")):
        other = named(name, path)
        if other in (*above, name):
            raise NoPage(f"{name}.mjs and {other}.mjs import each other")
        if other not in found:
            below(other, found, (*above, name))
    if name not in found:
        found.append(name)
    return found


def function(name: str, is_top: bool) -> str:
    """Returns a module as a function that gives what it exports, or as it is for the one that nothing imports."""
    text = read(f"{HERE}/src/{name}.mjs")
    given = EXPORT.findall(text)
    text = IMPORT.sub(lambda it: f'const {{{it[1].replace(" as ", ": ")}}} = bundled["{named(name, it[2])}"];', text)
    # (a declaration exports one name)
    if left := re.search(r"^(?:import|export (?!(?:const|let) \w+ =|class|function|async)|export (?:const|let) \w+ = [\w.\"]+,).*", text, re.M):
        raise NoPage(f"{name}.mjs: {left[0]}")
    text = re.sub(r"^export ", "", text, flags=re.M)
    return text if is_top else f'bundled["{name}"] = (() => {{\n{text}\nreturn {{ {", ".join(given)} }};\n}})();'


def script(top: str) -> str:
    """Returns a module and all that it imports as one script."""
    names = below(top, [])
    return "const bundled = {};\n" + "\n".join(function(it, it == top) for it in names)


def styles() -> str:
    """Returns all styles but those of drawings, which go into saved pictures too."""
    names = sorted(it for it in os.listdir(f"{HERE}/styles") if it != "drawing.css")
    return "\n".join(read(f"{HERE}/styles/{it}") for it in names)


def said_of(about: dict[str, object]) -> str:
    """Returns the sentences of the footer that say where the page comes from, and what was proved."""
    commit = re.sub(r"\b([0-9a-f]{12})[0-9a-f]{28}\b", r"\1", str(about["commit"]))
    whence = f"Made from {commit}" + (f", by {about['toolchain']}" if about["toolchain"] else "")
    if about["proved"]:
        return f"The programs in it were proved ({about['crates']} crates); the page around them is tested. {whence}."
    return f"Nothing in it was proved. {whence}."


def filled(template: str, app: str, data: dict[str, object], more: dict[str, str]) -> str:
    """Returns a page of a template: its styles, its script, its data, and what else it names."""
    digest = base64.b64encode(hashlib.sha256(app.encode()).digest()).decode()
    parts: dict[str, str] = {
        "POLICY": POLICY.format(script=f"sha256-{digest}"),
        "STYLE": styles(),
        "DRAWING": read(f"{HERE}/styles/drawing.css"),
        "CONTROLS": read(f"{HERE}/controls.html"),
        "RUN": read(f"{HERE}/run.html"),
        "DATA": as_json(data),
        "APP": app,
        **more,
    }
    return re.sub(r"@@([A-Z]+)@@", lambda it: parts[it[1]], read(f"{HERE}/{template}.html"))


def page(here: str, programs: dict[str, str], about: dict[str, object], without: frozenset[str]) -> str:
    """Returns the text of the workbench.

    `programs` are files of WebAssembly by the program's name, `without` files that aren't offered.
    """
    data: dict[str, object] = {
        "programs": {name: packed(it) for name, it in programs.items()},
        "examples": examples(here, without),
        "texts": texts(here),
        "about": dict(about, said=said_of(about)),
    }
    unproved = "" if about["proved"] else f'<p class="unproved" id="unproved">{html.escape(UNPROVED)}</p>'
    return filled("page", script("main"), data, {"UNPROVED": unproved, "WORKER": script("worker")})


def viewer(here: str, title: str, shown: dict[str, object]) -> str:
    """Returns the text of a page of one run or one refusal, as `shown` has it (src/viewer.mjs)."""
    data: dict[str, object] = {"programs": {}, "examples": {}, "about": {}, "texts": texts(here), "viewer": shown}
    return filled("viewer", script("viewer"), data, {"TITLE": html.escape(title)})


def written(here: str, programs: dict[str, str], about: dict[str, object], file: str, without: frozenset[str] = frozenset()) -> None:
    """Writes the page into a file."""
    text = page(here, programs, about, without)
    if len(text.encode()) > MOST:
        raise NoPage(f"the page has more than {MOST:,} bytes")
    fresh = f"{file}.{os.getpid()}"
    with open(fresh, "w", encoding="utf-8", newline="\n") as it:
        it.write(text)
    os.replace(fresh, file)
