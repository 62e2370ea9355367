"""Parts of the workbench that need no page, run by Node."""
import json
import subprocess

from helpers.browser_build import node
from helpers.cases import cases, same
from helpers.paths import TOP

# Gaps of 30 under line 3 and of 20 under line 5, and lines of 18: where the lines begin is 0, 18, 36, (54) 84, 102, (120) 140, 158.
GAPS = "const it = new Gaps(); it.set([{ line: 5, tall: 12 }, { line: 3, tall: 30 }, { line: 5, tall: 8 }]);"
# What the parts need of the page: its data, empty here.
PAGE = "globalThis.document = { getElementById: () => ({ textContent: '{}' }) };"
# A worker that only notes the calls, the first of which hands it the programs.
WORKER = "let worker; globalThis.Worker = class { constructor() { worker = this; this.ids = []; } postMessage(it) { this.ids.push(it.id); } terminate() {} };"
TWO_CALLS = f"{WORKER} const it = new Engine(), calls = [it.call('y86', [], {{}}), it.call('y86', [], {{}})];"
# A module, what is taken from it, a script, and what it returns.
ROWS = [
    ("gaps above a line", "gaps", "Gaps", f"{GAPS} return [1, 3, 4, 5, 6, 99].map((line) => it.above(line))", [0, 0, 30, 30, 50, 50]),
    ("gaps under a line", "gaps", "Gaps", f"{GAPS} return [it.under(2), it.under(3), it.under(5), it.total]", [0, 30, 20, 50]),
    ("no gaps", "gaps", "Gaps", "const it = new Gaps(); return [it.total, it.lineAt(0, 18), it.lineAt(17, 18), it.lineAt(18, 18), it.lineAt(-5, 18)]", [0, 1, 1, 2, 1]),
    (
        "the line at a height; a gap counts to the line above it", "gaps", "Gaps",
        f"{GAPS} return [0, 17, 18, 53, 54, 83, 84, 101, 102, 119, 120, 139, 140, 157, 158].map((height) => it.lineAt(height, 18))",
        [1, 1, 2, 3, 3, 3, 4, 4, 5, 5, 5, 5, 6, 6, 7],
    ),
    ("a gap before the first line", "gaps", "Gaps", "const it = new Gaps(); it.set([{ line: 0, tall: 30 }]); return [it.above(1), it.lineAt(30, 18), it.lineAt(48, 18)]", [30, 1, 2]),
    (
        "two calls that wait, and each gets its own answer", "engine", "Engine",
        f"{TWO_CALLS} for (const id of worker.ids.slice(1)) worker.onmessage({{ data: {{ id, out: id }} }}); return [...(await Promise.all(calls)).map((said) => said.out), it.isBusy]",
        [1, 2, False],
    ),
    (
        "two calls that wait, and both are stopped", "engine", "Engine",
        f"{TWO_CALLS} it.stop(); return [...(await Promise.allSettled(calls)).map((ended) => ended.status), it.isBusy]",
        ["rejected", "rejected", False],
    ),
    ("the datapath of a text", "names", "datapath", "return ['word pc = pValP;', 'word new_pc = valP;', 'word f_pc = F_predPC;', ''].map(datapath)", ["seqplus", "seq", "pipe", "pipe"]),
]


@cases(ROWS)
def test_part(row):
    _, module, name, script, wanted = row
    text = f'{PAGE} const {{ {name} }} = await import("{TOP}/web/src/{module}.mjs"); console.log(JSON.stringify(await (async () => {{ {script} }})()));'
    ran = subprocess.run([node(), "--input-type=module"], input=text, capture_output=True, text=True, check=False)
    same((ran.returncode, ran.stderr), (0, ""))
    same(json.loads(ran.stdout), wanted)
