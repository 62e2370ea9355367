"""A situation of PIPE as bits: its 40 fields in order, with the width of each."""
import re

FIELDS = [(f"{stage} kind", bits) for stage, bits in zip("DEMW", (2, 2, 1, 1))]
FIELDS += [(f"F {name}", bits) for name, bits in [("error", 1), ("icode", 4), ("ifun", 4), ("taken", 1), ("stops", 1), ("back", 1)]]
FIELDS += [(f"D {name}", bits) for name, bits in [("stat", 3), ("icode", 4), ("ifun", 4), ("rA", 4), ("rB", 4), ("taken", 1), ("stops", 1), ("back", 1)]]
FIELDS += [(f"E {name}", 4) for name in "stat icode ifun dstE dstM srcA srcB".split()] + [("E cnd", 1), ("E stops", 1), ("E back", 1)]
FIELDS += [(f"M {name}", 4) for name in "stat icode ifun dstE dstM".split()] + [("M cnd", 1), ("M error", 1), ("M back", 1)]
FIELDS += [(f"W {name}", 4) for name in "stat icode dstE dstM".split()]
FIELDS = [(name, 3 if name.endswith("stat") else bits) for name, bits in FIELDS]
KINDS = ("bubble", "good", "wrong")


def bits_of(lines):
    """The bits of a situation as `check pipe` prints it, and those of its atoms."""
    rows, bits = {line.split()[0]: line for line in lines}, []
    for field, width in FIELDS:
        stage, name = field.split()
        number = KINDS.index(rows[stage].split()[1]) if name == "kind" else int(re.search(rf"\b{name}=(\d+)", rows[stage])[1])
        bits += [number >> k & 1 for k in range(width - 1, -1, -1)]
    return bits + [int(truth) for truth in re.findall(r"\)=([01])", rows["atoms"])]
