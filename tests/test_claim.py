"""docs/TRUST.md lists the files of definitions that the claim of a `yes` stands on, each once, with right numbers of lines."""
from helpers.claim import PAGE, claim, counted, definitions, files, listed, types


def page():
    with open(PAGE, encoding="utf-8") as it:
        return it.read()


def test_files():
    assert sorted(listed(page())) == sorted(files())


def test_types():
    assert sorted(types(page())) == sorted(path for path in claim() if path.endswith(".rt"))


def test_numbers():
    assert counted(page()) == page(), "python3 tests/helpers/claim.py writes the numbers into docs/TRUST.md"


def test_well_known_definitions():
    """Definitions that a reader of the claim meets; and one of the checker, which the claim doesn't need."""
    found = {(path.removeprefix("crates/"), name) for path, names in claim().items() for name in names}
    assert {
        ("hcl_design/specs/Designs.antt", "IsDesign"), ("yis_pure_runs/specs/Near.antt", "NearPure"), ("y86_isa/specs/Table.antt", "base_rows"),
        ("dp_signals/specs/Tables.antt", "constant_rows"), ("hcl_read/specs/Grammar.antt", "IsExpr"), ("y86_isa/src/machine.rt", "Machine"),
    } <= found
    assert not any(path.startswith("pipe_obligations/") for path, _ in found)


def test_bodies():
    """A definition goes on to the next, without comments."""
    assert definitions("crates/control_check/specs/PipeVerdicts.antt")["RefinesPipe"] == [
        "abbrev pub RefinesPipe : Variant → List Term → Type 0",
        "RefinesPipe v terms = (image : List ℕ) (k : ℕ) → IsImage image → NearPure v image k → Refines v terms image k",
    ]
