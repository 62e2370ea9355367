"""docs/INDEX.md is what the sources say."""
from helpers.definitions import PAGE, definitions, page


def test_page():
    with open(PAGE, encoding="utf-8") as it:
        assert it.read() == page(), "python3 tests/helpers/definitions.py writes docs/INDEX.md anew"


def test_well_known_definitions():
    found = {(name, file) for name, _, file in definitions()}
    assert {("Refines", "pipe_refinement/Refines"), ("ReadsAs", "hcl_read/Read"), ("HasRightLines", "cert_checker/Certificates")} <= found
