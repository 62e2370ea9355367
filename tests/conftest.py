"""The fixtures of all tests: the programs, a folder for each test, and the browsers."""
import os
import tempfile

import pytest

from helpers.browser import Browser, command
from helpers.cases import same
from helpers.paths import TOP
from helpers.programs import NoProgram, Program, program_path
from helpers.workbench_page import WIDE, Workbench, engine
from programs import PROGRAMS, programs_in


def pytest_addoption(parser):
    parser.addoption("--proved", action="store_true", help="test the built programs, and fail where one isn't there")


def pytest_configure(config):
    lost = [it for it in programs_in(TOP) if not os.access(f"{TOP}/crates/{it}/out/{it}", os.X_OK)]
    if config.getoption("proved") and lost:
        raise pytest.UsageError(f"--proved: {', '.join(lost)} isn't built")


@pytest.fixture(scope="session")
def programs(request):
    """Where a crate's program is: `programs("y86")`. It skips where the repository has no such crate."""
    found = {}

    def path(crate):
        assert crate in PROGRAMS, f"{crate} isn't listed in launch/programs.py"
        if crate not in programs_in(TOP):
            pytest.skip(f"there is no crate {crate}")
        if crate not in found:
            try:
                found[crate] = program_path(crate, request.config.getoption("proved"))
            except NoProgram as why:
                found[crate] = why
        if isinstance(found[crate], NoProgram):
            pytest.fail(f"there is no program {crate} to test: {found[crate]}", pytrace=False)
        return found[crate]

    return path


@pytest.fixture
def folder():
    """A folder of the test's own."""
    with tempfile.TemporaryDirectory() as room:
        yield os.path.realpath(room)


@pytest.fixture
def y86(programs, folder):
    """The program `y86`, called in the test's folder: `y86("yis", "p.yo", files={"p.yo": text})`."""
    return Program(programs("y86"), folder)


@pytest.fixture
def y86_stages(programs, folder):
    return Program(programs("y86_stages"), folder)


@pytest.fixture
def y86_tell(programs, folder):
    return Program(programs("y86_tell"), folder)


@pytest.fixture(scope="session")
def usage():
    """The answer to an invalid command line."""
    return 2, "", "usage: y86 yas|yis|hcl|ssim|psim|check|sample|big|recheck|ssimp|aig|aigrun\n"


@pytest.fixture(scope="session")
def one_browser():
    if not command():
        pytest.skip("no browser is here: install chromium")
    with Browser() as page:
        yield page


@pytest.fixture
def browser(one_browser):
    """A headless Chromium with one page, 1280 by 900, light. A test that uses it fails where a script of the page failed."""
    one_browser.size(1280, 900)
    one_browser.errors.clear()
    yield one_browser
    assert one_browser.errors == []


@pytest.fixture(scope="module")
def one_workbench():
    from helpers.browser_build import page

    with engine()() as browser:
        it = Workbench(browser)
        it.path = page()
        it.size(*WIDE)
        it.begin(it.path)
        yield it


@pytest.fixture
def at(one_workbench):
    """The workbench in a browser, as it is at first. A test that uses it fails where the console has an error."""
    one_workbench.renew()
    yield one_workbench
    errors = list(one_workbench.errors)
    one_workbench.browser.errors.clear()
    same(errors, [])
