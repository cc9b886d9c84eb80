"""What `pytest trials` needs: the programs, and which trials are left out where nothing is said of them."""

from __future__ import annotations

import os

import pytest

HERE = os.path.dirname(os.path.dirname(os.path.abspath(__file__)))
PROGRAMS = ("upsd", "readings", "refusals", "endings")
MARKS = {  # the marks of trials that `pytest trials` leaves out, and why; `-m MARK` runs them
    "long": "it takes more than four minutes",
    "quiet": "it measures times: nothing else may run beside it",
    "root": "it needs root, for namespaces, mounts or clocks",
    "machine": "it boots a Debian, or virtual machines",
    "proved": "it proves the program first",
}


def pytest_addoption(parser: pytest.Parser) -> None:
    for name in PROGRAMS:
        parser.addoption("--program" if name == "upsd" else f"--{name}", metavar="PATH", default=f"crates/{name}/out/{name}",
                         help=f"the program {name} (default: %(default)s, which `rt run` builds)")


def pytest_configure(config: pytest.Config) -> None:
    for name, why in MARKS.items():
        config.addinivalue_line("markers", f"{name}: {why}")


def pytest_collection_modifyitems(config: pytest.Config, items: list[pytest.Item]) -> None:
    """Skips what is marked, unless -m says what to run."""
    if config.getoption("-m"):
        return
    for item in items:
        for name in (it.name for it in item.iter_markers() if it.name in MARKS):
            item.add_marker(pytest.mark.skip(reason=f"-m {name}: {MARKS[name]}"))


@pytest.fixture(scope="session")
def programs(pytestconfig: pytest.Config) -> dict[str, str]:
    """Returns the paths of the programs, by name."""
    return {name: os.path.join(HERE, pytestconfig.getoption("--program" if name == "upsd" else f"--{name}")) for name in PROGRAMS}
