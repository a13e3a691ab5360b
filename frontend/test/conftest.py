"""Fixtures of the tests, and the words that pytest is given here beside its own (`frontend/test/run` gives them)."""
import pathlib
import signal
from collections.abc import Iterator
from typing import TYPE_CHECKING

import pytest
from _pytest.terminal import TerminalReporter

pytest.register_assert_rewrite("party", "followers", "wire", "trial", "model", "names")

from trial import many_files
from wire import Gateway

if TYPE_CHECKING:  # other tests run without its package
    from store import Store


def pytest_addoption(parser: pytest.Parser) -> None:
    parser.addoption("--seconds", type=float, default=20, help="for which parts are killed that share a log")
    parser.addoption("--kills", type=int, default=20, help="of the gateway as a program")
    parser.addoption("--steps", type=int, default=400, help="of players whose lines are the model's")
    parser.addoption("--pictures", type=pathlib.Path, help="a folder for pictures of the desk")


def pytest_configure() -> None:
    """What the tests have started ends with them, and they may have many files open."""
    many_files()
    for number in (signal.SIGTERM, signal.SIGHUP):
        signal.signal(number, signal.default_int_handler)


def pytest_terminal_summary(terminalreporter: TerminalReporter) -> None:
    """The figures that tests have printed: pytest keeps them for those that fail."""
    for report in terminalreporter.getreports("passed"):
        if report.capstdout.strip():
            terminalreporter.write_line(f"{report.head_line}: {report.capstdout.strip()}")


@pytest.fixture
def seconds(request: pytest.FixtureRequest) -> float:
    return float(request.config.getoption("--seconds"))


@pytest.fixture
def kills(request: pytest.FixtureRequest) -> int:
    return int(request.config.getoption("--kills"))


@pytest.fixture
def steps(request: pytest.FixtureRequest) -> int:
    return int(request.config.getoption("--steps"))


@pytest.fixture(autouse=True)
def none_left() -> Iterator[None]:
    """After a test no program runs that it has started; if it failed, pytest prints what they said."""
    there = [*Gateway.running]
    yield
    for it in [it for it in Gateway.running if it not in there]:
        print(f"--- port {it.port}\n{it.said()[-1500:]}")
        it.end()


@pytest.fixture
def store() -> Iterator["Store"]:
    """A Redis of the test's own."""
    from store import Store
    made = Store()
    yield made
    made.end()
