"""What of the gate's parts passes, and what they run."""
import pytest

from viewd_ci import parts
from viewd_ci.parts import GATEWAY, PARTS, PROGRAM, Ended, commands


def test_a_part_passes_if_it_ran_and_told_a_number() -> None:
    assert Ended("fuzz", "fuzz: 20000 damaged lines in 9 runs\n", True).has_passed()
    assert Ended("fuzz", "fuzz: 20000 damaged lines in 9 runs\n", True).outcome() == "fuzz 20,000"
    assert not Ended("fuzz", "fuzz: 20000 damaged lines in 9 runs\n", False).has_passed()


def test_a_part_that_tells_no_number_has_failed() -> None:
    assert Ended("fuzz", "", True).outcome() == "fuzz FAILED"
    assert Ended("fuzz", "fuzz: 0 damaged lines\n", True).outcome() == "fuzz FAILED"


def test_a_part_that_did_not_run_says_so_and_passes() -> None:
    ended = Ended("types", "types: did not run; no mypy is installed\n", True)
    assert ended.has_passed() and ended.outcome() == "types did not run"
    assert not Ended("types", ended.said, False).has_passed()


def test_each_part_has_a_command(monkeypatch: pytest.MonkeyPatch) -> None:
    for name in ("VIEWD", "GATEWAY"):
        monkeypatch.delenv(name, raising=False)
    monkeypatch.setattr(parts, "is_built", lambda *_: False)
    assert all(commands(it, True) for it in PARTS)
    assert commands("fuzz", True) == [[".ci/fuzz"]]
    assert commands("fuzz", False) == [[".ci/fuzz", "--alone"]]
    assert commands("refuse", False) == [[".ci/refuse", "--program"]]
    assert commands("program", False)[0][0] == commands("frontend", False)[0][0] == "echo"
    monkeypatch.setattr(parts, "is_built", lambda file, *_: file in (GATEWAY, f"{PROGRAM}.by-rattle"))
    assert commands("fuzz", False) == [[".ci/fuzz"]]
    assert commands("frontend", False) == [["frontend/test/run"]]
