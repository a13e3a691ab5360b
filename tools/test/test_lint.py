"""What looks at the programs in Python, and at which."""
import pathlib

import pytest

from viewd_ci import lint


def test_all_programs_and_modules_are_looked_at() -> None:
    found = lint.sources()
    assert {"tools/viewd_ci/lint.py", "frontend/test/edits", "frontend/agree", "clients/examples/cache/follow.py", "packaging/make"} <= {*found}
    assert "bench/run" not in found and len(found) == len({*found})  # which is two lines of a shell


@pytest.mark.parametrize(
    ("what", "text"),
    [
        pytest.param("F401", "import os\n", id="a module that nobody uses"),
        pytest.param("F821", "print(nothing)\n", id="a name that is not there"),
        pytest.param("F841", "def one() -> None:\n    two = 2\n", id="a value that nobody reads"),
        pytest.param("E711", "import sys\n\nprint(sys.argv == None)\n", id="a comparison with None"),
        pytest.param("E731", "one = lambda: 1\nprint(one)\n", id="a function without a name of its own"),
        pytest.param("E501", f"print('{'x ' * 80}')\n", id="a long line"),
        pytest.param("W291", "print(1) \n", id="a blank at the end"),
        pytest.param(None, "import sys\nimport os\nprint(os, sys)\n", id="imports out of order"),
    ],
)
def test_what_is_wrong_is_told(tmp_path: pathlib.Path, what: str | None, text: str, capfd: pytest.CaptureFixture[str], monkeypatch: pytest.MonkeyPatch) -> None:
    if not {"flake8", "isort"} <= {*lint.looks()} and "ruff" not in lint.looks():
        pytest.skip("nothing that looks is installed")
    program = tmp_path / "one.py"
    program.write_text(text)
    monkeypatch.setattr(lint, "sources", lambda: [str(program)])
    assert lint.main([]) == 1
    assert what is None or what in capfd.readouterr().out
