"""Tests the gate's own programs: pytest over tools/test.

The tests are of what decides: which edits count as refused, how a table is compared, how words are counted, how minutes are told by crate, what
a part passes by. What is not installed does not run: it says so, and succeeds.
"""
import os
import re
import subprocess

from viewd_ci.common import TOP
from viewd_ci.lint import python_with


def passed_in(said: str) -> int:
    """How many tests passed, as pytest tells in its last line."""
    found = re.search(r"(?m)^(?:\d+ failed, )?(\d+) passed\b", said)
    return int(found[1]) if found else 0


def main(_: list[str]) -> int:
    python = python_with("pytest")
    if not python:
        print("tools: did not run; apt-get install -y python3-pytest")
        return 0
    env = {key: it for key, it in os.environ.items() if not key.startswith(("PYTEST_", "PY_COLORS", "FORCE_COLOR"))}
    env |= {"PYTHONDONTWRITEBYTECODE": "1", "PYTEST_DISABLE_PLUGIN_AUTOLOAD": "1"}
    ran = subprocess.run([python, "-m", "pytest", "--color=no"], cwd=os.path.join(TOP, "tools"), env=env, stdout=subprocess.PIPE, text=True)
    passed = passed_in(ran.stdout)
    if ran.returncode:
        print(ran.stdout)
    print(f"tools: {passed} tests passed, {'some' if ran.returncode else 'none'} failed")
    return 1 if ran.returncode or not passed else 0
