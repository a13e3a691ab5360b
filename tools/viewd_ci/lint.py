"""Looks at all programs in Python, tests and examples too, by the rules that tools/pyproject.toml gives ruff: names, statements, imports and their order.

ruff looks where it is installed. It is in no package of Debian 12, and there flake8 and isort look in its place, by the same rules. What is not
installed does not run: it says so, and succeeds.
"""
import os
import shutil
import subprocess
import sys
import tomllib
from typing import Any

from viewd_ci.common import TOP
from viewd_ci.types import modules, programs

SETTINGS = "tools/pyproject.toml"
FOLDERS = ("tools", "bench", "packaging", "postgresql", "frontend", "clients")
# by the order in which they are asked: Debian's packages are those of the system's Python
PYTHONS = (sys.executable, "/usr/bin/python3")


def python_with(module: str) -> str | None:
    """A Python that has the module."""
    there = filter(os.path.exists, PYTHONS)
    found = (it for it in there if not subprocess.run([it, "-c", f"import {module}"], capture_output=True).returncode)
    return next(found, None)


def sources() -> list[str]:
    """The programs and modules in Python, by their paths from the top."""
    return sorted(f"{folder}/{it}" for folder in FOLDERS for it in [*programs(folder), *modules(folder)])


def rules() -> Any:
    with open(os.path.join(TOP, SETTINGS), "rb") as file:
        return tomllib.load(file)["tool"]["ruff"]


def flake8(given: Any) -> list[str]:
    """The words by which flake8 looks for what ruff would look for."""
    lint = given["lint"]
    passed_over = " ".join(f"{at}:{','.join(kinds)}" for at, kinds in lint["per-file-ignores"].items())
    words = ["--isolated", f"--max-line-length={given['line-length']}", f"--per-file-ignores={passed_over}"]
    return [*words, f"--select={','.join(it for it in lint['select'] if it != 'I')}", f"--ignore={','.join(lint['ignore'])}"]


def isort(given: Any) -> list[str]:
    """The same of isort, which lays long lines out as ruff does."""
    beside = [word for it in given["src"] for word in ("--src", it)]
    return ["--check-only", "--diff", "--quiet", "--profile=black", "--extra-builtin=tomllib", f"--line-length={given['line-length']}", *beside]


def looks() -> dict[str, list[str]]:
    """What is installed of those that look at the sources, each as a command."""
    if shutil.which("ruff"):
        return {"ruff": ["ruff", "check", "--no-cache", "--config", SETTINGS]}
    given = rules()
    asked = {"flake8": flake8(given), "isort": isort(given)}
    return {name: [python, "-m", name, *words] for name, words in asked.items() if (python := python_with(name))}


def main(_: list[str]) -> int:
    files, commands = sources(), looks()
    if not commands:
        print("lint: did not run, since neither ruff nor flake8 and isort are installed; apt-get install -y flake8 isort")
        return 0
    if "ruff" not in commands:
        for it in {"flake8", "isort"} - {*commands}:
            print(f"lint: {it} did not run; apt-get install -y {it}")
    failed = sum(bool(subprocess.run([*words, *files], cwd=TOP).returncode) for words in commands.values())
    print(f"lint: {len(files)} files, {failed} failed, by {' and '.join(commands)}")
    return 1 if failed else 0
