"""Runs mypy --strict over the programs in Python with their tests: those of tools and bench, and those of packaging, postgresql and frontend if
their packages are installed.

Another version of mypy may see more or less than the one that they were written with, so it runs with that one alone. What is not installed
does not run: it says so, and succeeds.
"""
import os
import shutil
import subprocess
import tempfile

from viewd_ci.common import TOP

VERSION = "mypy 1.0."
# what the programs of a folder import from another
BESIDE = {"packaging": "../frontend/test", "postgresql": "../frontend:../frontend/test"}
STUBS = "/usr/lib/python3/dist-packages/psycopg2-stubs"


def is_python(first_line: bytes) -> bool:
    return first_line.startswith(b"#!") and first_line.strip().endswith(b"python3")


def programs(folder: str) -> list[str]:
    """The programs of a folder in Python that have no suffix, by their paths in it."""
    found = []
    for at, _, names in os.walk(os.path.join(TOP, folder)):
        for name in sorted(names):
            path = os.path.join(at, name)
            if "." not in name and os.access(path, os.X_OK):
                with open(path, "rb") as file:
                    found += [os.path.relpath(path, os.path.join(TOP, folder))] * is_python(file.readline())
    return found


def modules(folder: str) -> list[str]:
    """The modules of a folder, by their paths in it."""
    found = [os.path.relpath(os.path.join(at, it), os.path.join(TOP, folder)) for at, _, names in os.walk(os.path.join(TOP, folder)) for it in names]
    return sorted(it for it in found if it.endswith(".py"))


def check(cache: str, folder: str, words: list[str]) -> bool:
    """Whether mypy finds nothing, by the folder's own settings if it has some."""
    how = ["mypy", "--strict", "--python-version", "3.11", "--cache-dir", os.path.join(cache, folder), "--no-error-summary"]
    path = f".:test:{BESIDE[folder]}" if folder in BESIDE else ".:test"
    return subprocess.run([*how, *words], cwd=os.path.join(TOP, folder), env=os.environ | {"MYPYPATH": path}).returncode == 0


def has(*names: str) -> bool:
    return subprocess.run(["/usr/bin/python3", "-c", f"import {', '.join(names)}"], stderr=subprocess.DEVNULL).returncode == 0


def folders() -> list[str]:
    """The folders that are looked at beside tools. Says which are not."""
    found = ["bench"]
    if has("websockets"):
        found.append("packaging")
    else:
        print("types: packaging did not run; apt-get install -y python3-websockets")
    if has("psycopg2", "pglast") and os.path.isdir(STUBS):
        found.append("postgresql")
    else:
        print("types: postgresql did not run; apt-get install -y python3-psycopg2 python3-pglast python3-typeshed")
    if has("redis", "pytest", "selenium"):
        found.append("frontend")
    else:
        print("types: frontend did not run; apt-get install -y python3-redis python3-pytest python3-selenium")
    return found


def main(_: list[str]) -> int:
    version = subprocess.run(["mypy", "--version"], capture_output=True, text=True).stdout if shutil.which("mypy") else ""
    if not version.startswith(VERSION):
        print(f"types: did not run; {version.strip() or 'no mypy'} is installed, and these were written with {VERSION}x (apt-get install -y mypy in Debian 12)")
        return 0
    files, wrong = len(modules("tools")), 0
    with tempfile.TemporaryDirectory() as cache:
        wrong += not check(cache, "tools", ["__main__.py", "viewd_ci", *(["test"] if has("pytest") else [])])
        for folder in folders():
            # a program without a suffix is a module of the one name, so each is looked at alone
            for some in [modules(folder), *([it] for it in programs(folder))]:
                files += len(some)
                wrong += not check(cache, folder, some)
    print(f"types: {files} files, {wrong} checks failed")
    return 1 if wrong else 0
