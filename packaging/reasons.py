"""What a release is made of, and why what is here is none: the checkout, the version, the gate's run, and the programs that it proved."""
import dataclasses
import hashlib
import json
import pathlib
import re
import subprocess
import tomllib
from typing import Any

from layout import TOP, said

PROGRAMS = {"viewd": "crates/viewd/out/viewd", "gateway": "crates/gateway/out/gateway"}
# the version is in the first; where the others have another one, this is no release
VERSION_IN = "crates/iv_arguments/src/arguments.rt"
RUNS = ["crates/viewd/out/last-run.json", ".ci/last-run.json"]
# what a whole run of the gate counts
COUNTED = {"rt_ci", "must_fail", "edits", "examples", "limits", "fuzz", "queries", "socket"}


def output(*words: str) -> str:
    return subprocess.run(words, cwd=TOP, check=True, capture_output=True, text=True).stdout.strip()


def version_of_source(path: str) -> str:
    found = re.search(r'(?m)^const VERSION: &str = "([^" ]*).*";$', (TOP / path).read_text())
    return found[1] if found else "none"


def versions(programs: dict[str, pathlib.Path]) -> dict[str, str]:
    """The version that each place has."""
    project = tomllib.loads((TOP / "clients/python/pyproject.toml").read_text())["project"]
    module = re.search(r'(?m)^__version__ = "(.*)"$', (TOP / "clients/python/viewd/__init__.py").read_text())
    return {
        VERSION_IN: version_of_source(VERSION_IN),
        "crates/iv_host/src/arguments.rt": version_of_source("crates/iv_host/src/arguments.rt"),
        "clients/js/package.json": json.loads((TOP / "clients/js/package.json").read_text())["version"],
        "clients/python/pyproject.toml": project["version"],
        "clients/python/viewd/__init__.py": module[1] if module else "none",
        **{f"{name} --version": said(it, "--version").split()[1] for name, it in programs.items()}}


def sha256(path: pathlib.Path) -> str:
    return hashlib.sha256(path.read_bytes()).hexdigest()


@dataclasses.dataclass
class Made:
    """What a release is made of. `reasons` say why it is none."""

    version: str
    commit: str
    sources: str
    time: int
    programs: dict[str, pathlib.Path]
    run: dict[str, Any]
    run_in: str
    reasons: list[str]


def run_of(sources: str) -> tuple[dict[str, Any], str, list[str]]:
    """The figures of the gate's run over these sources, where they are, and what speaks against them."""
    for path in RUNS:
        file = TOP / path
        run: dict[str, Any] = json.loads(file.read_text()) if file.exists() else {}
        if run.get("sources") == sources:
            why = []
            if run["sources_changed"]:
                why.append(f"{path} is of sources that were changed")
            if missing := COUNTED - {name for name, count in run["passed"].items() if count}:
                why.append(f"{path} does not count {', '.join(sorted(missing))}")
            return run, path, why
    return {}, "", [f"the gate did not pass over these crates ({sources[:12]}): neither {' nor '.join(RUNS)} is of them"]


def about_programs(programs: dict[str, pathlib.Path], run: dict[str, Any], path: str) -> list[str]:
    """What speaks against the programs: each has to be, byte for byte, the one that the gate proved, built and tried."""
    if not run:
        return ["the programs are not shown to be proved: no run of the gate is of these sources"]
    proved = run.get("programs", {})
    why = []
    for name, it in programs.items():
        if name not in proved:
            why.append(f"{path} does not say which {name} was proved and tried")
        elif proved[name] != sha256(it):
            why.append(f"{it} is not the {name} of {path}, whose SHA-256 is {proved[name]}")
    return why


def made_of(programs: dict[str, pathlib.Path], time: int | None) -> Made:
    missing = [str(it) for it in programs.values() if not it.exists()]
    if missing:
        raise ValueError(f"there is no {' and no '.join(missing)}: .ci/run proves and builds both, and so do ./viewd and ./gateway")
    sources = output("git", "rev-parse", "HEAD:crates")
    found = versions(programs)
    version = found[VERSION_IN]
    reasons = []
    if changed := output("git", "status", "--porcelain"):
        reasons.append(f"the checkout is not as it was committed: {', '.join(it.split()[-1] for it in changed.splitlines()[:5])}")
    reasons += [f"{place} has the version {it}, and {VERSION_IN} {version}" for place, it in found.items() if it != version]
    if f"\n## {version}\n" not in (TOP / "CHANGELOG.md").read_text():
        reasons.append(f"CHANGELOG.md has no chapter {version}")
    run, path, why = run_of(sources)
    reasons += why + about_programs(programs, run, path)
    return Made(version, output("git", "rev-parse", "HEAD"), sources, time or int(output("git", "show", "-s", "--format=%ct")), programs, run, path, reasons)
