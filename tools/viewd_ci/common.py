"""What the programs of the gate share: the repository's files and crates, the figures of the last whole run, how fast the host is, and what was compared."""
import json
import os
import re
import sys
import time
from typing import Any

TOP = os.path.dirname(os.path.dirname(os.path.dirname(os.path.abspath(__file__))))
PROGRAM = os.path.join(TOP, "crates", "viewd", "out", "viewd")
LAST_RUN = os.path.join(TOP, ".ci", "last-run.json")
STEPS = 3_000_000


def contents(*path: str) -> str:
    """The text of a file of the repository."""
    with open(os.path.join(TOP, *path), encoding="utf-8") as file:
        return file.read()


def write(text: str, *path: str) -> None:
    """Writes a file of the repository."""
    with open(os.path.join(TOP, *path), "w", encoding="utf-8") as file:
        file.write(text)


def crates_in(text: str) -> dict[str, list[str]]:
    """The crates of a crates.txt, each with those that it names, in their order."""
    return {name: rest.split() for name, rest in re.findall(r"(?m)^(\w+):(.*)$", text)}


def below(crate: str, known: dict[str, list[str]]) -> set[str]:
    """All known crates that a crate stands on, but for itself."""
    found: set[str] = set()
    ahead = list(known[crate])
    while ahead:
        it = ahead.pop()
        if it not in found and it in known:
            found.add(it)
            ahead += known[it]
    return found


def first_sentence(text: str) -> str:
    return re.sub(r"(?s)(?<=\.)\s.*", "", text)


def read_run(path: str = LAST_RUN) -> dict[str, Any]:
    """The figures of a run, by default of the last whole one."""
    with open(path, encoding="utf-8") as file:
        run: dict[str, Any] = json.load(file)
    return run


def loop_seconds() -> float:
    """The processor seconds that a loop of STEPS steps takes now."""
    began, total = time.process_time(), 0
    for step in range(STEPS):
        total += step * step
    return time.process_time() - began


class Comparison:
    """What a part of the gate compared: how many runs it made, and what came out otherwise than it has to."""

    def __init__(self, part: str) -> None:
        self.part, self.runs = part, 0
        self.failures: list[str] = []

    def expect(self, what: str, wanted: object, found: object) -> None:
        if wanted != found:
            self.failures.append(f"{what}\n  wanted {wanted!r:.2000}\n  found  {found!r:.2000}")

    def tell(self) -> int:
        """Prints what failed and how many runs there were, and returns the status."""
        for failure in self.failures:
            print(f"{self.part}: {failure}", file=sys.stderr)
        print(f"{self.part}: {self.runs} runs, {len(self.failures)} failed")
        return 1 if self.failures else 0
