"""Runs the parts of the gate that need no prover, side by side, and ends with one line of their numbers.

usage: .ci/parts --proved [PART..]      over what `rt ci` has left in out/: .ci/run does so after the proofs
       .ci/parts --built [PART..]       over the program that ./viewd has built, as .ci/run --built does

--built fails if the program is missing or older than its sources. What rt ci alone makes, and what needs the kit if none is on the
path, it passes over, and says so. VIEWD names another program to run. RT_JOBS parts run side by side, by default as many as there are
processors. A part that does not end in HOURS is ended, and has failed; after each part all that it has started is ended.
"""
import contextlib
import os
import re
import shutil
import signal
import subprocess
import sys
import tempfile
import threading
import time
from concurrent.futures import ThreadPoolExecutor
from dataclasses import dataclass
from typing import IO

from viewd_ci.common import TOP

PROGRAM = "crates/viewd/out/viewd"
GATEWAY = "crates/gateway/out/gateway"
# what needs the longest comes first
PARTS = ["clients", "frontend", "program", "postgresql", "refuse", "try", "limits", "fuzz", "examples", "queries", "socket", "types"]
PARTS += ["tools", "lint", "meters", "seeds", "edit_texts", "files", "modules", "definitions", "protocol", "words"]
# those that do not ask for the program that is built, and those that ask for the kit
OF_SOURCES = {"tools", "lint", "meters", "seeds", "edit_texts", "files", "modules", "definitions", "protocol", "words", "types", "try"}
OF_KIT = {"refuse", "try"}
# and what asks for a program of its own
OF_ITSELF = {"program"}
# far more than a part takes on a slow host: only one that hangs comes to it
HOURS = 1.5
# texts are UTF-8 and messages English wherever this runs
SAME_EVERYWHERE = {"LC_ALL": "C.UTF-8", "PYTHONUTF8": "1"}
PRINTING = threading.Lock()
RUNNING: dict[int, str] = {}


def is_built(file: str, *folders: str) -> bool:
    """Whether the file is there and no source of the program, nor of these folders, is newer."""
    return subprocess.run([f"{TOP}/.ci/is_built", file, *folders], cwd=TOP).returncode == 0


def has_proved_tests() -> bool:
    """Whether rt ci has left the tests that .ci/refuse runs, made from what is there now."""
    crates = ["tests_lines", "tests_circuits"]
    return all(is_built(f"crates/{it}/out/{it}_tests", f"crates/{it}") for it in crates)


def commands(part: str, is_proved: bool) -> list[list[str]]:
    """What the part runs. Without what rt ci alone makes it runs less, and its own words say so."""
    if part in ("postgresql", "clients"):
        return [[f"{part}/test/run"]]
    if part in ("frontend", "program"):
        if is_proved or "GATEWAY" in os.environ or is_built(GATEWAY):
            return [["frontend/test/run", *["--program"] * (part == "program")]]
        return [["echo", f"{part}: did not run, since {GATEWAY} is missing, or older than a source: ./gateway --help proves and builds it"]]
    if part == "meters":
        return [[".ci/meters", "--self-test"], [".ci/meters"]]
    is_other = "VIEWD" in os.environ
    if part == "fuzz" and not is_proved and (is_other or not is_built(f"{PROGRAM}.by-rattle")):
        return [[".ci/fuzz", "--alone"]]
    if part == "refuse" and not is_proved and (is_other or not has_proved_tests()):
        return [[".ci/refuse", "--program"]]
    return [[f".ci/{part}"]]


@dataclass
class Ended:
    """What came of a part: what it printed, and whether all of it went well."""

    part: str
    said: str
    is_well: bool

    def number(self) -> int:
        """How many inputs, runs, lines or tests the part tells of."""
        found = re.search(rf"(?m)^{self.part}: (\d+) ", self.said)
        return int(found[1]) if found else 0

    def did_run(self) -> bool:
        """Whether more than that it did not run was said, since something is not installed."""
        return not re.search(rf"(?m)^{self.part}: did not run", self.said)

    def has_passed(self) -> bool:
        return self.is_well and (self.number() > 0 or not self.did_run())

    def outcome(self) -> str:
        number = f"{self.number():,}" if self.did_run() else "did not run"
        return f"{self.part} {number if self.has_passed() else 'FAILED'}"


def end_group(leader: int) -> None:
    """Ends all that a command has started and that still runs."""
    with contextlib.suppress(ProcessLookupError):
        os.killpg(leader, signal.SIGKILL)


def carry_out(part: str, words: list[str], said: IO[str]) -> bool:
    """Runs a command of a part in a group of its own, and returns whether all went well."""
    running = subprocess.Popen(words, cwd=TOP, env=os.environ | SAME_EVERYWHERE, stdin=subprocess.DEVNULL, stdout=said, stderr=said, start_new_session=True)
    RUNNING[running.pid] = part
    try:
        return running.wait(HOURS * 3600) == 0
    except subprocess.TimeoutExpired:
        said.write(f"{part}: it did not end in {HOURS} hours\n")
        said.flush()
        return False
    finally:
        end_group(running.pid)
        running.wait()
        del RUNNING[running.pid]


def run(part: str, is_proved: bool) -> Ended:
    """Runs a part and prints what it said, at its end."""
    began, is_well = time.monotonic(), True
    with tempfile.TemporaryFile("a+", encoding="utf-8", errors="replace") as said:
        for words in commands(part, is_proved):
            is_well = carry_out(part, words, said) and is_well
        said.seek(0)
        ended = Ended(part, said.read(), is_well)
    with PRINTING:
        print(f"== {part}, {time.monotonic() - began:.0f} s\n{ended.said}", end="", flush=True)
    return ended


def interrupted(number: int, _: object) -> None:
    """Ends the parts that run with this process, and says which they were."""
    for leader, part in list(RUNNING.items()):
        os.write(2, f"parts: {part} was running\n".encode())
        end_group(leader)
    os._exit(128 + number)


def main(words: list[str]) -> int:
    mode, names = (words[0] if words else ""), words[1:]
    if mode not in ("--proved", "--built") or not {*names} <= {*PARTS}:
        sys.exit(__doc__)
    for number in (signal.SIGINT, signal.SIGTERM, signal.SIGHUP):
        signal.signal(number, interrupted)
    is_proved, chosen = mode == "--proved", [it for it in PARTS if it in names or not names]
    if not (is_proved or "VIEWD" in os.environ or {*chosen} <= OF_SOURCES | OF_ITSELF or is_built(PROGRAM)):
        sys.exit(f"built: {PROGRAM} is missing, or older than a source: ./viewd replay </dev/null proves and builds it")
    lacking = [it for it in chosen if it in OF_KIT and not (is_proved or shutil.which("rt"))]
    jobs = int(os.environ.get("RT_JOBS") or len(os.sched_getaffinity(0)))
    with ThreadPoolExecutor(jobs) as pool:
        ended = [*pool.map(lambda it: run(it, is_proved), [it for it in chosen if it not in lacking])]
    passed_over = [line for it in ended for line in it.said.splitlines() if "did not run" in line]
    passed_over += [f"{it}: it did not run, since there is no Rattle kit on the path (rt)" for it in lacking]
    print("\n".join(["", *passed_over]))
    passed = sum(it.has_passed() for it in ended)
    numbers = ", ".join(it.outcome() for it in ended)
    print(f"{'parts' if is_proved else 'built'}: {numbers}; {passed} parts passed, {len(ended) - passed} failed")
    return 0 if passed == len(ended) > 0 else 1
