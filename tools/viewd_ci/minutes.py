"""Tells the processor minutes that a run takes, by crate.

usage: .ci/minutes PID [FOLDER FILE]     beside a process that runs, and all that it starts; .ci/run starts it so. FOLDER has what rt ci,
                                         .ci/edits and .ci/parts printed, each in a file of its name. If all three ended well, the
                                         run's figures are written to FILE
       .ci/minutes COMMAND..             runs the command
       .ci/minutes --show [FILE]         prints the figures in FILE, by default .ci/last-run.json

Each second it looks at the processes below the one that is watched, and takes the processor time of each: the proof of a crate, the
proof of its tests, its must-fail edits (rt ci) and its edits (.ci/edits), told apart by how rattle was started and where. What a process
took in its last second is not seen. The table is printed when the run ends, or at a SIGTERM. Once a minute it takes the processor time of a
loop of its own, which tells how fast the host is: what else its processors do can double the minutes of a run.
"""
import collections
import glob
import hashlib
import json
import os
import re
import shutil
import signal
import subprocess
import sys
import time
from collections.abc import Callable
from typing import Any

from viewd_ci.common import STEPS, TOP, crates_in, loop_seconds, read_run

TICKS = os.sysconf("SC_CLK_TCK")
KINDS = ("proof", "tests", "must_fail", "edits")
COUNTS = ("functions", "must_fail", "edits", "tests")
PROGRAMS = ("viewd", "gateway")
# a crate and a kind, or none of both
Task = tuple[str, str]
NONE: Task = ("", "")
# of each process its parent, when it started, and its processor seconds
Processes = dict[int, tuple[int, str, float]]


def contents(path: str) -> str:
    with open(path, encoding="utf-8", errors="replace") as file:
        return file.read()


def processes() -> Processes:
    """Those that have not ended, by their numbers."""
    found = {}
    for pid in filter(str.isdigit, os.listdir("/proc")):
        try:
            words = contents(f"/proc/{pid}/stat").rpartition(")")[2].split()
        except OSError:
            continue
        if words[0] != "Z":
            found[int(pid)] = int(words[1]), words[19], (int(words[11]) + int(words[12])) / TICKS
    return found


def below(found: Processes, root: int) -> list[int]:
    """The watched process and all below it, but for this one."""
    children: dict[int, list[int]] = collections.defaultdict(list)
    for pid, (parent, _, _) in found.items():
        children[parent].append(pid)
    inside: list[int] = []
    left = [root]
    while left:
        pid = left.pop()
        if pid in found and pid != os.getpid():
            inside.append(pid)
            left += children[pid]
    return inside


def task_of(words: list[str], folder: str) -> Task:
    """The crate that a process with this command line in this folder works on, and at what: the proof of an edit has a copy of its crate."""
    if "--crate-name" not in words:
        return NONE
    room = re.match(r".*/(rt-edit|edits)-", folder)
    kind = {"rt-edit": "must_fail", "edits": "edits"}[room[1]] if room else "tests" if "--test" in words else "proof"
    return words[words.index("--crate-name") + 1], kind


def task_now(pid: int) -> Task | None:
    """What a process works on now, if it has not ended."""
    try:
        return task_of(contents(f"/proc/{pid}/cmdline").split("\0"), os.readlink(f"/proc/{pid}/cwd"))
    except OSError:
        return None


class Used:
    """The processor seconds of processes by what they work on."""

    def __init__(self) -> None:
        self.tasks: dict[tuple[int, str], Task] = {}
        self.seconds: dict[tuple[int, str], float] = {}

    def look(self, found: Processes, root: int, task: Callable[[int], Task | None]) -> None:
        """Takes what each process below the root has used so far. A process becomes rattle by an exec, so it is asked for its task until that is known."""
        for pid in below(found, root):
            _, start, used = found[pid]
            if self.tasks.get((pid, start), NONE) == NONE:
                self.tasks[pid, start] = task(pid) or NONE
            self.seconds[pid, start] = used

    def minutes(self) -> dict[Task, float]:
        minutes: dict[Task, float] = {}
        for key, used in self.seconds.items():
            minutes[self.tasks[key]] = minutes.get(self.tasks[key], 0.0) + used / 60
        return minutes


def watch(root: int) -> tuple[dict[Task, float], list[float]]:
    """Watches until the process has ended or a SIGTERM comes, and returns the minutes by crate and kind, and the loop's seconds."""
    ended: list[bool] = []
    signal.signal(signal.SIGTERM, lambda *_: ended.append(True))
    used = Used()
    loops, due = [loop_seconds()], time.time() + 60
    while not ended:
        if time.time() >= due:
            loops.append(loop_seconds())
            due = time.time() + 60
        found = processes()
        if root not in found:
            break
        used.look(found, root, task_now)
        time.sleep(1)
    return used.minutes(), loops


def count(pattern: str, text: str = "") -> int:
    """How many files there are, or how often a text is in them."""
    files = glob.glob(os.path.join(TOP, "crates", pattern), recursive=True)
    return sum(contents(it).count(text) for it in files) if text else len(files)


def sums() -> dict[str, str]:
    """The SHA-256 of each program that the run left, which is the one that its parts tried."""
    files = {name: os.path.join(TOP, "crates", name, "out", name) for name in PROGRAMS}
    found = {}
    for name, path in files.items():
        if os.path.exists(path):
            with open(path, "rb") as file:
                found[name] = hashlib.file_digest(file, "sha256").hexdigest()
    return found


def output(*words: str) -> str:
    return subprocess.run(words, cwd=TOP, capture_output=True, text=True).stdout.strip()


def said_in(folder: str) -> dict[str, str]:
    """What the steps of the gate printed, by the names of their files."""
    return {it: contents(os.path.join(folder, it)) if os.path.exists(os.path.join(folder, it)) else "" for it in ("rt-ci", "edits", "parts")}


def told_by(said: dict[str, str]) -> dict[str, Any] | None:
    """What rt ci, .ci/edits and .ci/parts told, if all three ended well: how much passed, whether rt ci proved all from nothing, and the
    functions that it counted in each crate."""
    proved = re.search(r"(?m)^(\d+) passed, 0 failed\n\Z", said["rt-ci"])
    refused = re.search(r"(?m)^(\d+) refused, 0 failed\n\Z", said["edits"])
    parts = re.search(r"(?m)^parts: (.*); \d+ parts passed, 0 failed\n\Z", said["parts"])
    if not (proved and refused and parts):
        return None
    must_fail = re.search(r"must-fail edits: (\d+) refused", said["rt-ci"])
    passed = {"rt_ci": int(proved[1]), "must_fail": int(must_fail[1]) if must_fail else 0, "edits": int(refused[1])}
    passed |= {name: int(number.replace(",", "")) for name, number in re.findall(r"(\w+) ([\d,]*\d)", parts[1])}
    sections = re.findall(r"(?ms)^== (\w+)\n(.*?)(?=^== |\Z)", said["rt-ci"])
    counted = {name: re.search(r"(?m)^logic=proved .*?\bfunctions=(\d+)", text) for name, text in sections}
    functions = {name: int(it[1]) for name, it in counted.items() if it}
    return {"passed": passed, "from_nothing": "every proof and must-fail edit was done" in said["rt-ci"], "functions": functions}


def figures(minutes: dict[Task, float], loops: list[float], began: float, told: dict[str, Any] | None) -> dict[str, Any]:
    """The figures of a run, as .ci/last-run.json has them. Of a crate those are there of which the run told."""
    crates = {}
    for name in crates_in(contents(os.path.join(TOP, "crates.txt"))):
        counts = count(f"{name}/must-fail/*.edit"), count(f"{name}/edits/**/*.edit"), count(f"{name}/src/**/*.rt", "#[test]")
        numbers = dict(zip(COUNTS, (told["functions"].get(name, 0) if told else 0, *counts)))
        took = {kind: round(used, 1) for kind in KINDS if (used := minutes.get((name, kind), 0.0)) >= 0.05}
        crates[name] = {key: it for key, it in numbers.items() if it} | {"minutes": took}
    rest = sum(minutes.values()) - sum(used for (_, kind), used in minutes.items() if kind in KINDS)
    return {
        "date": time.strftime("%Y-%m-%d", time.gmtime()),
        "kit": output("rt", "version") if shutil.which("rt") else "",
        "sources": output("git", "rev-parse", "HEAD:crates"),
        "sources_changed": bool(output("git", "status", "--porcelain", "crates")),
        "from_nothing": bool(told and told["from_nothing"]),
        "processors": len(os.sched_getaffinity(0)),
        "jobs": int(os.environ.get("RT_JOBS") or len(os.sched_getaffinity(0))),
        "minutes": {"clock": round((time.time() - began) / 60), "processor": round(sum(minutes.values())), "of_no_crate": round(rest, 1)},
        "loop_seconds": {"mean": round(sum(loops) / len(loops), 2), "fastest": round(min(loops), 2)},
        "passed": told["passed"] if told else {},
        "programs": sums() if told else {},
        "crates": crates,
    }


def write(run: dict[str, Any], path: str) -> None:
    """Writes the figures, those of a crate on one line."""
    head = json.dumps({key: it for key, it in run.items() if key != "crates"}, indent=1).removesuffix("\n}")
    crates = ",\n".join(f"  {json.dumps(name)}: {json.dumps(it)}" for name, it in run["crates"].items())
    with open(path, "w", encoding="utf-8") as file:
        file.write(f'{head},\n "crates": {{\n{crates}\n }}\n}}\n')


def row(cells: list[Any]) -> None:
    print(f"| {' | '.join(str(it) for it in cells)} |")


def print_table(run: dict[str, Any]) -> None:
    changed = ", which were changed" if run["sources_changed"] else ""
    print(f"\nProcessor minutes over the sources {run['sources']}{changed}:\n")
    row(["crate", "functions", "must-fail", "edits", "tests", "proof", "proof of tests", "must-fail tried", "edits tried"])
    row(["---"] * 9)
    for name, it in run["crates"].items():
        row([name, *(it.get(key, "") for key in COUNTS), *(it["minutes"].get(kind, "") for kind in KINDS)])
    sums = [sum(it.get(key, 0) for it in run["crates"].values()) or "" for key in COUNTS]
    took = [sum(it["minutes"].get(kind, 0) for it in run["crates"].values()) for kind in KINDS]
    row(["all", *sums, *(f"{it:.1f}" if it else "" for it in took)])
    spent, loop = run["minutes"], run["loop_seconds"]
    on = f"{run['date']}, on {run['processors']} processors by {run['jobs']} jobs, {run['kit']}"
    print(f"\n{spent['processor']} processor minutes in {spent['clock']}, {on}; {spent['of_no_crate']} are no crate's: rt, linking, runs.")
    print(f"A loop of {STEPS:,} steps in Python took {loop['mean']:.2f} seconds once a minute, {loop['fastest']:.2f} at its fastest.")
    if run["passed"]:
        begun = "from nothing" if run["from_nothing"] else "over what earlier runs of rt ci kept"
        print(f"Passed, {begun}: " + ", ".join(f"{key} {it:,}" for key, it in run["passed"].items()))


def main(words: list[str]) -> int:
    if not words:
        sys.exit(__doc__)
    if words[0] == "--show":
        print_table(read_run(*words[1:]))
        return 0
    began, status, told = time.time(), 0, None
    if words[0].isdigit():
        minutes, loops = watch(int(words[0]))
        told = told_by(said_in(words[1])) if words[1:] else None
    else:
        running = subprocess.Popen(words)
        minutes, loops = watch(running.pid)
        status = running.wait()
    run = figures(minutes, loops, began, told)
    print_table(run)
    if told:
        write(run, words[2])
        print(f"minutes: {os.path.relpath(words[2], TOP)} has these figures; ./viewd reckons with those in .ci/last-run.json")
    return status
