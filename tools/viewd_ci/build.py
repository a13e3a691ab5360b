"""Proves the libraries below the program, those that are missing or older than their sources, and builds the program.

usage: .ci/build [CRATE]       of another program

Each is proved as `rt ci` does, from nothing, over the statements of the libraries below it. What was proved is kept by crate in out/started,
so a run that was ended goes on with the next crate; `rt`, which keeps work by function, has libraries of its own.
Crates that do not need one another are proved side by side, and a crate gets the processors that no other wants, if memory allows.
RT_JOBS crates at a time get one processor each.
"""
import functools
import os
import shutil
import signal
import sys
import tempfile
import threading
import time
from collections.abc import Callable
from concurrent.futures import FIRST_COMPLETED, Future, ThreadPoolExecutor, wait
from dataclasses import dataclass
from typing import Any

from viewd_ci.common import TOP, loop_seconds, read_run
from viewd_ci.kit import hold_to_handles, keep_stamps, need, rt, rtlib

Crate = Any  # of the kit's rt
PRINTING = threading.Lock()
# more jobs do not end a proof sooner
MOST_JOBS = 4


def started(crate: Crate) -> str:
    """Where the crate's library is kept, and its stamp, a sum of all that it was made from."""
    return f"{crate.folder}/out/started"


@functools.cache
def is_proved(crate: Crate) -> bool:
    """Whether the crate's library is there, made from what is there now, over libraries that were not made again since:
    its statements fit no others."""

    def made(it: Crate) -> float:
        return os.path.getmtime(f"{started(it)}/stamp")

    is_made = os.path.isdir(crate.rlib) and rtlib().text_of(f"{started(crate)}/stamp") == crate.stamp()
    return is_made and all(is_proved(it) and made(it) <= made(crate) for it in crate.deps)


def prove(crate: Crate, jobs: int) -> int:
    """Proves a library and keeps it."""
    stamp = crate.stamp()
    shutil.rmtree(started(crate), ignore_errors=True)
    os.makedirs(started(crate))
    words = crate.words(["--jobs", str(jobs)], keeps=False)
    status: int = crate.call(rtlib().RATTLE, "build", *words, "--statements", "-o", crate.rlib)
    if not status:
        with open(f"{started(crate)}/stamp", "w", encoding="utf-8") as file:
            file.write(stamp)
    return status


def say(text: str) -> None:
    with PRINTING:
        print(f"viewd: {text}", flush=True)


def measured() -> tuple[dict[str, float], float]:
    """Of the last whole run of the gate: the minutes that the proof of a crate took, by the crate's name, and the seconds that the loop took."""
    run = read_run()
    minutes = {name: it["minutes"]["proof"] for name, it in run["crates"].items() if "proof" in it["minutes"]}
    return minutes, run["loop_seconds"]["mean"]


def minutes_of(crates: list[Crate], processors: int) -> float:
    """How long it may take to prove these on a host as fast as this one is now: all of it shared out, and half of their longest chain,
    since a proof has one processor at its beginning and at its end."""
    minutes, loop = measured()
    chain: dict[Crate, float] = {}
    for it in crates:
        chain[it] = minutes.get(it.name, 1.0) + max((chain.get(dep, 0.0) for dep in it.deps), default=0.0)
    total = sum(minutes.get(it.name, 1.0) for it in crates)
    return (total / processors + max(chain.values()) / 2) * loop_seconds() / loop


@dataclass
class Host:
    """What proofs may use: how many jobs at a time, whether each crate has one of them alone, and bytes of memory. What a proof by one job needs of
    these, and the minutes of processor that proofs took, by the crate's name."""

    lanes: int
    is_fixed: bool
    memory: float
    need: Callable[[Crate], float]
    minutes: dict[str, float]

    def needs(self, crate: Crate, jobs: int) -> float:
        return self.need(crate) * (1 + 0.6 * (jobs - 1))


def this_host() -> Host:
    said = os.environ.get("RT_JOBS", "")
    fixed = int(said) if said.isdigit() else 0
    return Host(fixed or int(rt().processors()), bool(fixed), 0.85 * rt().free(), lambda it: float(rt().need(it)), measured()[0])


def chains(crates: list[Crate], minutes: dict[str, float]) -> dict[Crate, float]:
    """By crate the minutes of the longest chain that begins with it, of crates that each stand on the one before. The lowest of the crates come first."""
    behind: dict[Crate, float] = {}
    for it in reversed(crates):
        behind[it] = minutes.get(it.name, 1.0) + max((behind[above] for above in crates if it in above.deps), default=0.0)
    return behind


def side_by_side(crates: list[Crate], prove: Callable[[Crate, int], bool], host: Host) -> bool:
    """Proves each crate once those below it are, first those with the longest chain of others after them, and returns whether all were.

    There are no more jobs than processors: three proofs by two jobs each take longer on four of them than by two, one and one.
    A crate gets what those leave that can start beside it, and those with a longer chain that can as soon as something ends; if no chain is
    longer, half of the processors at least."""
    behind = chains(crates, host.minutes)
    left = sorted(crates, key=lambda it: -behind[it])
    running: dict[Future[bool], tuple[Crate, int]] = {}
    failed: list[Crate] = []
    with ThreadPoolExecutor(host.lanes) as pool:
        while left or running:
            proving = {it for it, _ in running.values()}
            unproved = {it: [below for below in it.below() if below in left or below in proving] for it in left}
            ready = [it for it in left if not unproved[it]]
            soon = [it for it in left if unproved[it] and proving.issuperset(unproved[it])]
            for at, crate in enumerate(ready):
                idle = host.lanes - sum(jobs for _, jobs in running.values())
                room = host.memory - sum(host.needs(*it) for it in running.values())
                if idle < 1 or (running and not host.is_fixed and host.needs(crate, 1) > room):
                    break
                urgent = sum(behind[it] > behind[crate] for it in soon)
                least = max(host.lanes // 2, 1) if at + urgent == 0 else 1
                jobs = 1 if host.is_fixed else min(max(idle - (len(ready) - at - 1) - urgent, least), idle, MOST_JOBS)
                while jobs > 1 and host.needs(crate, jobs) > room:
                    jobs -= 1
                left.remove(crate)
                running[pool.submit(prove, crate, jobs)] = crate, jobs
            for done in wait(running, return_when=FIRST_COMPLETED).done:
                crate, _ = running.pop(done)
                if not done.result():
                    failed.append(crate)
                    left = [it for it in left if crate not in it.below()]
    return not failed


class Building:
    """What is told of the crates of a program as they are proved."""

    def __init__(self, crates: list[Crate], left: list[Crate]) -> None:
        self.count, self.done, self.began = len(crates), len(crates) - len(left), time.time()

    def ended(self, name: str, began: float) -> None:
        with PRINTING:
            self.done += 1
            took, so_far = (time.time() - began) / 60, (time.time() - self.began) / 60
            print(f"viewd: {self.done} of {self.count}: {name} in {took:.1f} minutes, {so_far:.0f} since the start", flush=True)

    def library(self, crate: Crate, jobs: int) -> bool:
        """Proves a library, and returns whether that went well."""
        say(f"proving {crate.name}")
        began = time.time()
        with tempfile.TemporaryFile("a+", errors="replace") as crate.out:
            status = prove(crate, jobs)
            if status == -signal.SIGKILL:
                status = prove(crate, 1)
            if status:
                crate.out.seek(0)
                say(f"{crate.name} is not proved:\n{crate.out.read()}")
            else:
                self.ended(crate.name, began)
        return not status

    def program(self, program: Crate) -> None:
        """Proves what is left of the program itself, compiles and links it."""
        say(f"proving and compiling {program.name}")
        began, made = time.time(), f"out/{program.name}"
        os.makedirs(f"{program.folder}/out", exist_ok=True)
        words = program.words(["--jobs", str(rt().processors())], keeps=False)
        with tempfile.TemporaryFile("a+", errors="replace") as program.out:
            words += ["--toolchain", f"{rt().KIT}/toolchain", "--backend", "llvm", "-o", f"{made}.o"]
            if program.call(rtlib().RATTLE, "build", *words) or program.link(f"{made}.o", made):
                program.out.seek(0)
                sys.exit(f"viewd: {program.name} was not built:\n{program.out.read()}")
        self.ended(program.name, began)


def main(words: list[str]) -> int:
    name = words[0] if words else "viewd"
    need("viewd: the program is not built")
    hold_to_handles(TOP)
    keep_stamps(rt().Crate)
    found = next((it for it in rtlib().crates_below(TOP) if it.name == name), None)
    program = found or sys.exit(f"build: there is no crate {name}: crates.txt has their names")
    for it in program.below():
        it.rlib = f"{started(it)}/{it.name}.rlib"
    rtlib().guarded()
    # (what it has started ends with it)
    signal.signal(signal.SIGINT, lambda *_: os._exit(130))
    crates = [*program.below(), program]
    held = rtlib().lock(crates)
    left = [it for it in program.below() if not is_proved(it)]
    building, processors = Building(crates, [*left, program]), rt().processors()
    if left:
        about = max(round(minutes_of([*left, program], processors)), 1)
        kinds = f"{len(left)} of the {len(program.below())} libraries of the program are to be proved first"
        say(f"{kinds}, once: about {about} minutes on these {processors} processors, and up to twice that where other work shares them")
    if not side_by_side(left, building.library, this_host()):
        return 1
    for it in held:
        os.close(it)
    building.program(program)
    return 0
