"""The processor time of a line, and the peak memory of viewd, for the workloads of viewd_bench.workloads.

What comes before the lines, the start of the program too, is not in their time. A time is the least of the rounds, since other
work on the machine only adds; two programs take turns, and have to answer the same bytes. If psql and a PostgreSQL server are there,
the same tables, policies and views are made in a server of their own, which evaluates the views after each batch; at
the smallest size each reader has to be shown the same rows. docs/PERFORMANCE.md says how to read the tables. Nothing here says
how fast another machine is. VIEWD names another program in the place of this tree's.

Some things are measured by themselves, each with a --help of its own:

    bench/run memory [ROWS ..]      the bytes that a row takes
    bench/run grants                writes after few and many grants and members
    bench/run refused               what a limit refuses, beside what is accepted
    bench/run collisions            rows that fall together under a fixed hash
"""
import argparse
import collections
import contextlib
import importlib
import json
import os
import sys
import tempfile
import time
from collections.abc import Iterable

from viewd_bench.measure import Run, asked, counting_shim, other_program, own_program, part_of
from viewd_bench.postgresql import Server, binaries
from viewd_bench.report import OTHER, OWN, POSTGRESQL, Result, document, plot, tables
from viewd_bench.workloads import LARGEST, SIZES, WORKLOADS, Request, Workload

# what is measured by itself, each in a module of its name
PARTS = ("memory", "grants", "refused", "collisions")
# by a role and what it reads, rows with their copies
Shown = dict[tuple[str, str], collections.Counter[str]]


def shown(program: str, requests: Iterable[Request]) -> Shown:
    """What each reader is shown after the requests, by the changes that were sent: rows with their copies."""
    roles: dict[int, str] = {}
    readers: dict[int, tuple[str, str]] = {}
    sums: dict[int, collections.Counter[str]] = collections.defaultdict(collections.Counter)
    run, asking = Run(program), iter(requests)
    for answer in (json.loads(line) for lines in run.answers(part_of(requests)) for line in lines.splitlines()):
        if "changes" in answer:
            sums[answer["sub"]].update({json.dumps(row): count for count, row in answer["changes"]})
        elif "ok" in answer:
            it = next(asking)
            if it["do"] == "begin":
                roles[it["session"]] = it["role"]
            elif it["do"] == "subscribe":
                readers[answer["sub"]] = roles[it["session"]], it["on"]
            elif it["do"] == "unsubscribe":
                del readers[it["sub"]]
    run.end()
    return {reader: +sums[sub] for sub, reader in readers.items()}


class Bench:
    """The programs by their names, and how they are measured."""

    def __init__(self, options: argparse.Namespace, room: str, server: Server | None) -> None:
        self.programs = {OWN: own_program()}
        if options.against:
            self.programs[OTHER] = other_program(options.against, room)
        self.rounds = options.rounds
        self.words = ["--rows", "1048576"] if options.largest else []
        self.shim = counting_shim(room) if options.requests else None
        self.server = server
        self.names = [*self.programs] + [POSTGRESQL] * bool(server)

    def result(self, workload: Workload, size: int) -> Result:
        before, lines = list(workload.before(size)), list(workload.lines(size))
        share = workload.shares(size)
        seconds, peaks = self.least(part_of(before), part_of(lines), [len(before), len(lines)])
        micros = {name: it / len(lines) / share * 1e6 for name, it in seconds.items()}
        requests = self.requests(self.shim, part_of(before), part_of(lines), len(lines) * share) if self.shim else {}
        if self.server and workload.is_evaluated:
            once, count = self.server.seconds(before, lines)
            micros[POSTGRESQL] = once / share * 1e6
            if size == workload.sizes[0]:
                self.compare(self.server, before + lines[:count])
        return Result(workload, size, micros, {name: it / 1e6 for name, it in peaks.items()}, requests)

    def least(self, before: bytes, lines: bytes, counts: list[int]) -> tuple[dict[str, float], dict[str, int]]:
        """Processor seconds of the lines, and bytes of memory, by the program's name; each request is answered by ok."""
        seconds: dict[str, float] = {}
        peaks: dict[str, int] = {}
        digests: set[bytes] = set()
        for _ in range(self.rounds):
            for name, program in self.programs.items():
                run = Run(program, self.words)
                told = [run.tell(before), run.tell(lines)]
                if [it.ok for it in told] != counts:
                    sys.exit(f"bench: {program} answered {told[0].ok} and {told[1].ok} of {counts} requests by ok")
                seconds[name] = min(seconds.get(name, told[1].seconds), told[1].seconds)
                peaks[name] = min(peaks.get(name, run.peak()), run.peak())
                run.end()
                digests.add(run.digest.digest())
        if len(digests) != 1:
            sys.exit("bench: the programs do not answer the same bytes")
        return seconds, peaks

    def requests(self, shim: str, before: bytes, lines: bytes, share: float) -> dict[str, float]:
        """How often the lines ask for memory, by the program's name."""
        none = part_of([])
        counts = {name: [asked(it, [before, part], shim, self.words) for part in (none, lines)] for name, it in self.programs.items()}
        return {name: (whole - start) / share for name, (start, whole) in counts.items()}

    def compare(self, server: Server, requests: list[Request]) -> None:
        if server.shown(requests) != shown(self.programs[OWN], requests):
            sys.exit("bench: PostgreSQL and viewd do not show the same")


def conditions(began: tuple[float, float, float], server: Server | None) -> str:
    """The machine, and what else it did."""
    with open("/proc/cpuinfo", encoding="utf-8") as file:
        model = next((line.partition(":")[2].strip() for line in file if line.startswith("model name")), "of a model that is not told")
    loads = f"a load of {began[0]:.1f} when it began and {os.getloadavg()[0]:.1f} when it ended"
    beside = f", PostgreSQL {server.version}" if server else ""
    return f"{time.strftime('%Y-%m-%d')}, {os.cpu_count()} processors ({model}), {loads}{beside}.\n"


def options_of(words: list[str]) -> argparse.Namespace:
    parser = argparse.ArgumentParser(prog="bench/run", description=__doc__, formatter_class=argparse.RawDescriptionHelpFormatter)
    parser.add_argument("--against", metavar="OTHER", help="another program, or a commit, whose program is proved and built first")
    parser.add_argument("--only", nargs="+", choices=[it.name for it in WORKLOADS], help="some of the workloads")
    parser.add_argument("--rounds", metavar="N", type=int, default=5)
    parser.add_argument("--requests", action="store_true", help="tell how often a line asks for memory, too")
    parser.add_argument("--largest", action="store_true", help="1,000, 65,536 and 1,000,000 rows, under --rows 1048576")
    parser.add_argument("--no-postgresql", action="store_true")
    parser.add_argument("--document", action="store_true", help="put what is printed into docs/PERFORMANCE.md and a plot into docs/performance.svg")
    return parser.parse_args(words)


def measure(options: argparse.Namespace, server: Server | None) -> tuple[list[Result], list[str]]:
    """All results, each told as it comes."""
    chosen = [it for it in WORKLOADS if not options.only or it.name in options.only]
    results = []
    with tempfile.TemporaryDirectory() as room:
        bench = Bench(options, room, server)
        for workload in chosen:
            for size in LARGEST if options.largest and workload.sizes is SIZES else workload.sizes:
                results.append(bench.result(workload, size))
                told = results[-1].cells(bench.names)
                print(", ".join(f"{head} {cell}" for head, cell in told.items() if cell), file=sys.stderr, flush=True)
    return results, bench.names


def main(words: list[str]) -> None:
    if words[:1] and words[0] in PARTS:
        sys.exit(importlib.import_module(f"viewd_bench.{words[0]}").main(words[1:]))
    options, began = options_of(words), os.getloadavg()
    has_server = binaries() and not options.no_postgresql
    with contextlib.ExitStack() as stack:
        server = stack.enter_context(Server()) if has_server else None
        results, names = measure(options, server)
        printed = conditions(began, server) + "\n" + tables(results, names)
    print(printed)
    if options.document:
        document(printed, plot(results, names))
