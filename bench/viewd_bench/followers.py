"""What gateways carry that follow the journal of another one, by `frontend/keeper.py`, or a log in Redis that it leads, by `frontend/redis_log.py`: who
writes is at the first, readers are at the others.

    bench/followers                       1, 2 and 4 gateways with 200 readers each, 100 writes a second and as many as go
    bench/followers 2:200:100 2:200:most  these: gateways, readers of each, and writes a second
    bench/followers --redis               the same with a log in a redis-server of its own
    bench/followers --document            puts what it printed into docs/PERFORMANCE.md, or that of a log in Redis into docs/OPERATING.md

Writes and readers are those of bench/gateway. GATEWAY names another program than the one that is built.
"""
import argparse
import contextlib
import datetime
import os
import pathlib
import socket
import subprocess
import tempfile
import time
from collections.abc import Iterator

from viewd_bench.beside import Following
from viewd_bench.crowd import Crowd, Told, Writer, more_files
from viewd_bench.readers import KEPT, MADE, PROGRAM, TOP, Server, document, parts
from viewd_bench.report import number, table

BEGIN, END = "<!-- What bench/followers printed: -->\n", "<!-- The end of what bench/followers printed. -->\n"
BEGIN_REDIS, END_REDIS = BEGIN.replace("followers", "followers --redis"), END.replace("followers", "followers --redis")
PLAN = ["1:200:100", "1:200:most", "2:200:100", "2:200:most", "4:200:100", "4:200:most"]


class Follower(Server):
    """The keeper of a journal, and the gateway that it starts."""

    listens = Following.listens

    def __init__(self, first: Server, size: int) -> None:
        journal = pathlib.Path(first.room.name) / "journal.jsonl"
        super().__init__("follower", [TOP / "frontend/keeper.py", journal, "--", PROGRAM, "--clients", str(size + 100)], size)


class Shared(Server):
    """A gateway of a log in Redis, and its keeper."""

    listens = Following.listens

    def __init__(self, port: int, size: int, *words: str) -> None:
        super().__init__("shared", [TOP / "frontend/redis_log.py", *words, f"redis://127.0.0.1:{port}/desk", "--", PROGRAM, "--clients", str(size + 100)], size)


@contextlib.contextmanager
def redis_server() -> Iterator[int]:
    """A redis-server that syncs each append, and its port."""
    with tempfile.TemporaryDirectory(prefix="bench-") as folder, socket.socket() as probe:
        probe.bind(("127.0.0.1", 0))
        port = probe.getsockname()[1]
        probe.close()
        words = ["redis-server", "--port", str(port), "--bind", "127.0.0.1", "--dir", folder, "--save", "", "--appendonly", "yes", "--appendfsync", "always"]
        process = subprocess.Popen(words, stdout=subprocess.DEVNULL)
        try:
            yield port
        finally:
            process.kill()
            process.wait()


@contextlib.contextmanager
def gateways(count: int, size: int, port: int) -> Iterator[tuple[Server, Writer, list[Server]]]:
    """The first, who writes there, and so many others: of a log in the Redis at this port, unless that is 0."""
    first: Server = Shared(port, 4) if port else Server("./gateway", [PROGRAM], 4)
    others = list[Server]()
    try:
        while port and b" leads behind" not in first.log.read_bytes():
            time.sleep(0.05)
        Writer(first.port, "admin", KEPT, port > 0).ask(*(it.encode() for it in MADE))
        writer = Writer(first.port, "ann writes", KEPT, port > 0)
        writer.fill()
        for _ in range(count):
            others.append(Shared(port, size, "--follow") if port else Follower(first, size))
        yield first, writer, others
    finally:
        for it in [*others, first]:
            it.end()


def row(first: Server, writer: Writer, others: list[Server], crowds: list[Crowd], rate: float, seconds: float) -> dict[str, str]:
    """Writes at a rate for some seconds, and what that took."""
    for it in crowds:
        it.begin()
    servers = [first, *others]
    before = [sum(it.processor()) for it in servers]
    due, replied, wall = writer.write(rate, seconds)
    told = Told()
    for it in crowds:
        told.add(it.told(len(due)))
    used = [sum(it.processor()) - then for it, then in zip(servers, before)]
    wanted = len(due) * sum(it.size for it in crowds)
    return {"gateways": str(len(others)), "readers": f"{sum(it.size for it in crowds):,}",
            "writes a second": number(len(due) / wall) + ("" if rate else " (most)"), "lines a second": f"{told.rows / wall:,.0f}",
            "reply, ms": parts([replied[it] - due[it] for it in due]),
            "last line, ms": parts([told.last.get(it, replied[it]) - due[it] for it in due]),
            "processor: the first, and each other, with keepers": f"{used[0] / wall:.0%}, {sum(used[1:]) / len(others) / wall:.0%}",
            "lost": "0" if told.rows == wanted else f"{wanted - told.rows:,} of {wanted:,}"}


def main(words: list[str]) -> None:
    parser = argparse.ArgumentParser(prog="bench/followers", description=__doc__, formatter_class=argparse.RawDescriptionHelpFormatter)
    parser.add_argument("plan", nargs="*", default=PLAN, metavar="GATEWAYS:READERS:RATE", help="a rate is a number, or most")
    parser.add_argument("--seconds", type=float, default=10.0, help="for each rate (10)")
    parser.add_argument("--redis", action="store_true", help="the first leads a log in Redis, and the others follow that")
    parser.add_argument("--document", action="store_true")
    given = parser.parse_args(words)
    plan: dict[tuple[int, int], list[float]] = {}
    for it in given.plan:
        count, size, rate = it.split(":")
        plan.setdefault((int(count), int(size)), []).append(0.0 if rate == "most" else float(rate))
    more_files(max(size for _, size in plan))
    load, found = os.getloadavg()[0], list[dict[str, str]]()
    for (count, size), rates in plan.items():
        with redis_server() if given.redis else contextlib.nullcontext(0) as port, gateways(count, size, port) as (first, writer, others):
            crowds = list[Crowd]()
            try:
                for it in others:
                    crowds.append(Crowd(it.port, it.seats, 1))
                    crowds[-1].subscribe()
                for rate in rates:
                    found.append(row(first, writer, others, crowds, rate, given.seconds))
                    print(" | ".join(found[-1].values()), flush=True)
            finally:
                for crowd in crowds:
                    crowd.end()
    now = datetime.datetime.now(datetime.timezone.utc).date()
    printed = (f"{now}, {os.cpu_count()} processors, load {load:.1f} before, {given.seconds:g} seconds a rate, all on one machine, the readers of each"
               f" gateway in a process. Of times those that 50, 95 and 99 % do not exceed.\n\n{table(found)}")
    print(f"\n{printed}")
    if given.document and given.redis:
        document(printed, BEGIN_REDIS, END_REDIS, TOP / "docs/OPERATING.md")
    elif given.document:
        document(printed, BEGIN, END)
