"""How many readers and writes a second ./gateway carries, beside the gateway in Python of an earlier commit if one is named.

    bench/gateway                                 1, 50, 200, 1,000 and 10,000 readers
    bench/gateway 200:100 200:most 10000:20       these: readers, and writes a second
    bench/gateway --against 7858cd9               each also of frontend/gateway.py of that commit, if it has sessions for so many readers
    bench/gateway --document                      puts what it printed into docs/PERFORMANCE.md

Each write adds a row to 500 and takes one away. Readers are of four roles: the owner of the table, and three that see it by policies of
their own, each of which shows what is written. So each write is a line to each reader, and each is counted. Readers are raw sockets in
processes of their own on this machine, who writes is one more. GATEWAY and VIEWD name other programs than those that are built.
"""
import argparse
import contextlib
import datetime
import hashlib
import os
import pathlib
import socket
import subprocess
import tempfile
import time

from viewd_bench.crowd import Crowd, Writer, more_files
from viewd_bench.report import number, table

TOP = pathlib.Path(__file__).resolve().parents[2]
PROGRAM = pathlib.Path(os.environ.get("GATEWAY", TOP / "crates/gateway/out/gateway")).resolve()
VIEWD = pathlib.Path(os.environ.get("VIEWD", TOP / "crates/viewd/out/viewd")).resolve()
DOCUMENT = TOP / "docs" / "PERFORMANCE.md"
BEGIN, END = "<!-- What bench/gateway printed: -->\n", "<!-- The end of what bench/gateway printed. -->\n"
PLAN = ["1:100", "1:most", "50:100", "50:most", "200:100", "200:most", "1000:20", "1000:most", "10000:20"]
ROLES = ("ann", "bob", "cid", "dan")
BY_TOKEN = 60  # clients by one token
SESSIONS = 240  # clients of the gateway in Python, at most
KEPT = 500  # rows of the table
MANY = 200  # readers
TICK, PAGE = os.sysconf("SC_CLK_TCK"), os.sysconf("SC_PAGE_SIZE")

MADE = [f'{{"do":"create_role","name":"{role}"}}' for role in ROLES] + [
    '{"do":"create_table","name":"tickets","owner":"ann","columns":[["id","int"],["agent","text"],["subject","text"],["open","flag"]]}',
    *(f'{{"do":"grant","on":"tickets","privileges":["select"],"to":"{role}"}}' for role in ROLES[1:]),
    '{"do":"row_security","on":"tickets","enable":true,"force":false}',
    '{"do":"create_policy","on":"tickets","name":"own","to":["bob"],"using":"agent = current_user"}',
    '{"do":"create_policy","on":"tickets","name":"open","to":["cid"],"using":"open = true"}',
    '{"do":"create_policy","on":"tickets","name":"late","to":["dan"],"using":"id > 1000"}']


class Server:
    """A gateway on a port of its own, with the processes that it has. Each token opens its role to some clients."""

    patience = 60.0  # seconds until it listens

    def __init__(self, name: str, words: list[str | pathlib.Path], size: int) -> None:
        self.name, self.room = name, tempfile.TemporaryDirectory(prefix="bench-")
        folder = pathlib.Path(self.room.name)
        self.seats = [f"{ROLES[at % 4]} {at // 4 // BY_TOKEN}" for at in range(size)]
        tokens = {it: it.split()[0] for it in ["admin", "ann writes", *self.seats]}
        lines = [f'{hashlib.sha256(token.encode()).hexdigest()} = "{role}"\n' for token, role in tokens.items()]
        (folder / "tokens.toml").write_text("[tokens]\n" + "".join(f'"{it[:64]}"{it[64:]}' for it in lines))
        with socket.socket() as probe:
            probe.bind(("127.0.0.1", 0))
            self.port: int = probe.getsockname()[1]
        own: list[str | pathlib.Path] = ["--journal", folder / "journal.jsonl", "--tokens", folder / "tokens.toml", "--port", str(self.port)]
        self.log = folder / "log"
        with self.log.open("wb") as log:
            self.process = subprocess.Popen([*words, *own], stdin=subprocess.DEVNULL, stdout=log, stderr=log)
        end = time.monotonic() + self.patience
        while not self.listens():
            if self.process.poll() is not None or time.monotonic() > end:
                raise SystemExit(f"bench: {name} does not listen: {self.log.read_text()}")
            time.sleep(0.05)

    def listens(self) -> bool:
        with contextlib.suppress(OSError), socket.create_connection(("127.0.0.1", self.port), 1):
            return True
        return False

    def processes(self) -> list[int]:
        """The process, and those that it has started."""
        children = pathlib.Path(f"/proc/{self.process.pid}/task/{self.process.pid}/children").read_text().split()
        return [self.process.pid, *map(int, children)]

    def processor(self) -> tuple[float, float]:
        """Seconds of processor: in the programs, and in the kernel."""
        fields = [pathlib.Path(f"/proc/{it}/stat").read_text().rsplit(")", 1)[1].split() for it in self.processes()]
        return sum(int(it[11]) for it in fields) / TICK, sum(int(it[12]) for it in fields) / TICK

    def memory(self) -> int:
        """Bytes of memory."""
        return sum(int(pathlib.Path(f"/proc/{it}/statm").read_text().split()[1]) for it in self.processes()) * PAGE

    def end(self) -> None:
        self.process.kill()
        self.process.wait()
        self.room.cleanup()


def parts(times: list[float]) -> str:
    """Of times in seconds those, in milliseconds, that 50, 95 and 99 % do not exceed."""
    times = sorted(times)
    return ", ".join(number(times[min(len(times) - 1, int(len(times) * part))] * 1000) for part in (0.5, 0.95, 0.99))


class Bench:
    def __init__(self, given: argparse.Namespace, python: pathlib.Path | None) -> None:
        self.given, self.python, self.rows, self.coming = given, python, list[dict[str, str]](), list[dict[str, str]]()

    def server(self, name: str, size: int) -> Server:
        if name == "./gateway":
            return Server(name, [PROGRAM, "--clients", str(size + 100)], size)
        assert self.python
        return Server(name, ["/usr/bin/python3", self.python, "--viewd", VIEWD], size)

    def row(self, server: Server, crowd: Crowd, writer: Writer, rate: float) -> None:
        """Writes at a rate for some seconds, and what that took."""
        crowd.begin()
        before = server.processor()
        due, replied, wall = writer.write(rate, self.given.seconds)
        told = crowd.told(len(due))
        used = [now - then for now, then in zip(server.processor(), before)]
        lines, wanted = told.rows, len(due) * crowd.size
        short = sum(told.count[it] != crowd.size for it in due)
        row = {
            "gateway": server.name, "readers": f"{crowd.size:,}", "writes a second": number(len(due) / wall) + ("" if rate else " (most)"),
            "lines a second": f"{lines / wall:,.0f}", "reply, ms": parts([replied[it] - due[it] for it in due]),
            "last line, ms": parts([told.last.get(it, replied[it]) - due[it] for it in due]),
            "processor: programs + kernel": " + ".join(f"{it / wall:.0%}" for it in used),
            "us a line": " + ".join(number(it / max(lines, 1) * 1e6) for it in used), "lost": f"{wanted - lines:,} of {wanted:,}" if short else "0"}
        self.rows.append(row)
        print(" | ".join(row.values()), flush=True)

    def size(self, name: str, size: int, rates: list[float]) -> None:
        """A gateway of its own with so many readers."""
        server = self.server(name, size)
        crowd = None
        try:
            admin = Writer(server.port, "admin", KEPT)
            admin.ask(*(it.encode() for it in MADE))
            admin.socket.close()
            writer = Writer(server.port, "ann writes", KEPT)
            writer.fill()
            before, used, began = server.memory(), server.processor(), time.monotonic()
            crowd = Crowd(server.port, server.seats, self.given.processes)
            came, here = time.monotonic() - began, server.memory()
            took = crowd.subscribe()
            each = [(now - then) / size * 1e6 for now, then in zip(server.processor(), used)]
            row = {"gateway": name, "readers": f"{size:,}", "came in, s": number(came), "contents, ms": parts(took),
                   "processor to come and subscribe, us each": " + ".join(map(number, each)),
                   "memory, kB each: come in": number((here - before) / size / 1000), "with contents": number((server.memory() - before) / size / 1000)}
            if size < MANY:  # what a first reader of a role takes is not divided by many
                row.update({it: "" for it in [*row][-3:]})
            self.coming.append(row)
            print(" | ".join(row.values()), flush=True)
            for rate in rates:
                self.row(server, crowd, writer, rate)
            writer.socket.close()
        finally:
            if crowd:
                crowd.end()
            server.end()


def document(printed: str, begin: str = BEGIN, end: str = END, page: pathlib.Path = DOCUMENT) -> None:
    """Puts it into a page, in the place of what was there."""
    head, mark, rest = page.read_text().partition(begin)
    if not mark:
        raise SystemExit(f"bench: {page} has no place for it")
    page.write_text(f"{head}{begin}\n{printed}\n{end}{rest.partition(end)[2]}")


def main(words: list[str]) -> None:
    parser = argparse.ArgumentParser(prog="bench/gateway", description=__doc__, formatter_class=argparse.RawDescriptionHelpFormatter)
    parser.add_argument("plan", nargs="*", default=PLAN, metavar="READERS:RATE", help="a rate is a number, or most")
    parser.add_argument("--against", metavar="COMMIT")
    parser.add_argument("--seconds", type=float, default=10.0, help="for each rate (10)")
    parser.add_argument("--processes", type=int, default=3, help="of readers (3)")
    parser.add_argument("--document", action="store_true")
    given = parser.parse_args(words)
    plan: dict[int, list[float]] = {}
    for it in given.plan:
        size, _, rate = it.partition(":")
        plan.setdefault(int(size), []).append(0.0 if rate == "most" else float(rate))
    more_files(max(plan))
    load = os.getloadavg()[0]
    with tempfile.TemporaryDirectory(prefix="bench-") as room:
        python = None
        if given.against:
            archive = subprocess.run(["git", "archive", given.against, "frontend"], cwd=TOP, check=True, capture_output=True)
            subprocess.run(["tar", "x", "-C", room], input=archive.stdout, check=True)
            python = pathlib.Path(room) / "frontend/gateway.py"
        bench = Bench(given, python)
        for size, rates in plan.items():
            bench.size("./gateway", size, rates)
            if python and size <= SESSIONS:
                try:
                    bench.size(f"Python, {given.against[:7]}", size, rates)
                except (SystemExit, OSError) as why:  # what was measured of the other stays
                    print(f"bench: {size} readers of the gateway in Python: {why}", flush=True)
    cpu = next((it.partition(":")[2].strip() for it in pathlib.Path("/proc/cpuinfo").read_text().splitlines() if it.startswith("model name")), "?")
    now = datetime.datetime.now(datetime.timezone.utc).date()
    printed = (f"{now}, {os.cpu_count()} processors ({cpu}), load {load:.1f} before, {given.seconds:g} seconds a rate, readers in {given.processes}"
               f" processes on the same machine. Of times those that 50, 95 and 99 % do not exceed.\n\n{table(bench.coming)}\n{table(bench.rows)}")
    print(f"\n{printed}")
    if given.document:
        document(printed)
