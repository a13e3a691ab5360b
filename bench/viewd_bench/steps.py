"""What a step of many entries takes of a gateway that follows a log and has many clients, beside the same entries one by one at one that follows none.

    bench/step                                    100,000 entries and 1,000 clients; 2,000 of the entries one by one
    bench/step --kept 0 500 20000 --clients 1 1000 --alone 0      steps that change few rows, or many; nothing one by one

Each entry puts a row into a table and takes one out that came as many entries before as the table has rows (--kept): so many rows, at most, are
other ones after any number of entries, and none if it takes out the row that it puts in. Clients are of four roles, which see the table by
policies of their own. GATEWAY names another program than the one that is built.
"""
import argparse
import json
import multiprocessing
import os
import pathlib
import re
import select
import socket
import subprocess
import tempfile
import time
from multiprocessing.connection import Connection

from viewd_bench.crowd import WINDOW, Writer, begin, came, frame, more_files
from viewd_bench.readers import BY_TOKEN, KEPT, MADE, PROGRAM, ROLES, Server
from viewd_bench.report import number, table

EPOCH = "0123456789abcdef" * 2
ROWS = 1_048_576


def row(at: int) -> list[object]:
    """Such that each role sees some."""
    return [at, ROLES[at % 4], "something", at % 3 == 0]


def write(at: int, kept: int) -> bytes:
    """The request of an entry."""
    return rows([{"on": "tickets", "insert": row(at)}, {"on": "tickets", "delete": row(at - kept)}])


def rows(entries: list[dict[str, object]]) -> bytes:
    return json.dumps({"do": "write", "entries": entries}, separators=(",", ":")).encode()


def filled(kept: int) -> list[bytes]:
    """The requests that put the first rows into the table."""
    return [rows([{"on": "tickets", "insert": row(it)} for it in range(at, min(at + 100, kept))]) for at in range(0, kept, 100)]


class Listeners:
    """Clients of a process, each of which subscribes, and then waits for a last row."""

    def __init__(self, port: int, tokens: list[str], pipe: Connection) -> None:
        self.sockets = [came(begin(port, token)) for token in tokens]
        for it in self.sockets:
            it.sendall(frame(b'{"do":"subscribe","on":"tickets"}'))
            came(it)
        pipe.send(None)
        while last := pipe.recv():
            pipe.send(self.hear(last))

    def hear(self, last: bytes) -> tuple[int, float]:
        """Bytes that came up to that row and its `settled`, and when the last of them did."""
        poll, tails, got, at = select.epoll(), dict[int, bytes](), 0, 0.0
        waiting = {it.fileno(): it for it in self.sockets}
        for it in waiting:
            poll.register(it, select.EPOLLIN)
        while waiting:
            for key, _ in poll.poll():
                data = waiting[key].recv(1 << 18)
                if not data:
                    raise SystemExit("bench: a client was dropped")
                got += len(data)
                tail = tails.get(key, b"") + data
                place = tail.find(last)
                if place >= 0 and b'{"settled":true}' in tail[place:]:
                    poll.unregister(key)
                    del waiting[key]
                    at = time.monotonic()
                tails[key] = tail[place:] if place >= 0 else tail[-len(last):]
        return got, at


class Crowd:
    """All clients, in processes."""

    def __init__(self, server: Server, processes: int) -> None:
        self.pipes, self.size = list[Connection](), len(server.seats)
        for at in range(processes):
            mine, theirs = multiprocessing.Pipe()
            multiprocessing.Process(target=Listeners, args=(server.port, server.seats[at::processes], theirs), daemon=True).start()
            self.pipes.append(mine)
        for it in self.pipes:
            it.recv()

    def wait(self, last: int) -> None:
        for it in self.pipes:
            it.send(b"[1,[%d," % last)

    def heard(self, began: float) -> tuple[float, float]:
        """Bytes of each, and seconds until the last one."""
        found = [it.recv() for it in self.pipes]
        return sum(it[0] for it in found) / self.size, max(it[1] for it in found) - began

    def end(self) -> None:
        for it in self.pipes:
            it.send(None)


class Keeper:
    """Brings a gateway steps at a port."""

    def __init__(self, port: int, secret: str) -> None:
        end = time.monotonic() + 60
        while True:
            try:
                self.socket = socket.create_connection(("127.0.0.1", port))
                break
            except ConnectionRefusedError:
                if time.monotonic() > end:
                    raise
                time.sleep(0.05)
        self.lines, self.position = self.socket.makefile("rb"), 0
        self.socket.sendall(b'{"secret":"%s"}\n' % secret.encode())
        self.hears(b'{"door":1')
        self.socket.sendall(b'{"begin":"bench","epoch":"%s"}\n' % EPOCH.encode())
        self.hears(b'{"on_disk":0}')

    def hears(self, begins: bytes) -> None:
        text = self.lines.readline()
        if not text.startswith(begins):
            raise SystemExit(f"bench: the gateway says {text!r}")

    def step(self, entries: list[bytes]) -> bytes:
        """Its lines."""
        self.position += 1
        return b"".join(it + b"\n" for it in entries) + b'{"from":%d,"step":%d}\n' % (self.position - 1, self.position)

    def bring(self, lines: bytes) -> None:
        self.socket.sendall(lines)
        self.hears(b'{"on_disk":%d}' % self.position)


def by(role: str, request: bytes) -> bytes:
    return b'{"as":"%s",%s' % (role.encode(), request[1:])


def peak(server: Server) -> int:
    """Bytes of the gateway's process when they were most."""
    found = re.findall(r"(?m)^VmHWM:\s+(\d+) kB$", pathlib.Path(f"/proc/{server.process.pid}/status").read_text())
    return int(found[0]) * 1024


class Following(Server):
    """A gateway that follows: it listens for clients once a log has begun."""

    def __init__(self, size: int, clients: int, port: int, secret: pathlib.Path) -> None:
        self.keeper: Keeper | None = None
        self.door, self.secret = port, secret
        words: list[str | pathlib.Path] = [PROGRAM, "--rows", str(ROWS), "--clients", str(clients + 100), "--log", str(port), "--log-secret-file", secret]
        super().__init__("./gateway that follows", words, size)

    def listens(self) -> bool:
        self.keeper = self.keeper or Keeper(self.door, self.secret.read_text())
        return super().listens()


def as_a_step(given: argparse.Namespace, room: pathlib.Path, clients: int, kept: int) -> dict[str, str]:
    secret = room / "secret"
    secret.write_text(EPOCH)
    with socket.socket() as probe:
        probe.bind(("127.0.0.1", 0))
        port = int(probe.getsockname()[1])
    server = Following(clients, clients, port, secret)
    try:
        keeper = server.keeper
        assert keeper
        keeper.bring(keeper.step([*(by("admin", it.encode()) for it in MADE), *(by("ann", it) for it in filled(kept))]))
        keeper.socket.sendall(b'{"open":true}\n')
        crowd = Crowd(server, given.processes)
        before, last = peak(server), kept + given.entries - 1
        lines = keeper.step([by("ann", write(at, kept)) for at in range(kept, last + 1)])
        if not kept:  # nothing is told of it, so a row follows that all see
            last += 12
        crowd.wait(seen(last))
        used, began = sum(server.processor()), time.monotonic()
        keeper.bring(lines)
        if not kept:
            keeper.bring(keeper.step([by("ann", rows([{"on": "tickets", "insert": row(seen(last))}]))]))
        got, took = crowd.heard(began)
        used = sum(server.processor()) - used
        crowd.end()
        told = line(f"{given.entries:,} in one step", clients, 2 * min(kept, given.entries), got, took, used / given.entries, before, peak(server))
        return told | {"the step's lines, MB": number(len(lines) / 1e6)}
    finally:
        server.end()


def seen(last: int) -> int:
    """The last row up to there that all roles see: by its number, its agent, whether it is open, and the table's owner."""
    return next(at for at in range(last, last - 12, -1) if row(at)[1] == "bob" and row(at)[3])


def one_by_one(given: argparse.Namespace, clients: int) -> dict[str, str]:
    server = Server("./gateway", [PROGRAM, "--rows", str(ROWS), "--clients", str(clients + 100)], clients)
    try:
        Writer(server.port, "admin", KEPT).ask(*(it.encode() for it in MADE))
        writer = Writer(server.port, "ann writes", KEPT)
        writer.ask(*filled(KEPT))
        crowd = Crowd(server, given.processes)
        before, last = peak(server), KEPT + given.alone - 1
        crowd.wait(seen(last))
        used, began = sum(server.processor()), time.monotonic()
        for at in range(KEPT, last + 1, WINDOW):
            some = [frame(write(it, KEPT)) for it in range(at, min(at + WINDOW, last + 1))]
            writer.socket.sendall(b"".join(some))
            count = 0
            while count < len(some):
                count += writer.replies(60.0)
        got, took = crowd.heard(began)
        used = sum(server.processor()) - used
        crowd.end()
        return line(f"{given.alone:,} one by one", clients, 2 * KEPT, got, took, used / given.alone, before, peak(server))
    finally:
        server.end()


def line(entries: str, clients: int, changed: int, got: float, took: float, used: float, before: int, after: int) -> dict[str, str]:
    """What was measured; `used` is the processor's time of an entry."""
    return {"entries": entries, "rows that changed": f"{changed:,}", "clients": f"{clients:,}", "bytes a client": f"{got:,.0f}",
            "until the last client's settled, s": number(took), "the gateway's processor, us an entry": number(used * 1e6),
            "peak memory before, MB": number(before / 1e6), "peak memory, MB": number(after / 1e6)}


def main(words: list[str]) -> None:
    parser = argparse.ArgumentParser(prog="bench/step", description=__doc__, formatter_class=argparse.RawDescriptionHelpFormatter)
    parser.add_argument("--entries", type=int, default=100_000, help="of the step (100,000)")
    parser.add_argument("--alone", type=int, default=2_000, help="that are written one by one (2,000)")
    parser.add_argument("--clients", type=int, nargs="+", default=[1_000], help="(1,000)")
    parser.add_argument("--kept", type=int, nargs="+", default=[KEPT], help=f"rows of the table ({KEPT})")
    parser.add_argument("--processes", type=int, default=2, help="of clients (2)")
    given = parser.parse_args(words)
    if given.entries < 2_000 or 0 < given.alone < 1_000:
        parser.error("fewer entries bring no row that all roles see")
    if b"--log" not in subprocess.run([PROGRAM, "--help"], capture_output=True).stdout:
        raise SystemExit(f"bench: {PROGRAM} has no door for logs")
    more_files(max(given.clients))
    load, found = os.getloadavg()[0], list[dict[str, str]]()
    for kept in given.kept:
        for clients in given.clients:
            with tempfile.TemporaryDirectory(prefix="bench-") as room:
                found.append(as_a_step(given, pathlib.Path(room), clients, kept))
            print(" | ".join(found[-1].values()), flush=True)
    if given.alone:
        found.append(one_by_one(given, max(given.clients)) | {"the step's lines, MB": ""})
    print(f"\n{BY_TOKEN} clients of each token, load {load:.1f} before.\n\n{table(found)}")
