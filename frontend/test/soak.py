#!/usr/bin/python3
"""A soak of the gateway as a program: millions of requests, a thousand clients that come and go, and policies that change meanwhile.

    frontend/test/soak.py [--requests 10000000] [--minutes N] [--clients 1000] [--stay 20] [--each 500000] [--seed 1]

Who writes keeps rows of its own, and knows which are there. After each so many requests all stand still: each reader's rows, as what it was
told adds up, have to be those that its policy shows by a model of ten lines, and those that a client is shown which comes then; the memory
and the files of the program may not have grown. At last it is killed and started again, and shows the same. GATEWAY names another program
than the one that is built; the first line says whether it is that of the gate's last run.

All that is said in a step goes in one send a client, and rows are compared as the text that is told of them: half a processor asks the rest."""
import argparse
import collections
import functools
import hashlib
import heapq
import json
import math
import os
import random
import re
import select
import signal
import socket
import struct
import sys
import time
from collections.abc import Callable

from trial import many_files
from wire import CLOSE, PATIENCE, PING, PROGRAM, TOP, Gateway, Line, Wire, digest, frame, http, request

READERS = ("r1", "r2", "r3", "r4")  # each has a policy of its own
Row = tuple[int, str, bool]
PREDICATES: list[tuple[str, Callable[[Row, str], bool]]] = [
    ("true", lambda row, role: True), ("who = current_user", lambda row, role: row[1] == role), ("open = true", lambda row, role: row[2]),
    ("who = 'r2' or open = false", lambda row, role: row[1] == "r2" or not row[2]), ("id < 30000000", lambda row, role: row[0] < 30_000_000)]
WRITERS, WINDOW, ROWS = 8, 64, 60  # who write, requests of each without a reply, and rows that each keeps at most
PER_TOKEN = 40
COMING = 10  # guests that come in a step at most
CHANGE = re.compile(r"\[(-?\d+),(\[[^]]*\])\]")
NOBODYS = '{"on":"notes","delete":[0,"nobody",true]}'  # no row that is there


def text_of(row: Row) -> str:
    """A row, as it is said and told."""
    return f'[{row[0]},"{row[1]}",{"true" if row[2] else "false"}]'


def done(reply: str) -> None:
    assert reply == '{"ok":true}', reply


def refused(reply: str) -> None:
    assert '"error":16' in reply, reply


def passed(reply: str) -> None:
    """Whatever it is."""


class Client:
    """A client: requests with what is done about their replies, and what it was told for its numbers adds up."""

    def __init__(self, soak: "Soak", role: str, token: str):
        self.soak, self.role, self.wire = soak, role, Wire(soak.gate.port, open_it=False)
        self.unsent = [request(), frame(token.encode())]
        self.waiting: collections.deque[Callable[[str], None]] = collections.deque()
        self.sums: dict[int, dict[str, int]] = {}
        self.is_open = self.is_in = False
        soak.poll.register(number := self.wire.socket.fileno(), select.EPOLLIN)
        self.number, soak.clients[number] = number, self
        soak.speaking.add(self)

    def say(self, text: str, then: Callable[[str], None]) -> None:
        self.unsent.append(frame(text.encode(), mask=b"\1\2\3\4"))
        self.waiting.append(then)
        self.soak.requests += 1
        self.soak.speaking.add(self)

    def ask(self, *requests: Line, then: Callable[[str], None] = passed) -> None:
        for it in requests:
            self.say(json.dumps(it, separators=(",", ":")), then)

    def send(self) -> None:
        """All that it has said."""
        try:
            self.wire.send(b"".join(self.unsent))
        except ConnectionError:
            self.gone()
        self.unsent = []

    def gone(self) -> None:
        """The gateway has let it go."""
        raise AssertionError((self.role, self.wire.code, self.wire.words, self.soak.gate.said()[-2000:]))

    def hear(self, line: str) -> None:
        if line.startswith('{"changes":'):
            self.add(line)
        elif line.startswith('{"granted":'):
            self.subscribe()
        elif line.startswith(('{"role":', '{"protocol":')):
            self.is_in = True
        elif not line.startswith(('{"settled":', '{"alive":', '{"as":', '{"at":')):
            self.waiting.popleft()(line)

    def add(self, line: str) -> None:
        """Adds changes to what it was told for their number."""
        changes, _, number = line.rpartition(',"sub":')
        if (rows := self.sums.get(int(number[:-1]))) is not None:
            for copies, row in CHANGE.findall(changes):
                if more := rows.pop(row, 0) + int(copies):
                    rows[row] = more
            if '"ended":' in changes:
                assert not self.sums.pop(int(number[:-1])), "what was told of an ended number adds up to rows"
                self.subscribe()

    def read(self) -> None:
        """Hears what has come."""
        try:
            got = self.wire.socket.recv(1 << 16)
        except ConnectionError:
            got = b""
        if not got:
            self.gone()
            return
        self.wire.input += got
        if not self.is_open:
            head, end, rest = self.wire.input.partition(b"\r\n\r\n")
            self.is_open = bool(end)
            if not end:
                return
            assert head.startswith(b"HTTP/1.1 101 "), head
            self.wire.input = rest
        self.wire.take_in()
        lines, self.wire.lines = self.wire.lines, []
        for it in lines:
            self.hear(it)

    def subscribe(self) -> None:
        """Reads the table, if it may; one that may not comes again when something is granted."""
        def answered(reply: str) -> None:
            if (number := json.loads(reply).get("sub")) is not None:
                self.sums[number] = {}
        if self.role in READERS and not self.sums:
            self.ask({"do": "subscribe", "on": "notes"}, then=answered)

    def leave(self, how: int) -> None:
        """It closes as the standard has it, or is gone without a word, or within a frame, or by a reset."""
        if self.soak.clients.get(self.number) is not self:
            return
        self.soak.poll.unregister(self.number)
        del self.soak.clients[self.number]
        self.soak.speaking.discard(self)
        if how == 0:
            self.wire.send(frame(struct.pack("!H", 1000), CLOSE))
        elif how == 1:
            self.wire.send(frame(b'{"do":"unsubscribe","sub":1}')[:9])
        elif how == 2:
            self.wire.socket.setsockopt(socket.SOL_SOCKET, socket.SO_LINGER, struct.pack("ii", 1, 0))
        self.wire.shut()


class Guest(Client):
    """Comes, asks this and that, and goes again."""

    def subscribe(self) -> None:
        """It does not read the table: what is written comes to few."""

    def gone(self) -> None:
        """It had ten seconds to come, which a machine with other work may have taken all."""
        if self.is_in:
            super().gone()
        self.soak.late += 1
        self.leave(3)

    def __init__(self, soak: "Soak", role: str, token: str):
        super().__init__(soak, role, token)
        dice = soak.dice
        self.how = dice.randrange(4)
        asks: list[Line] = [{"do": "subscribe", "on": "board"}, {"do": "unsubscribe", "sub": 1}, {"do": "subscribe", "on": "nothing"}, {"do": "nothing"},
                {"id": dice.randrange(1000), "do": "create_role", "name": "x"}, {"do": "subscribe", "on": "board"},
                {"do": "write", "entries": [{"on": "board", "insert": [1]}]}]
        self.ask(*asks[:dice.randint(1, len(asks))])
        if dice.random() < 0.2:
            self.unsent.append(frame(b"x", PING))


class Writer(Client):
    """Keeps rows of its own, and knows which are there."""

    def __init__(self, soak: "Soak", role: str, token: str, at: int):
        super().__init__(soak, role, token)
        self.next, self.rows = at * 10_000_000, list[Row]()

    def drawn(self, count: int) -> list[Row]:
        """Takes so many of its rows."""
        found = []
        for _ in range(count):
            at = int(self.soak.dice.random() * len(self.rows))
            self.rows[at], self.rows[-1] = self.rows[-1], self.rows[at]
            found.append(self.rows.pop())
        return found

    def write(self) -> None:
        """Writes until enough wait for their reply. One in eight is refused whole."""
        dice = self.soak.dice.random
        while len(self.waiting) < WINDOW:
            more = [(self.next + at, READERS[int(dice() * 4)], dice() < 0.5) for at in range(3 if dice() < 0.25 else 1)]
            self.next += len(more)
            less = self.drawn(max(len(self.rows) + len(more) - ROWS, 0))
            entries = [f'{{"on":"notes","insert":{text_of(it)}}}' for it in more] + [f'{{"on":"notes","delete":{text_of(it)}}}' for it in less]
            then: Callable[[str], None] = functools.partial(self.accepted, more)
            if dice() < 0.125:
                entries.append(NOBODYS)
                self.rows += less
                then = refused
            self.say(f'{{"do":"write","entries":[{",".join(entries)}]}}', then)

    def accepted(self, more: list[Row], reply: str) -> None:
        done(reply)
        self.rows += more
        self.soak.accepted += 1


class Owner(Client):
    """Changes who sees what."""

    def __init__(self, soak: "Soak", role: str, token: str):
        super().__init__(soak, role, token)
        self.policies: dict[str, int] = dict.fromkeys(READERS, 0)
        self.granted, self.locked, self.mark = {*READERS}, False, 0

    def make(self) -> None:
        """The policies that there are in the beginning."""
        self.ask({"do": "row_security", "on": "notes", "enable": True, "force": False}, then=done)
        for role in READERS:
            self.ask(self.policy(role), {"do": "grant", "on": "notes", "privileges": ["select"], "to": role}, then=done)

    def policy(self, role: str) -> Line:
        return {"do": "create_policy", "on": "notes", "name": role, "to": [role], "using": PREDICATES[self.policies[role]][0]}

    def change(self) -> None:
        """A policy, a right or a lock over all is another, and the board has another row."""
        role, kind = self.soak.dice.choice(READERS), self.soak.dice.randrange(4)
        if kind == 0:
            verb = "revoke" if role in self.granted else "grant"
            self.granted ^= {role}
            self.ask({"do": verb, "on": "notes", "privileges": ["select"], "to": role}, then=done)
        elif kind == 1:
            lock = {"do": "create_policy", "on": "notes", "name": "lock", "restrictive": True, "command": "select", "using": "open = true"}
            self.ask({"do": "drop_policy", "on": "notes", "name": "lock"} if self.locked else lock, then=done)
            self.locked = not self.locked
        else:
            self.policies[role] = self.soak.dice.randrange(len(PREDICATES))
            self.ask({"do": "drop_policy", "on": "notes", "name": role}, self.policy(role), then=done)
        self.mark += 1
        board = [{"on": "board", "insert": [self.mark]}, *([{"on": "board", "delete": [self.mark - 1]}] if self.mark > 1 else [])]
        self.ask({"do": "write", "entries": board}, then=done)

    def shows(self, role: str, row: Row) -> bool:
        """Whether the role is shown a row: the model."""
        return role in self.granted and PREDICATES[self.policies[role]][1](row, role) and (row[2] or not self.locked)


class Soak:
    def __init__(self, clients: int, stay: float, seed: int, seconds: float):
        self.dice, self.stay, self.size, self.end = random.Random(seed), stay, clients, time.monotonic() + seconds
        self.requests = self.accepted = self.comings = self.late = 0
        self.poll, self.clients, self.speaking = select.epoll(), dict[int, Client](), set[Client]()
        tokens = {it: it.split()[0] for it in ["ann", "admin", *(f"{role} {at}" for role in READERS for at in range(clients // PER_TOKEN + 1))]}
        self.gate = Gateway(start=False)
        self.gate.put_tokens("[tokens]\n" + "".join(f'"{digest(token)}" = "{role}"\n' for token, role in tokens.items()))
        self.gate.start()
        admin = Wire(self.gate.port, "admin")
        admin.event()
        made: list[Line] = [{"do": "create_role", "name": role} for role in ("ann", *READERS)]
        made += [{"do": "create_table", "name": "notes", "owner": "ann", "columns": [["id", "int"], ["who", "text"], ["open", "flag"]]},
                 {"do": "create_table", "name": "board", "owner": "ann", "columns": [["mark", "int"]]},
                 {"do": "grant", "on": "board", "privileges": ["select"], "to": "public"}]
        for asked in made:
            assert admin.ask(asked)[0].startswith('{"ok":true'), asked
        admin.shut()
        self.owner = Owner(self, "ann", "ann")
        self.owner.make()
        self.writers = [Writer(self, "ann", "ann", at + 1) for at in range(WRITERS)]
        self.readers = [Client(self, role, f"{role} 0") for role in READERS]
        self.wait(lambda: all(it.is_in for it in self.readers) and not self.owner.waiting)
        for it in self.readers:
            it.subscribe()
        self.guests: list[tuple[float, int, Guest]] = []  # a heap: when each goes, and the how many-th it is

    def step(self, seconds: float = 0.05) -> None:
        """Sends what was said, and hears what comes within so many seconds."""
        while self.speaking:
            self.speaking.pop().send()
        for number, _ in self.poll.poll(seconds, 256):
            if number in self.clients:
                self.clients[number].read()

    def wait(self, holds: Callable[[], bool]) -> None:
        end = time.monotonic() + PATIENCE
        while not holds():
            assert time.monotonic() < end, "it does not come"
            self.step()

    def come_and_go(self) -> None:
        """Guests whose time is over go, and others come."""
        now = time.monotonic()
        while self.guests and self.guests[0][0] < now:
            guest = heapq.heappop(self.guests)[2]
            guest.leave(guest.how)
        for _ in range(min(self.size - len(self.guests), COMING)):
            role = self.dice.choice(READERS)
            guest = Guest(self, role, f"{role} {self.dice.randrange(self.size // PER_TOKEN + 1)}")
            self.comings += 1
            heapq.heappush(self.guests, (now + self.dice.expovariate(1 / self.stay), self.comings, guest))

    def run(self, requests: int) -> None:
        """Goes on for so many requests, or until its time is over."""
        until, change = self.requests + requests, time.monotonic()
        while self.requests < until and time.monotonic() < self.end:
            for it in self.writers:
                it.write()
            self.come_and_go()
            if time.monotonic() > change:
                self.owner.change()
                change = time.monotonic() + 0.2
            self.step(0.01)

    def stand_still(self) -> str:
        """All is answered. What readers see is what the model shows, and a client that comes now; the digest of it."""
        for _, _, guest in self.guests:
            guest.leave(0)
        self.guests = []
        self.wait(lambda: not any(it.waiting for it in self.clients.values()))
        for reader in self.readers:  # what was told before a reply has come
            reader.ask({"do": "unsubscribe", "sub": 1 << 40})
        self.wait(lambda: not any(it.waiting for it in self.clients.values()))
        rows = {row for it in self.writers for row in it.rows}
        found = hashlib.sha256()
        for reader in self.readers:
            wanted = {text_of(row): 1 for row in rows if self.owner.shows(reader.role, row)}
            shown = [*reader.sums.values()]
            assert bool(shown) == (reader.role in self.owner.granted), (reader.role, len(shown))
            assert all(it == wanted for it in shown), (reader.role, len(wanted), [len(it) for it in shown])
            assert self.fresh(reader.role) == (wanted if shown else None), reader.role
            found.update(repr((reader.role, sorted(wanted))).encode())
        return found.hexdigest()[:16]

    def fresh(self, role: str) -> dict[str, int] | None:
        """What a client is shown that comes now, if it may read."""
        wire = Wire(self.gate.port, f"{role} 1" if self.size >= PER_TOKEN else f"{role} 0")
        assert wire.enter() == role
        reply, *lines = wire.ask({"do": "subscribe", "on": "notes"})
        wire.shut()
        return None if '"error"' in reply else {row: int(copies) for it in lines for copies, row in CHANGE.findall(it)}

    def files(self) -> int:
        """Files that the program has open beside its clients, once connections that are gone are let go."""
        end = time.monotonic() + PATIENCE
        while json.loads(http(self.gate.port, "/state", "admin")[2])["sockets"] > len(self.clients) + 1:
            assert time.monotonic() < end, "connections that are gone are kept"
            time.sleep(0.05)
        return len(os.listdir(f"/proc/{self.gate.process.pid}/fd")) - len(self.clients)

    def again(self, before: str) -> None:
        """The program is killed, and what it shows then is the same."""
        shown = {role: self.fresh(role) for role in READERS}
        self.gate.kill()
        self.gate.start()
        assert {role: self.fresh(role) for role in READERS} == shown, before


def program() -> str:
    """Which program it is."""
    found = hashlib.sha256(PROGRAM.read_bytes()).hexdigest()
    run = json.loads((TOP / ".ci/last-run.json").read_text())
    is_known = run.get("programs", {}).get("gateway") == found
    return f"{PROGRAM}, SHA-256 {found[:16]}, " + (f"of the gate's run of {run['date']}" if is_known else "which the gate's last run does not name")


def soak(requests: int, clients: int, each: int, stay: float = 20.0, seed: int = 1, seconds: float = math.inf, more: int = 8 << 20) -> None:
    """The whole, for so many seconds at most. The memory after the second part may grow by so many bytes, and by a fiftieth, until the end."""
    it, began, seen = Soak(clients, stay, seed, seconds), time.monotonic(), []
    print(f"  {program()}", flush=True)
    while it.requests < requests and time.monotonic() < it.end:
        it.run(min(each, requests - it.requests))
        found, files = it.stand_still(), it.files()
        seen.append((it.gate.memory(), files))
        print(f"  {it.requests:,} requests, {it.accepted:,} writes, {it.comings:,} guests ({it.late} too late), {(time.monotonic() - began) / 60:.2f} min"
              f" (processor {it.gate.processor() / 60:.2f}, of the clients {time.process_time() / 60:.2f}): {seen[-1][0] / 1e6:.1f} MB, {files} files,"
              f" {it.gate.journal.stat().st_size / 1e6:,.1f} MB of journal, digest {found}", flush=True)
        assert files <= seen[0][1] + 1, [files for _, files in seen]  # a connection that asked for its state may be there still
        assert it.gate.process.poll() is None, it.gate.said()
    first = seen[min(1, len(seen) - 1)][0]
    assert max(memory for memory, _ in seen) <= first + first // 50 + more, [memory for memory, _ in seen]
    began = time.monotonic()
    it.again(found)
    print(f"  killed, and there again with the same rows after {(time.monotonic() - began) / 60:.2f} min (processor {it.gate.processor() / 60:.2f}):"
          f" {it.gate.memory() / 1e6:.1f} MB, at most {it.gate.most_memory() / 1e6:,.1f} MB", flush=True)
    it.gate.end()


if __name__ == "__main__":
    words = argparse.ArgumentParser(description=__doc__.splitlines()[0])
    words.add_argument("--requests", type=int, default=10_000_000)
    words.add_argument("--minutes", type=float, default=math.inf, help="it ends then, if it has not asked all")
    words.add_argument("--clients", type=int, default=1000, help="guests at a time")
    words.add_argument("--each", type=int, default=500_000, help="requests between two looks")
    words.add_argument("--stay", type=float, default=20.0, help="seconds for which a guest stays, on average")
    words.add_argument("--seed", type=int, default=1)
    given = words.parse_args()
    signal.signal(signal.SIGTERM, signal.default_int_handler)  # the program ends with it
    many_files()
    try:
        soak(given.requests, given.clients, given.each, given.stay, given.seed, 60 * given.minutes)
    finally:
        for gate in [*Gateway.running]:
            gate.end()
    sys.exit(0)
