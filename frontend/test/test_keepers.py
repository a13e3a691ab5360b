"""Keepers that say what nobody would, and are killed with their gateway at any moment: each byte that a keeper and clients are told is compared
with what the model of `keepers.py` says.

    frontend/test/one test_keepers.py [--seconds 20]

What fails prints its seed, by which KEEPERS makes the same again."""
import contextlib
import os
import pathlib
import random
import re
import select
import shutil
import socket
import struct
import subprocess
import sys
import tempfile
import time
from collections.abc import Callable, Iterator

import pytest

from keepers import BEGIN, EPOCH, GO_ON, GROUPS, MOST_LINES, ROLES, SECRET, SHOWN, TABLES, VIEWS, Door, Fault, Makes, Request, Seat, damaged, digest_of, text_of
from ports import free_port
from wire import PATIENCE, PROGRAM, Ended, Wire, digest, http

ON_DISK = re.compile(rb'\{"on_disk":(\d+)\}')
GONE = b"The log is not followed now."


class Way:
    """A way to a gateway: its standard input and output, or a connection."""

    def __init__(self, given: int, taken: int, connection: socket.socket | None = None):
        self.given, self.taken, self.connection, self.read = given, taken, connection, b""

    def say(self, data: bytes) -> None:
        with contextlib.suppress(BrokenPipeError, ConnectionError):
            while data:
                data = data[os.write(self.taken, data):]

    def more(self, seconds: float) -> bool:
        """Whether more came. Nothing is the end."""
        if not select.select([self.given], [], [], max(0, seconds))[0]:
            raise TimeoutError
        try:
            got = os.read(self.given, 1 << 16)
        except ConnectionError:
            got = b""
        self.read += got
        return got != b""

    def line(self, seconds: float = PATIENCE, is_whole: bool = True) -> bytes | None:
        """The next line; None if it has ended, with a whole line unless it was killed."""
        end = time.monotonic() + seconds
        while b"\n" not in self.read:
            if not self.more(end - time.monotonic()):
                assert not (self.read and is_whole), self.read
                return None
        line, self.read = self.read.split(b"\n", 1)
        return line

    def close(self, hard: bool = False) -> None:
        if self.connection:
            if hard:
                self.connection.setsockopt(socket.SOL_SOCKET, socket.SO_LINGER, struct.pack("ii", 1, 0))
            self.connection.close()
        else:
            os.close(self.taken)


def connected(port: int) -> Way:
    end = time.monotonic() + PATIENCE
    while True:
        try:
            it = socket.create_connection(("127.0.0.1", port), PATIENCE)
            it.setsockopt(socket.IPPROTO_TCP, socket.TCP_NODELAY, 1)
            return Way(it.fileno(), it.fileno(), it)
        except OSError:
            assert time.monotonic() < end
            time.sleep(0.01)


class Program:
    """A gateway that follows a log, in a folder."""

    def __init__(self, here: pathlib.Path, is_at_port: bool = False, secret: str = SECRET, words: tuple[str, ...] = ()):
        self.here, self.port, self.door = here, free_port(), free_port() if is_at_port else 0
        (here / "tokens").write_text("[tokens]\n" + "".join(f'"{digest(f"{role}-demo")}" = "{role}"\n' for role in ("admin", *ROLES)))
        (here / "secret").write_text(secret + "\n")
        self.at = (str(self.door), "--log-secret-file", str(here / "secret")) if is_at_port else ("-",)
        self.log = (here / "log").open("ab+")
        self.process = subprocess.Popen([PROGRAM, "--journal", here / "journal", "--tokens", here / "tokens", "--port", str(self.port), "--log", *self.at, *words],
                                        stdin=subprocess.DEVNULL if is_at_port else subprocess.PIPE, stdout=subprocess.PIPE, stderr=self.log)

    def said(self) -> str:
        self.log.seek(0)
        return self.log.read().decode()

    def way(self) -> Way:
        """That of a keeper, who has shown the secret where that is asked for. One who is let go, since the one before is there still, comes again."""
        if not self.door:
            assert self.process.stdin and self.process.stdout
            taken = os.dup(self.process.stdin.fileno())
            self.process.stdin.close()
            return Way(self.process.stdout.fileno(), taken)
        end = time.monotonic() + PATIENCE
        while True:
            it = connected(self.door)
            it.say(SHOWN + b"\n")
            with contextlib.suppress(TimeoutError):
                if it.more(PATIENCE):
                    return it
            it.close()
            assert time.monotonic() < end and self.process.poll() is None, self.said()
            time.sleep(0.01)

    def ready(self) -> int:
        """The status of `/readyz`; 0 if nobody listens there."""
        try:
            return http(self.port, "/readyz")[0]
        except OSError:
            return 0

    def until(self, holds: Callable[[], object], what: str) -> None:
        end = time.monotonic() + PATIENCE
        while not holds():
            assert time.monotonic() < end, f"{what}; {self.said()}"
            time.sleep(0.005)

    def kill(self) -> None:
        self.process.kill()
        self.process.wait()


@pytest.fixture
def here() -> Iterator[pathlib.Path]:
    with tempfile.TemporaryDirectory() as folder:
        yield pathlib.Path(folder)


class Viewer:
    """A client, and what the model owes it."""

    def __init__(self, port: int, seat: Seat):
        self.wire, self.seat, self.part = Wire(port, f"{seat.role}-demo"), seat, list[str]()
        self.seen = 0  # the position of the last event that it was told

    def takes(self) -> None:
        """Compares the events that came: each is the next that it is owed."""
        self.wire.take_in()
        lines, self.wire.lines = self.wire.lines, []
        for line in lines:
            if line == '{"alive":true}':
                continue
            if line != '{"settled":true}':
                self.part.append(line)
                continue
            assert self.seat.owed, ("nothing is owed", self.seat.role, self.part)
            position, owed = self.seat.owed.pop(0)
            assert in_order(self.part) == owed, (position, self.seat.role, [it for it in in_order(self.part) if it not in owed], [it for it in owed if it not in self.part])
            self.part, self.seen = [], position

    def takes_all(self) -> None:
        """All that it is owed comes."""
        self.takes()
        while self.seat.owed or self.part:
            self.wire.read()
            self.takes()

    def ends(self) -> tuple[int | None, bytes]:
        """It is told a front of what it is owed, and its connection ends. How."""
        with contextlib.suppress(Ended):
            while True:
                self.takes()
                self.wire.read()
        self.takes()
        left = {line for _, lines in self.seat.owed[:1] for line in lines}
        assert {*self.part} <= left, (self.part, left)
        if self.part:
            self.seen = self.seat.owed[0][0]
        self.wire.shut()
        return self.wire.code, self.wire.words

    def asks(self, told: list[str], said: bytes) -> None:
        self.wire.say(said)
        self.seat.owed.append((self.seen, told))
        self.takes_all()


def in_order(lines: list[str]) -> list[str]:
    """Changes of the numbers of one client come in any order, behind its reply, and before all else."""
    front = [it for it in lines if it.startswith(('{"columns":', '{"id":', '{"error":'))]
    changes = [it for it in lines if it.startswith('{"changes":')]
    rest = [it for it in lines if it not in front and it not in changes]
    assert lines[:len(front)] == front and lines[len(front) + len(changes):] == rest, lines
    return front + sorted(changes) + rest


class Play:
    """Lives of a gateway, its keepers and its clients, by a seed."""

    def __init__(self, here: pathlib.Path, seed: int):
        self.here, self.dice, self.door = here, random.Random(seed), Door()
        self.makes = Makes(self.door, self.dice)
        self.viewers: list[Viewer] = []
        self.epoch, self.asked = "", 0
        self.told_disk, self.may, self.seen = 0, {0}, 0  # positions: the last that was told to be on disk, those that may be, the last that a client saw
        self.tally = dict[str, int]()

    def counts(self, what: str) -> None:
        self.tally[what] = self.tally.get(what, 0) + 1

    # ---- a keeper

    def comes(self) -> None:
        """A keeper comes, and is told what is held: a position at which the log has stood, and none before the last that was told."""
        told, self.way = self.told_disk, self.gate.way()
        line = self.way.line()
        assert line, self.gate.said()
        self.all_end({1013})
        assert self.gate.ready() in (503, 0), "clients may come in"
        found = re.search(rb'"position":(\d+)', line)
        position = int(found[1]) if found else 0
        assert position in self.may and position >= told, (position, sorted(self.may), told)
        assert self.seen <= position, (self.seen, position)
        self.door.comes_back(position)
        assert line == self.door.hello()
        self.told_disk, self.may, self.disks = position, {position}, 0
        self.says(self.beginning())
        self.mark()

    def beginning(self) -> list[bytes]:
        dice = self.dice
        if not self.door.log[0]:
            self.disks += 1
            first: list[Request] = [{"do": "create_role", "name": it} for it in (*ROLES, *GROUPS)]
            if dice.random() < 0.8:
                first += [{"do": "create_table", "name": it, "owner": dice.choice(ROLES), "columns": [["id", "int"], ["who", "text"]]} for it in TABLES]
                first += [{"do": "create_view", "name": it, "owner": "ann", "query": f"select who, count(*) as n from {over} group by who"} for it, over in zip(VIEWS, TABLES)]
                first += [{"do": "grant", "on": it, "privileges": ["select"], "to": "public"} for it in (*TABLES, *VIEWS) if dice.random() < 0.6]
            return [BEGIN, *[self.makes.text("admin", it) for it in first], b'{"from":0,"step":%d}' % dice.choice([1, 7])]
        if dice.random() < 0.3:
            self.says([b'{"recall":true}'] * dice.choice([1, 1, 3]))
        return [GO_ON]

    def says(self, lines: list[bytes]) -> None:
        """Says lines, in some pieces, and hears what the door says of them. Raises Fault, once that was told."""
        words: Fault | None = None
        recalled = list[bytes]()
        for line in lines:
            try:
                kind = self.door.hears(line)
            except Fault as why:
                words = why
                break
            self.may.add(self.door.position)
            self.disks += kind == "ends"
            if kind == "recall":
                recalled += self.door.recalled()
        self.sends(b"".join(line + b"\n" for line in lines))
        for line in recalled:
            assert self.way.line() == line
        if words:
            raise words

    def sends(self, data: bytes) -> None:
        pieces = self.dice.choice([1, 1, 2, 3, 7])
        cuts = sorted(self.dice.randrange(len(data) + 1) for _ in range(pieces - 1)) if len(data) < 1 << 16 else []
        for start, end in zip([0, *cuts], [*cuts, len(data)]):
            self.way.say(data[start:end])
            if end < len(data) and self.dice.random() < 0.5:
                time.sleep(self.dice.choice([0, 0.001, 0.003]))

    def disk(self, line: bytes) -> None:
        """A line that is none of a fault says up to where the log is on disk."""
        found = ON_DISK.fullmatch(line)
        assert found, line
        position = int(found[1])
        assert position in self.may and position >= self.told_disk, (position, sorted(self.may), self.told_disk)
        self.disks -= 1
        assert self.disks >= 0, "it was told more often than steps ended"
        self.told_disk = position
        if position and random.random() < 0.2:
            assert b'"step":%d}' % position in (self.here / "journal").read_bytes()

    def mark(self) -> None:
        """A step of nothing ends, and is on disk: so all that was said before is done."""
        position = self.door.position + 1
        if position >= 1 << 64:
            return
        self.says([b'{"from":%d,"step":%d}' % (position - 1, position)])
        while self.told_disk < position:
            line = self.way.line()
            assert line, self.gate.said()
            self.disk(line)
        assert self.told_disk == position
        for it in self.viewers:
            it.takes_all()

    # ---- what is done

    def brings(self) -> None:
        for _ in range(self.dice.choice([1, 1, 2, 5])):
            start = self.door.position
            if start > 1 << 40:
                return
            lines = self.makes.entries(self.dice.choice([0, 1, 1, 2, 4, 9]), 0.004) + self.makes.named(self.epoch or EPOCH)
            lines.append(b'{"from":%d,"step":%d}' % (start, start + self.dice.choice([1, 1, 2, 10, 1000])))
            if self.dice.random() < 0.015:
                lines = damaged(self.dice, lines, start)
                self.counts("damaged")
            self.says(lines)
            self.counts("steps")

    def brings_again(self) -> None:
        """A step that was taken, or leads nowhere."""
        to = self.dice.randrange(self.door.position + 1)
        self.says([b'{"from":%d,"step":%d}' % (self.dice.choice([0, to, self.door.position, 1 << 63]), to)] * self.dice.choice([1, 5]))

    def damages(self) -> None:
        self.counts("damaged")
        start = self.door.position
        self.says(damaged(self.dice, [*self.makes.entries(self.dice.choice([1, 2, 3]), 0), b'{"from":%d,"step":%d}' % (start, start + 1)], start))

    def opens(self) -> None:
        self.says([b'{"open":true}'] * self.dice.choice([1, 1, 2]))
        self.mark()
        assert self.gate.ready() == 200

    def shuts(self) -> None:
        if self.dice.random() < 0.7:
            self.mark()
        self.says([b'{"open":false}'])
        self.all_end({1013})
        self.mark()
        assert self.gate.ready() == 503

    def all_end(self, codes: set[int | None]) -> None:
        """All clients are closed: each was told a front of what it is owed."""
        for it in self.viewers:
            code, words = it.ends()
            assert code in codes and words == (GONE if code == 1013 else b""), (code, words, self.gate.said())
            self.seen = max(self.seen, it.seen)
            self.door.seats.remove(it.seat)
        self.viewers = []

    def enters(self) -> None:
        """A client comes in, if one may."""
        self.mark()
        role = self.dice.choice(["admin", *ROLES])
        if not self.door.is_open:
            with pytest.raises(Ended, match="503"):
                Wire(self.gate.port, f"{role}-demo")
            return
        seat = Seat(role)
        it = Viewer(self.gate.port, seat)
        welcome, place, *shape = it.wire.event()
        assert welcome == f'{{"protocol":1,"role":"{role}"}}'
        found = re.fullmatch(r'\{"at":"([0-9a-f]{32})\.(\d+)","names":64\}', place)
        assert found and int(found[2]) == self.door.shared.count(role), place
        assert self.epoch in ("", found[1]) and shape == (self.door.shared.shape if role == "admin" else []), shape
        self.epoch = found[1]
        it.seen = self.door.position
        self.door.seats.append(seat)
        self.viewers.append(it)
        self.counts("clients")
        if self.dice.random() < 0.8:
            self.asks()

    def asks(self) -> None:
        """A client asks something."""
        if not self.viewers:
            self.enters()
            return
        self.mark()
        it, dice, shared = self.dice.choice(self.viewers), self.dice, self.door.shared
        seat, self.asked = it.seat, self.asked + 1
        names, on, own = shared.recent(seat.role), dice.choice([*TABLES, *VIEWS, "none"]), dice.choice([*seat.subs, 99])
        write = b'"do":"write","entries":[{"on":"notes","insert":[1,"x"]}]}'
        place = f"{self.epoch}.{shared.count(seat.role)}"
        choice = dice.randrange(8)
        if choice < 3 or (choice < 5 and not seat.subs):
            it.asks(seat.subscribes(shared, self.asked, on), b'{"id":%d,"do":"subscribe","on":"%s"}' % (self.asked, on.encode()))
        elif choice == 3:
            it.asks(seat.unsubscribes(self.asked, own), b'{"id":%d,"do":"unsubscribe","sub":%d}' % (self.asked, own))
        elif choice == 4:
            it.asks(['{"error":100,"id":%d}' % self.asked], b'{"id":%d,%s' % (self.asked, write))
        elif choice == 5:
            said = dice.choice([b"{", b"[]", b'{"from":0,"step":1}', GO_ON, b'{"open":false}', b'{"as":"admin",' + write])
            answers = {b"{": '{"error":1}', b"[]": '{"error":2}', b'{"as":"admin",' + write: '{"error":2,"key":"as","why":"unknown"}'}
            it.asks([answers.get(said, '{"error":2,"key":"do","why":"missing"}')], said)
        elif choice == 6 or not names:
            name, asked = f"m{self.asked:021}", b"{" + write
            told = seat.asks(shared, self.asked, name, place, digest_of(asked), self.epoch)
            it.asks(told, b'{"id":%d,"once":"%s","at":"%s",%s' % (self.asked, name.encode(), place.encode(), write))
        else:
            known = dice.choice(names)
            number = int(known.name[1:])
            asked = text_of({"do": "write", "entries": [{"on": "notes", "insert": [number, seat.role]}]}).encode()
            if dice.random() < 0.3:
                asked = b"{" + write
            told = seat.asks(shared, self.asked, known.name, known.at, digest_of(asked), self.epoch)
            it.asks(told, b'{"id":%d,"once":"%s","at":"%s",%s' % (self.asked, known.name.encode(), known.at.encode(), asked[1:]))
            self.counts("names")

    def leaves(self) -> None:
        if self.viewers:
            it = self.viewers.pop(self.dice.randrange(len(self.viewers)))
            self.door.seats.remove(it.seat)
            it.wire.shut()

    def intrudes(self) -> None:
        """Another keeper comes while one is there, or who is none."""
        if self.gate.door:
            it = connected(self.gate.door)
            it.say(self.dice.choice([SHOWN + b"\n" + GO_ON + b"\n", b"\n", b"", SHOWN]))
            assert it.line() is None
            it.close()
            self.counts("intruders")

    def goes(self) -> bool:
        """A keeper goes, in the middle of something or not. Whether the gateway is there still."""
        self.counts("keepers")
        start, is_hard = self.door.position, self.dice.random() < 0.3
        data = b"".join(it + b"\n" for it in self.makes.entries(self.dice.choice([0, 1, 3]), 0))
        self.way.say(data[:self.dice.randrange(len(data) + 1)])
        if is_hard and not self.gate.door:
            self.gate.kill()
            self.all_end({None})
            return False
        if self.way.connection and not is_hard:
            self.way.connection.shutdown(socket.SHUT_WR)
            while line := self.way.line(is_whole=False):
                self.disk(line)
        self.way.close(is_hard)
        if not is_hard:
            self.told_disk = start
        if not self.gate.door:
            assert self.gate.process.wait(PATIENCE) == 0
            self.all_end({1013, None})
            return False
        if not is_hard:  # else the next one is there by the time that this is seen
            self.gate.until(lambda: self.gate.ready() == 503, "clients may come in")
            self.all_end({1013})
            self.shows_others(self.dice.choice([0, 1, 5]))
        return True

    def shows_others(self, count: int) -> None:
        """Who shows no secret, or another one."""
        for _ in range(count):
            at = self.dice.randrange(len(SHOWN))
            said = self.dice.choice([SHOWN[:at] + bytes([SHOWN[at] ^ 1 << self.dice.randrange(7)]) + SHOWN[at + 1:], SHOWN[:at], SHOWN + b" ", SHOWN.replace(b":", b": "), b"x" * 5000])
            it = connected(self.gate.door)
            it.say(said.replace(b"\n", b"\r") + b"\n" + GO_ON + b'\n{"open":true}\n')
            told = it.line()
            assert told is None, (said[:70], told)
            it.close()
            assert self.gate.ready() == 503
            self.counts("strangers")

    # ---- lives

    def life(self, count: int) -> None:
        """A gateway begins, and ends by some way."""
        self.gate = Program(self.here, self.dice.random() < 0.5)
        self.seen = max((it.seen for it in self.viewers), default=self.seen)
        acts: dict[Callable[[], object], int] = {
            self.brings: 40, self.brings_again: 4, self.opens: 10, self.shuts: 2, self.enters: 15, self.asks: 30, self.leaves: 3, self.intrudes: 2, self.damages: 1,
            self.goes: 2, self.dies: 1}
        try:
            self.comes()
            for _ in range(count):
                act = self.dice.choices([*acts], [*acts.values()])[0]
                if act() is False:
                    return
                if act == self.goes:
                    self.comes()
            self.mark()
            self.dies()
        except Fault as why:
            self.fails(str(why))

    def dies(self) -> bool:
        """The gateway is killed, while it has something to do or not."""
        if self.dice.random() < 0.7:
            self.brings()
            time.sleep(self.dice.choice([0, 0.0005, 0.002, 0.01]))
        self.gate.kill()
        self.counts("kills")
        while line := self.way.line(is_whole=False):
            self.disk(line)
        self.all_end({None})
        return False

    def fails(self, words: str) -> None:
        """It tells a fault, and ends."""
        self.counts("faults")
        while True:
            line = self.way.line()
            assert line, (words, self.gate.said())
            if line.startswith(b'{"fault"'):
                break
            self.disk(line)
        assert line.decode() == '{"fault":"%s"}' % words
        if self.gate.door:
            self.way.close()
        assert self.gate.process.wait(PATIENCE) == 4
        assert self.gate.said().endswith(f"gateway: the log: {words}\n")
        self.all_end({1013, None})

    def run(self, seconds: float) -> None:
        end = time.monotonic() + seconds
        while time.monotonic() < end:
            self.life(self.dice.choice([3, 10, 40, 150]))
            self.counts("lives")


def test_what_nobody_would_say(here: pathlib.Path, seconds: float) -> None:
    end, seed = time.monotonic() + seconds, int(os.environ.get("KEEPERS", 0)) or random.randrange(1 << 32)
    tally = dict[str, int]()
    while time.monotonic() < end:
        folder = here / str(seed)
        folder.mkdir()
        play = Play(folder, seed)
        try:
            play.run(min(10, end - time.monotonic()))
        except BaseException:
            print(f"KEEPERS={seed}", file=sys.stderr)
            print(play.gate.said()[-1000:], file=sys.stderr)
            raise
        finally:
            play.gate.kill()
        shutil.rmtree(folder)
        for what, count in play.tally.items():
            tally[what] = tally.get(what, 0) + count
        seed += 1
    print(f"{tally}, to KEEPERS={seed - 1}")


def opened(gate: Program) -> tuple[Way, int]:
    """One whose log has begun, with its keeper, and where it stands."""
    way = gate.way()
    way.say(BEGIN + b'\n{"as":"admin","do":"create_role","name":"mia"}\n{"from":0,"step":1}\n')
    while way.line() != b'{"on_disk":1}':
        pass
    return way, 1


def test_what_is_said_may_come_in_any_pieces(here: pathlib.Path) -> None:
    gate = Program(here, True)
    way, position = opened(gate)
    at = 0
    while True:
        assert way.connection
        way.connection.shutdown(socket.SHUT_WR)
        while way.line():
            pass
        way.close()
        entry = b'{"as":"admin","do":"revoke_role","role":"mia","to":"mia"}'
        said = b"\n".join([SHOWN, GO_ON, entry, b'{"from":%d,"step":%d}' % (position, position + 1), b""])
        at, position = at + 1, position + 1
        if at == len(said):
            break
        way = connected(gate.door)
        way.say(said[:at])
        time.sleep(0.001)
        way.say(said[at:])
        assert (way.line() or b"").startswith(b'{"door":1,')
        assert way.line() == b'{"on_disk":%d}' % position
    gate.kill()


@pytest.mark.parametrize("more, words", [(0, "line 1 of step 2 is no entry"), (1, "a step is too long")])
def test_a_step_has_so_many_lines_at_most(more: int, words: str, here: pathlib.Path) -> None:
    gate = Program(here)
    way, _ = opened(gate)
    way.say(b'{"as":"\n' * (MOST_LINES + more) + b'{"from":1,"step":2}\n')
    assert way.line() == b'{"fault":"%s"}' % words.encode()
    assert gate.process.wait(PATIENCE) == 4
