"""Gateways that follow the journal of another one, each with its keeper; readers at them; and what each role sees after each record of that journal."""
import bisect
import collections
import contextlib
import json
import os
import pathlib
import secrets
import signal
import subprocess
import threading
import time
from typing import Any

import audit
from names import Row
from ports import free_port
from trial import until
from wire import PROGRAM, TOP, Ended, Gateway, Line, Wire

KEEPER = TOP / "frontend/keeper.py"
FOLLOWER = pathlib.Path(os.environ.get("FOLLOWER", PROGRAM)).resolve()  # the program of those that follow
ROLES = ("ann", "bob", "mia")
GUARDED: list[Line] = [  # of notes: ann owns it, bob sees all, mia her own rows
    {"do": "create_policy", "on": "notes", "name": "own", "command": "select", "using": "who = current_user"},
    {"do": "create_policy", "on": "notes", "name": "every", "command": "select", "using": "true", "to": ["bob"]},
    {"do": "create_policy", "on": "notes", "name": "puts", "command": "insert", "check": "true"},
    {"do": "row_security", "on": "notes", "enable": True, "force": False}]
WIDE: Line = {"do": "create_policy", "on": "notes", "name": "wide", "command": "select", "using": "who = 'ann' or id < 10", "to": ["mia"]}
TOGGLES: tuple[Line, ...] = (
    {"do": "revoke", "on": "notes", "privileges": ["select"], "to": "bob"}, WIDE, {"do": "grant", "on": "notes", "privileges": ["select"], "to": "bob"},
    {"do": "drop_policy", "on": "notes", "name": "wide"})


def has_door() -> bool:
    return FOLLOWER != PROGRAM or PROGRAM.is_file() and b"--log" in subprocess.run([PROGRAM, "--help"], capture_output=True).stdout


class Follower(Gateway):
    """A gateway that follows: its keeper starts it, or reaches it by a port. What is dead is started again; one that has followed another journal begins anew."""

    def __init__(self, leader: Gateway | None, by_port: bool):
        super().__init__(words=("--rows", "1048576"), start=False)
        self.leader, self.by_port = leader, by_port
        self.keeper: subprocess.Popen[bytes] | None = None
        self.door, self.secret = free_port(), self.folder / "secret"
        self.secret.write_text(secrets.token_hex(32))
        self.statuses = collections.Counter[str]()
        self.begins = 0
        self.is_ended = self.rests = False

    def log(self) -> list[Any]:
        """Its keeper and the log."""
        assert self.leader
        return [KEEPER, self.leader.journal]

    def command(self) -> list[Any]:
        words = [FOLLOWER, *super().command()[1:]]
        return [*words, "--log", str(self.door), "--log-secret-file", self.secret] if self.by_port else [*self.log(), "--", *words]

    def mend(self) -> None:
        """Starts what has ended."""
        if self.started is None or self.started.poll() is not None:
            if self.started:
                self.count("gateway" if self.by_port else "keeper", self.started.returncode)
            self.launch()
        if self.by_port and (self.keeper is None or self.keeper.poll() is not None):
            if self.keeper:
                self.count("keeper", self.keeper.returncode)
            with (path := self.folder / f"log.{len(self.logs)}").open("wb") as log:
                self.logs.append(path)
                self.keeper = subprocess.Popen([*self.log(), "--port", str(self.door), "--secret-file", self.secret], stdin=subprocess.DEVNULL, stderr=log)

    def count(self, part: str, status: int) -> None:
        self.statuses[f"{part} {status}"] += 1
        if part == "keeper" and status == 5:
            self.begins += 1
            if self.by_port:
                self.process.kill()
                self.process.wait()
                self.started = None
            self.journal.rename(self.folder / f"journal.{self.begins}")
            if self.started is None:
                self.launch()

    def keep(self) -> None:
        """Until it is ended, but for times of rest."""
        while not self.is_ended:
            if not self.rests:
                self.mend()
            time.sleep(0.01)

    def pids(self) -> dict[str, int]:
        """Those that run of its gateway and its keeper."""
        found = {}
        if self.started and self.started.poll() is None:
            found["gateway" if self.by_port else "keeper"] = self.started.pid
            children = pathlib.Path(f"/proc/{self.started.pid}/task/{self.started.pid}/children")
            with contextlib.suppress(OSError):
                if not self.by_port and (pids := children.read_text().split()):
                    found["gateway"] = int(pids[0])
        if self.keeper and self.keeper.poll() is None:
            found["keeper"] = self.keeper.pid
        return found

    def rest(self) -> None:
        """Its keeper is gone, and nothing is started."""
        self.rests = True
        time.sleep(0.1)
        until(lambda: "keeper" not in self.pids() or self.strike("keeper") and False, "a keeper stays")

    def strike(self, part: str, by: int = signal.SIGKILL) -> bool:
        """Kills a part. Whether it was there."""
        pid = self.pids().get(part)
        with contextlib.suppress(ProcessLookupError):
            if pid is not None:
                os.kill(pid, by)
                return True
        return False

    def end(self) -> None:
        self.is_ended = True
        for part in ("keeper", "gateway"):
            self.strike(part)
        if self.keeper:
            self.keeper.wait()
        super().end()


def mark(row: Row) -> int:
    """Such that the sum over rows tells which they are."""
    return hash(row)


class Reader:
    """A client of a gateway that adds up what it is told of a table, and keeps what that is at each `settled`, of each connection."""

    def __init__(self, gate: Gateway, role: str):
        self.gate, self.role = gate, role
        self.seen: list[list[int]] = []
        self.told = self.refusals = 0  # events with changes, and refusals
        self.wire: Wire | None = None
        self.fault: Exception | None = None

    def run(self, stop: threading.Event) -> None:
        try:
            while not stop.is_set():
                with contextlib.suppress(Ended, OSError, TimeoutError):
                    self.serve()
                time.sleep(0.01)
        except Exception as why:
            self.fault = why
            raise

    def serve(self) -> None:
        wire = self.wire = self.gate.enter(self.role)
        self.seen.append([])
        number, rows, total, is_asked = 0, collections.Counter[Row](), 0, True
        wire.say({"do": "subscribe", "on": "notes"})
        while True:
            for it in map(json.loads, wire.event()):
                if "error" in it:
                    assert it == {"error": 13, "on": "notes", "privilege": "select"}, it
                    self.refusals += 1
                    is_asked = False
                elif "sub" in it and "ok" in it:
                    number, is_asked = it["sub"], False
                elif "changes" in it:
                    assert it["sub"] == number, it
                    for copies, row in it["changes"]:
                        rows[tuple(row)] += copies
                        total += copies * mark(tuple(row))
                        assert rows[tuple(row)] >= 0, row
                        if not rows[tuple(row)]:
                            del rows[tuple(row)]
                    self.told += 1
                    if "ended" in it:
                        assert not rows and it["ended"] == "privilege", it
                        number = 0
                elif "granted" in it and not number and not is_asked:
                    wire.say({"do": "subscribe", "on": "notes"})
                    is_asked = True
            if number:
                self.seen[-1].append(total)

    def leave(self) -> None:
        with contextlib.suppress(OSError, AttributeError):
            assert self.wire
            self.wire.socket.shutdown(2)


class Chronicle:
    """What each role sees of notes after each record of a journal, added up: none where it may see nothing."""

    def __init__(self, gate: Gateway):
        self.gate, self.at = gate, 0  # so many texts of the journal were read
        self.states: dict[str, list[int | None]] = {role: [] for role in ROLES}
        self.forget()

    def forget(self) -> None:
        self.all = self.own = 0
        self.there = self.guarded = self.wide = False
        self.grants = {"ann"}

    def read(self) -> None:
        """What the journal has more."""
        texts = self.texts()
        for text in texts[self.at:]:
            self.apply(json.loads(b"{" + text))
            self.add()
        self.at = len(texts)

    def texts(self) -> list[bytes]:
        """Of whole records."""
        return [*audit.whole(audit.texts(self.gate.journal.read_bytes(), "the journal"))][1:]

    def compacted(self) -> None:
        """It leads to what was there."""
        self.at = len(self.texts())

    def restored(self) -> None:
        """It leads to what another one led to."""
        self.forget()
        for text in self.texts():
            self.apply(json.loads(b"{" + text))
        self.add()
        self.compacted()

    def apply(self, it: Line) -> None:
        match it:
            case {"do": "create_table"}:
                self.there = True
            case {"do": "row_security", "enable": enable}:
                self.guarded = enable
            case {"do": "create_policy", "name": "wide"}:
                self.wide = True
            case {"do": "drop_policy", "name": "wide"}:
                self.wide = False
            case {"do": "grant", "to": to, "privileges": named} if "select" in named:
                self.grants.add(to)
            case {"do": "revoke", "to": to, "privileges": named} if "select" in named:
                self.grants.discard(to)
            case {"do": "write", "entries": entries}:
                for entry in (it for it in entries if it["on"] == "notes"):
                    row, sign = (tuple(entry["insert"]), 1) if "insert" in entry else (tuple(entry["delete"]), -1)
                    self.all += (more := sign * entry.get("copies", 1) * mark(row))
                    self.own += more if row[1] == "mia" else 0

    def add(self) -> None:
        for role, states in self.states.items():
            sees = self.there and role in self.grants
            states.append(None if not sees else self.own if role == "mia" and self.guarded and not self.wide else self.all)

    def wrong(self, reader: Reader) -> list[str]:
        """What it was told that is no state, or one from before."""
        places = collections.defaultdict[int | None, list[int]](list)
        for at, state in enumerate(self.states[reader.role]):
            places[state].append(at)
        found = []
        for connection in reader.seen:
            at = 0
            for number, total in enumerate(connection):
                later = places.get(total, [])
                place = bisect.bisect_left(later, at)
                if place == len(later):
                    found.append(f"{reader.role}: event {number} of {len(connection)} shows {'what was before' if later else 'no state'}")
                    break
                at = later[place]
        return found


def shown(gate: Gateway) -> dict[str, Any]:
    """What each role sees of notes, and the shape as it was made."""
    found: dict[str, Any] = {}
    for role in ("admin", *ROLES):
        wire = gate.enter(role)
        if role == "admin":
            found["shape"] = wire.shape
        rows = collections.Counter[Row]()
        for it in map(json.loads, wire.ask({"do": "subscribe", "on": "notes"})):
            if "error" in it:
                rows["refused", it["error"]] += 1
            for copies, row in it.get("changes", []):
                rows[tuple(row)] += copies
        found[role] = rows
        wire.shut()
    return found


def caught_up(gate: Gateway, aim: dict[str, Any]) -> bool:
    """Whether it shows what another one does."""
    try:
        return shown(gate) == aim
    except (Ended, OSError):
        return False


def open_at(gate: Gateway, role: str = "ann") -> bool:
    with contextlib.suppress(Ended, OSError):
        gate.enter(role).shut()
        return True
    return False


def comes(follower: Follower) -> None:
    """Waits until clients are let in."""
    until(lambda: open_at(follower), "a follower lets nobody in")
