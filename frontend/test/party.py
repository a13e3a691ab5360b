"""Gateways of one log in Redis, each with its keeper; writers who go from one to another until they find who leads; and what each role sees after each step."""
import contextlib
import json
import os
import random
import signal
import threading
import time
from collections.abc import Iterator
from typing import Any

from followers import GUARDED, ROLES, TOGGLES, Chronicle, Follower, Reader, comes, shown
from names import HOLDERS, WRITERS, Row, Trials, Writer, by_name, token_line
from store import Store, Way
from trial import BASE, insert, until
from wire import PATIENCE, TOP, Ended, Gateway, Line, Wire

REDIS_LOG = TOP / "frontend/redis_log.py"
LEASE = float(os.environ.get("LEASE", 1))  # seconds: more on a slow host


class Machine(Follower):
    """A gateway with its keeper, one of those that share a log."""

    def __init__(self, url: str, may_lead: bool = True, by_port: bool = False, lease: float = LEASE, rows: int = 1 << 20):
        super().__init__(None, by_port)
        self.words = "--rows", str(rows)
        self.url, self.may_lead, self.lease = url, may_lead, lease
        self.more: list[Any] = []  # words of its keeper
        self.know("admin", *ROLES, lines=tuple(token_line(*it) for it in HOLDERS.items()))

    def log(self) -> list[Any]:
        return [REDIS_LOG, *([] if self.may_lead else ["--follow"]), "--lease", str(self.lease), *self.more, self.url]

    def leads(self) -> bool:
        """Whether it decides: who follows tells nobody that a place is of another epoch."""
        with contextlib.suppress(Ended, OSError, AssertionError):
            wire = self.enter("ann")
            told = wire.ask(by_name(f"{'f' * 32}.0", insert(1, "ann")))
            wire.shut()
            return told[0] == '{"undecided":103}'
        return False

    def keeper_pid(self) -> int:
        return self.pids()["keeper"]


class Party:
    """Machines that are started again when they end: those that may lead, and those that only follow."""

    def __init__(self, store: Store, may_lead: int = 1, follow: int = 1, lease: float = LEASE, by_port: bool = False, rows: int = 1 << 20, ways: bool = False):
        self.store = store
        self.ways = [Way(store) for _ in range(may_lead + follow) if ways]  # by which they reach Redis, if they do not go straight
        self.candidates = [Machine(store.url, True, by_port and at == 1, lease, rows) for at in range(may_lead)]
        self.readers = [Machine(store.url, False, by_port and at == 0, lease, rows) for at in range(follow)]
        for machine, way in zip(self.all, self.ways):
            machine.url = way.url
        self.threads: list[threading.Thread] = []

    @property
    def all(self) -> list[Machine]:
        return self.candidates + self.readers

    def begin(self, *machines: Machine) -> None:
        for it in machines or self.all:
            thread = threading.Thread(target=it.keep, daemon=True)
            thread.start()
            self.threads.append(thread)

    def leader(self) -> Machine:
        found: list[Machine] = []

        def look() -> bool:
            found[:] = [it for it in self.candidates if it.leads()]
            return bool(found)
        until(look, f"nobody leads: {[it.said()[-1000:] for it in self.candidates]}")
        assert len(found) == 1, "two lead"
        return found[0]

    def opened(self) -> "Party":
        """It has begun, and what is shared is made."""
        self.begin()
        leader = self.leader_of_nothing()
        admin = leader.enter("admin")
        for it in BASE + GUARDED:
            told = admin.ask(by_name(admin.place, it))
            assert '"answer":{"ok":true}' in told[0], (it, told)
            admin.place = json.loads(told[0])["at"]
        for machine in self.all:
            comes(machine)
        return self

    def leader_of_nothing(self) -> Machine:
        """Who leads when there is no role but the administrator's."""
        found: list[Machine] = []

        def look() -> bool:
            found[:] = [it for it in self.candidates if " leads behind step" in "".join(one.read_text() for one in it.logs[-2:])]
            return bool(found)
        until(look, f"nobody leads: {[it.said()[-1000:] for it in self.candidates]}")
        return found[0]

    def equal(self, is_whole: bool = True) -> dict[str, Any]:
        """Waits until all show the same: that which the steps lead to, if the log has all."""
        found: list[dict[str, Any]] = []

        def look() -> bool:
            found.clear()
            with contextlib.suppress(Ended, OSError, AssertionError):
                before = self.store.count()
                found.extend(shown(it) for it in self.all)
                if not is_whole:  # a snapshot makes the same by other requests
                    for it in found:
                        del it["shape"]
                return self.store.count() == before and all(it == found[0] for it in found)
            return False
        until(look, "they show different things")
        if not is_whole:
            return found[0]
        chronicle = StreamChronicle(self.store)
        chronicle.read()
        for role in ROLES:
            sees = None if ("refused", 13) in found[0][role] else sum(copies * hash(row) for row, copies in found[0][role].items())
            assert sees == chronicle.states[role][-1], role
        return found[0]

    def end(self) -> None:
        for it in self.all:
            it.is_ended = True
        for thread in self.threads:
            thread.join()
        for it in self.all:
            it.end()
        for way in self.ways:
            way.end()


@contextlib.contextmanager
def partied(store: Store, may_lead: int = 1, follow: int = 1, lease: float = LEASE, **how: Any) -> Iterator[Party]:
    """A party that is open."""
    party = Party(store, may_lead, follow, lease, **how)
    try:
        yield party.opened()
    finally:
        party.end()


class Observer:
    """Has each step, though older ones go from the stream."""

    def __init__(self, store: Store):
        self.store, self.texts, self.position = store, list[list[bytes]](), 0
        self.fault = ""

    def run(self, stop: threading.Event) -> None:
        while not stop.is_set() and not self.fault:
            self.read()
            time.sleep(0.005)

    def read(self) -> None:
        with contextlib.suppress(Exception):
            for identifier, fields in self.store.client.xrange("desk", f"({self.position}-0", count=1000):
                if identifier != b"%d-0" % (self.position + 1):
                    self.fault = f"{identifier} stands behind {self.position}"
                    return
                self.position += 1
                self.texts.append(fields[b"lines"].split(b"\n"))

    def has_all(self) -> bool:
        self.read()
        return self.position == self.store.count()

    def steps(self, first: int = 1) -> list[list[bytes]]:
        return self.texts[first - 1:]


class StreamChronicle(Chronicle):
    """What each role sees after each step."""

    def __init__(self, store: Store | Observer):
        self.store = store
        super().__init__(Gateway(start=False))
        self.gate.end()

    def texts(self) -> list[bytes]:
        return [line[1:] for lines in self.store.steps() for line in lines]


class Wanderer(Writer):
    """Goes to the next gateway where its own does not answer, or says that others decide. Each of its requests inserts two rows."""

    def __init__(self, gates: list[Machine], token: str, number: int, pause: float = 0.03):
        super().__init__(gates[number % len(gates)], token, number)
        self.gates, self.turn, self.pause = gates, number, pause

    def serve(self, stop: threading.Event) -> None:
        try:
            super().serve(stop)
        except (Ended, OSError):
            self.turn += 1
            self.gate = self.gates[self.turn % len(self.gates)]
            raise

    def request(self, row: Row) -> Line:
        request = insert(*row)
        request["entries"] += insert(row[0], "mia")["entries"]
        return request

    def hear(self, wire: Wire, row: Row, reply: Line, asked: list[Row]) -> None:
        if reply.get("undecided") == 100:
            self.times[row] -= 1
            wire.shut()
            raise Ended(100)
        super().hear(wire, row, reply, asked)
        time.sleep(self.pause)  # those that follow are not to be far behind


def wanderers(party: Party, pause: float = 0.03) -> list[Writer]:
    return [Wanderer(party.all, token, number, pause) for token, number in WRITERS]


class Struck(Trials):
    """What becomes of a party under writers: keepers, gateways and Redis are killed, or stopped for a while, and keepers are cut off from Redis."""

    def __init__(self, party: Party, writers: list[Writer], seconds: float, readers: list[Reader]):
        super().__init__(party.candidates[0], writers, 0)
        self.party, self.seconds, self.readers = party, seconds, readers
        self.dice = random.Random()

    def strike(self) -> None:
        before = self.answered()
        self.wait(lambda: any(it.fault for it in self.readers) or self.answered() > before, "nothing is answered")
        time.sleep(self.dice.uniform(0, 0.3))
        part, machine = self.dice.choice(["keeper", "gateway", "keeper", "gateway", "redis", "way"]), self.dice.choice([*self.party.candidates, *self.party.all])
        is_stop, pause = part == "way" or self.dice.random() < 0.4, self.dice.choice([0.1, 0.5 * LEASE, 1.5 * LEASE, 3 * LEASE])
        if part == "way":
            way = self.party.ways[self.party.all.index(machine)]
            way.is_cut = True
            time.sleep(pause)
            way.is_cut = False
        elif part == "redis":
            store = self.party.store
            if is_stop:
                store.process.send_signal(signal.SIGSTOP)
                time.sleep(pause)
                store.process.send_signal(signal.SIGCONT)
            else:
                store.kill()
                time.sleep(pause / 2)
                store.start()
        elif is_stop:
            pid = machine.pids().get(part)
            if pid is None or not machine.strike(part, signal.SIGSTOP):
                return
            time.sleep(pause)
            with contextlib.suppress(ProcessLookupError):
                os.kill(pid, signal.SIGCONT)
        elif not machine.strike(part):
            return
        self.counts[f"{part} {'stopped' if is_stop else 'killed'}"] += 1

    def run(self) -> None:
        stop, end = threading.Event(), time.monotonic() + self.seconds
        threads = [threading.Thread(target=it.run, args=(stop,), daemon=True) for it in self.writers]
        for thread in threads:
            thread.start()
        try:
            while time.monotonic() < end:
                self.strike()
        finally:
            stop.set()
        for thread in threads:
            thread.join(PATIENCE)
        assert not [it.fault for it in self.writers if it.fault], [it.fault for it in self.writers]


def toggle(party: Party, stop: threading.Event) -> None:
    """Gives and takes rights, wherever that is decided."""
    at = 0
    while not stop.is_set():
        with contextlib.suppress(Ended, OSError, AssertionError):
            admin = party.all[at % len(party.all)].enter("admin")
            while not stop.is_set():
                told = json.loads(next(it for it in admin.ask(by_name(admin.place, TOGGLES[at % len(TOGGLES)])) if '"answer"' in it or '"undecided"' in it))
                if "undecided" in told:
                    break
                admin.place = told["at"]
                at += 1
                stop.wait(0.1)
            admin.shut()
        at += 1
        stop.wait(0.05)


def ends(machine: Machine, wanted: int, words: str) -> None:
    """So it does when it is started."""
    machine.launch()
    assert machine.process.wait(PATIENCE) == wanted, machine.said()
    assert words in machine.said() and "Traceback" not in machine.said(), machine.said()
