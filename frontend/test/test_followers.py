#!/usr/bin/python3
"""Gateways that follow the journal of another one, by what docs/PROTOCOL.md says alone: what is told there, while leader, followers and keepers are killed.

GATEWAY and VIEWD name other programs than those that are built, and FOLLOWER the program of those that follow."""
import contextlib
import functools
import hashlib
import json
import subprocess
import threading
import time
from collections.abc import Callable, Iterator
from typing import Any

import pytest

import audit
from followers import FOLLOWER, GUARDED, KEEPER, ROLES, TOGGLES, Chronicle, Follower, Reader, caught_up, comes, has_door, shown
from names import HOLDERS, WRITERS, Row, Trials, Writer, by_name, rows, token_line
from test_journal import compacted, needs_viewd
from trial import BASE, chained, comes_in, insert, serving, until
from wire import PATIENCE, Ended, Gateway, Line, Wire

pytestmark = pytest.mark.skipif(not has_door(), reason=f"{FOLLOWER} has no door for logs")


@contextlib.contextmanager
def led(*by_port: bool) -> Iterator[tuple[Gateway, Wire, list[Follower]]]:
    """A gateway whose journal others follow."""
    with serving(BASE + GUARDED, words=("--rows", "1048576")) as (gate, admin):
        gate.know(*("admin", *ROLES), lines=tuple(token_line(*it) for it in HOLDERS.items()))
        until(lambda: all(gate.knock(it).role == "mia" for it in HOLDERS), "a token with a holder opens nothing")
        followers = [Follower(gate, it) for it in by_port]
        threads = [threading.Thread(target=it.keep, daemon=True) for it in followers]
        for one in threads:
            one.start()
        for it in followers:
            comes(it)
        yield gate, admin, followers
        for it in followers:
            it.is_ended = True
        for one in threads:
            one.join()
        for it in followers:
            it.end()


def equal(gate: Gateway, followers: list[Follower]) -> None:
    """Waits until they show what their leader does."""
    aim = shown(gate)
    for it in followers:
        until(functools.partial(caught_up, it, aim), f"a follower shows something else: {it.said()[-2000:]}")


def test_a_follower_shows_what_its_leader_does() -> None:
    with led(False, True) as (gate, admin, followers):
        writer, readers = gate.enter("ann"), [(it, it.enter(role)) for it in followers for role in ROLES]
        for _, wire in readers:
            assert json.loads(wire.ask({"do": "subscribe", "on": "notes"})[0])["sub"] == 1
        writer.ask(insert(1, "mia"))
        for _, wire in readers:
            assert wire.event() == ['{"changes":[[1,[1,"mia"]]],"sub":1}']
        writer.ask({"do": "write", "entries": [{"on": "notes", "insert": [2, "ann"]}, {"on": "notes", "delete": [1, "mia"]}, {"on": "notes", "insert": [1, "mia"]}]})
        for it, wire in readers:
            if wire.role != "mia":
                assert wire.event() == ['{"changes":[[1,[2,"ann"]]],"sub":1}']
        admin.ask(TOGGLES[0])
        admin.ask(TOGGLES[2])
        for it, wire in readers:
            if wire.role == "bob":
                assert wire.event() == ['{"changes":[[-1,[1,"mia"]],[-1,[2,"ann"]]],"ended":"privilege","on":"notes","sub":1}']
                assert wire.event() == ['{"granted":"notes"}']
        equal(gate, followers)
        told = [[*audit.requests(audit.read(it.journal.read_bytes(), "a journal", True), "a journal")] for it in (gate, *followers)]
        assert told == [told[0]] * len(told) and b'"do":"begin"' in told[0][0]


def test_who_follows_decides_nothing() -> None:
    with led(False) as (gate, _, (follower,)):
        mia = follower.enter("mia")
        assert mia.ask({"id": 1, **insert(1, "mia")}) == ['{"error":100,"id":1}']
        assert mia.ask(by_name(mia.place, insert(1, "mia"), id=2)) == ['{"id":2,"undecided":100}']
        assert follower.enter("admin").ask({"do": "create_role", "name": "zoe"}) == ['{"error":100}']
        assert json.loads(mia.ask({"do": "subscribe", "on": "notes"})[0])["ok"] and rows(gate) == {}


def test_a_name_is_known_where_it_is_followed() -> None:
    """Who has lost the answer at the leader is told it by a follower, and no other request by that name."""
    with led(False) as (gate, _, (follower,)):
        wire = gate.enter("mia")
        said, refused = by_name(wire.place, insert(1, "mia")), by_name(wire.place, {"do": "write", "entries": [{"on": "notes", "delete": [-1, "mia"]}]})
        told = [json.loads(wire.ask(it)[0])["answer"] for it in (said, refused)]
        equal(gate, [follower])
        reader = follower.enter("mia")
        for it, answer in zip((said, refused), told):
            again = json.loads(reader.ask(it)[0])
            assert again["again"] and again["answer"] == answer
        assert reader.ask(by_name(reader.place, insert(2, "mia"))) == ['{"undecided":100}']
        assert json.loads(reader.ask(by_name(wire.place, insert(2, "mia")))[0])["undecided"] in (100, 103)  # (the leader's epoch is another one)
        equal(gate, [follower])


def test_nobody_is_let_in_without_its_keeper() -> None:
    with led(True) as (gate, _, (follower,)):
        reader = follower.enter("ann")
        follower.rest()
        assert reader.end() == 1013
        assert not comes_in(follower, "ann")
        gate.enter("ann").ask(insert(1, "ann"))
        follower.rests = False
        comes(follower)
        equal(gate, [follower])


def ends_with(followers: list[Follower], status: int, words: str) -> None:
    """Their keepers end so, and begin anew."""
    until(lambda: all(it.statuses[f"keeper {status}"] for it in followers), f"no keeper ends with {status}: {[it.said()[-500:] for it in followers]}")
    assert all(words in it.said() for it in followers), [it.said() for it in followers]
    for it in followers:
        it.statuses.clear()


@needs_viewd
def test_a_compacted_journal_is_told() -> None:
    """A gateway that has followed another journal does not go on with this one, whether its keeper was there meanwhile or not."""
    with led(False, True) as (gate, _, followers):
        wire = gate.enter("ann")
        for at in range(9):
            wire.ask(by_name(wire.place, insert(at, "ann")))
        equal(gate, followers)
        gate.kill()
        assert compacted(gate, "--rows", "1048576").returncode == 0
        ends_with(followers, 5, "is another file now: it was compacted")
        gate.start()
        equal(gate, followers)
        wire = gate.enter("ann")
        for at in range(9, 99):
            wire.ask(by_name(wire.place, insert(at, "mia")))
        equal(gate, followers)
        for words, told in (((), "is not what the gateway holds: it was compacted"), (("--copy",), "the gateway follows journal of epoch")):
            for it in followers:
                it.rest()
            gate.kill()
            assert compacted(gate, "--rows", "1048576", *words).returncode == 0
            gate.start()
            wire = gate.enter("ann")
            for at in range(100, 220):  # as many records as there were
                wire.ask(insert(at, "bob"))
            for it in followers:
                it.rests = False
            ends_with(followers, 5, told)
            equal(gate, followers)
        gate.kill()
        for it in followers:
            it.strike("keeper")
        for it in followers:
            until(functools.partial(it.statuses.__getitem__, "keeper -9"), "a keeper stays")
            comes(it)
        gate.start()
        equal(gate, followers)
        assert not any(it.statuses["keeper 5"] for it in followers), "a start needs no new journal"


def test_what_is_not_whole_is_not_shown() -> None:
    """The first line of a record of two, which a gateway that comes again cuts off; and another record stands there then. What was told once is not taken back."""
    with led(False, True) as (gate, _, followers):
        gate.enter("ann").ask(insert(1, "ann"))
        equal(gate, followers)
        whole = gate.journal.read_bytes()
        gate.kill()
        text = b'"at":1,"by":"","as":"ann",' + json.dumps(insert(2, "ann"), separators=(",", ":")).encode()[1:]
        digest = hashlib.sha256(bytes.fromhex(whole.split(b"\n")[-2][9:73].decode()) + b'{"part":"' + text).hexdigest().encode()
        with gate.journal.open("ab") as file:
            file.write(b'{"part":"%s",%s\n{"last":"01' % (digest, text))
        time.sleep(0.5)
        assert all((2, "ann") not in shown(it)["ann"] for it in followers)
        gate.start()
        gate.enter("ann").ask(insert(3, "ann"))
        equal(gate, followers)
        assert gate.journal.read_bytes().startswith(whole) and all(it.begins == 0 for it in followers)
        gate.kill()
        gate.journal.write_bytes(whole)
        ends_with(followers, 5, "has less than it had: its gateway took back")
        gate.start()
        gate.enter("ann").ask(insert(4, "ann"))
        equal(gate, followers)
        for it in followers:
            it.rest()
        gate.kill()
        gate.journal.write_bytes(whole)
        for it in followers:
            it.rests = False
        ends_with(followers, 5, "records, and the gateway holds")
        gate.start()
        equal(gate, followers)


def test_what_is_no_journal_is_not_followed() -> None:
    """Status and words of a keeper."""
    with led() as (gate, _, _):
        follower = Follower(gate, False)
        good = gate.journal.read_bytes()
        lines = good.split(b"\n")[:-1]
        for data, status, told in ((None, 1, "No such file"), (b"", 1, "no first line"), (b'{"as":"admin","do":"create_role","name":"a"}\n', 1, "line 1, at byte 0"),
                                    (good[:len(lines[0]) + 100] + b"x" + good[len(lines[0]) + 101:], 1, f"line 2, at byte {len(lines[0]) + 1}, is not what was written"),
                                    (b"\n".join([*lines[:3], *lines[4:], b""]), 1, "line 4"), (b"\n".join([*lines[:3], lines[3], lines[3], *lines[4:], b""]), 1, "line 5"),
                                    (chained([(True, b'"log":"journal","epoch":"%s","step":0}' % (b"0" * 32))], json.loads(b"{" + lines[0][75:])["epoch"].encode()), 1, "follows a log itself")):
            follower.leader = Gateway(start=False)
            if data is not None:
                follower.leader.journal.write_bytes(data)
            follower.launch()
            assert follower.process.wait(PATIENCE) == status, follower.said()
            assert told in follower.logs[-1].read_text(), (told, follower.logs[-1].read_text())
            follower.leader.end()
        wrong: list[list[Any]] = [[], [gate.journal], [gate.journal, "--port", "1"], [gate.journal, "--secret-file", gate.tokens], [gate.journal, "--port", "1", "--", "x"]]
        for some in wrong:
            assert subprocess.run([KEEPER, *some], capture_output=True).returncode == 2, some
        follower.end()


class Pair(Writer):
    """Each of its requests inserts two rows."""

    def request(self, row: Row) -> Line:
        request = insert(*row)
        request["entries"] += insert(row[0], "mia")["entries"]
        return request

    def hear(self, wire: Wire, row: Row, reply: Line, asked: list[Row]) -> None:
        super().hear(wire, row, reply, asked)
        time.sleep(0.03)  # those that follow are not to be far behind


class Followed(Trials):
    """The same with those that follow: leader, followers and their keepers are killed in turn."""

    roles = ("admin", *ROLES)

    def __init__(self, gate: Gateway, followers: list[Follower], readers: list[Reader], kills: int):
        super().__init__(gate, [Pair(gate, *it) for it in WRITERS], kills // 3)
        self.followers, self.readers, self.strikes = followers, readers, kills - kills // 3
        self.chronicle = Chronicle(gate)

    def kill(self, at: int) -> None:
        super().kill(at)
        for _ in range(self.strikes * (at + 1) // self.kills - self.strikes * at // self.kills):
            self.strike(self.dice.choice(self.followers), self.dice.choice(("keeper", "gateway")))

    def strike(self, follower: Follower, part: str) -> None:
        mine = [it for it in self.readers if it.gate is follower]
        before = sum(it.told for it in mine)
        self.wait(lambda: sum(it.told for it in mine) > before, f"nobody is told anything at a follower: {follower.said()[-1000:]}")
        time.sleep(self.dice.uniform(0, 0.3))
        self.counts[part] += follower.strike(part)

    def wait(self, holds: Callable[[], bool], what: str) -> None:
        super().wait(lambda: any(it.fault for it in self.readers) or holds(), what)

    def compact(self, *words: str) -> None:
        if not words:
            self.chronicle.read()
        super().compact(*words)
        if not words:
            self.chronicle.compacted()

    def restore(self) -> None:
        self.chronicle.read()
        super().restore()
        self.chronicle.restored()


def toggle(gate: Gateway, stop: threading.Event) -> None:
    """Gives and takes rights at the leader."""
    at = 0
    while not stop.is_set():
        with contextlib.suppress(Ended, OSError):
            admin = gate.enter("admin")
            while not stop.is_set():
                admin.ask(TOGGLES[at % len(TOGGLES)])
                at += 1
                stop.wait(0.05)
        stop.wait(0.05)


def left(readers: list[Reader], threads: list[threading.Thread]) -> bool:
    """Whether all have left that are told to."""
    for it in readers:
        it.leave()
    return not any(it.is_alive() for it in threads)


def test_kills_of_all_parts_show_no_state_that_was_not(kills: int) -> None:
    """Each request of the writers at the leader is done exactly once or told undecided; what each reader at each follower is told adds up, at each `settled`, to
    what its role sees of the leader after one of its records, never to one before that; and at the end rows, rights and shape are the leader's."""
    with led(False, True) as (gate, _, followers):
        readers = [Reader(it, role) for it in followers for role in ROLES]
        trials, stop = Followed(gate, followers, readers, kills), threading.Event()
        threads = [threading.Thread(target=it.run, args=(stop,), daemon=True) for it in readers] + [threading.Thread(target=toggle, args=(gate, stop), daemon=True)]
        for one in threads:
            one.start()
        try:
            trials.run()
            time.sleep(0.2)
        finally:
            stop.set()
            for it in readers:
                it.leave()
        threads[-1].join()
        equal(gate, followers)
        until(lambda: left(readers, threads), "a reader stays")
        assert not [it.fault for it in readers if it.fault], [it.fault for it in readers]
        trials.chronicle.read()
        there = rows(gate)
        trials.account({row: copies for row, copies in there.items() if row[1] == "ann"})
        assert {row[0] for row in there if row[1] == "mia"} == {row[0] for row in there if row[1] == "ann"}
        wrong = [it for reader in readers for it in trials.chronicle.wrong(reader)]
        events = sum(len(it) for reader in readers for it in reader.seen)
        print(f"  {trials.counts['gateway']} kills of followers and {trials.counts['keeper']} of keepers, {sum(it.begins for it in followers)} new beginnings: {events} settled events of "
              f"{sum(len(it.seen) for it in readers)} connections of {len(readers)} readers, {len(trials.chronicle.states['ann'])} states, {len(wrong)} wrong", flush=True)
        assert not wrong, wrong[:10]
        assert all(it.told for it in readers) and events > kills
        assert all(it.refusals for it in readers if it.role == "bob") or kills < 10
        for follower in followers:
            assert {status.split()[1] for status in follower.statuses} <= {"-9", "0", "4", "5"}, (follower.statuses, follower.said()[-1000:])
