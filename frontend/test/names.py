"""Requests with names, and writers who send each of theirs again by its name until it is answered, while their gateway is killed and its journal torn, compacted
and put back."""
import collections
import contextlib
import json
import random
import secrets
import threading
import time
from collections.abc import Callable, Iterator
from typing import Any

from model import text_of
from test_journal import compacted, has_viewd, inserted
from trial import insert, serving, total, until
from wire import Ended, Gateway, Line, Wire, digest

MOST = 64  # names of a holder that are kept, and that it may have refused within a minute
GONE: Line = {"do": "write", "entries": [{"on": "notes", "delete": [-1, "nobody"]}]}  # is refused
WRITERS = (("mia 1", 0), ("mia 1", 1), ("mia 2", 2), ("ann", 3))  # tokens, and what their rows begin with
HOLDERS = {"mia 1": "Mia", "mia 2": "Mia", "ann": "Ann"}  # of tokens of the role mia


def token_line(token: str, holder: str) -> str:
    return f'"{digest(token)}" = {{ role = "mia", holder = "{holder}" }}'


@contextlib.contextmanager
def holding() -> Iterator[Gateway]:
    """A gateway with tokens of two holders, one of whom has two."""
    with serving() as (gate, _):
        gate.know("admin", "ann", lines=tuple(token_line(*it) for it in HOLDERS.items()))
        until(lambda: all(gate.knock(it).role == "mia" for it in HOLDERS), "a token with a holder opens nothing")
        yield gate


def by_name(place: str, request: Line, name: str | None = None, id: int | None = None) -> str:
    """A message by a name, of the form that the protocol has."""
    front = "" if id is None else f'"id":{id},'
    return f'{{{front}"once":"{name or secrets.token_urlsafe(16)}","at":"{place}",{text_of(request)[1:]}'


def answer(wire: Wire, message: str) -> Line:
    """The reply to a message."""
    first, *_ = wire.ask(message)
    reply: Line = json.loads(first)
    wire.place = reply.get("at", wire.place)
    return reply


def place_of(place: str) -> tuple[str, int]:
    epoch, _, count = place.partition(".")
    return epoch, int(count)


def rows(gate: Gateway) -> dict[Any, int]:
    """The rows that are there, with how many copies."""
    wire = gate.enter("ann")
    found = total(wire.ask({"do": "subscribe", "on": "notes"}))
    wire.shut()
    return found


Row = tuple[Any, ...]


class Writer:
    """Sends each request by the same name, place and bytes until it is answered, over lost connections. What it sent once, and is told that it came too late, was
    not carried out: it comes anew, and sends it by another name."""

    def __init__(self, gate: Gateway, token: str, number: int):
        self.gate, self.token, self.number, self.at = gate, token, number, 0
        self.came = ""  # the token by which it came in last
        self.open: dict[Row, str] = {}  # of each row the message that has no answer: none if it is to have another name
        self.times = collections.Counter[Row]()  # how often that was sent
        self.done, self.refused = set[Row](), set[Row]()
        self.undecided: dict[Row, int] = {}
        self.sent = self.again = self.late = 0
        self.fault: Exception | None = None

    def run(self, stop: threading.Event) -> None:
        try:
            while not (stop.is_set() and not self.open):
                with contextlib.suppress(Ended, OSError):
                    self.serve(stop)
                time.sleep(0.02)
        except Exception as why:
            self.fault = why
            raise

    def serve(self, stop: threading.Event) -> None:
        token = self.token
        wire = self.gate.knock(token)
        if wire.role is None:  # it was renewed, and is not known yet
            raise Ended(wire.code)
        self.came, late = token, self.late
        asked = [*self.open]
        for row in asked:
            self.say(wire, row)
        while asked or not stop.is_set():
            while len(asked) < 6 and not stop.is_set() and late == self.late:
                self.at += 1
                asked.append((self.number * 10_000_000 + self.at, "ann"))
                self.open[asked[-1]] = ""
                self.say(wire, asked[-1])
            if not asked:
                break
            row = asked.pop(0)
            reply = json.loads(next(it for it in wire.event() if '"answer"' in it or '"undecided"' in it))
            wire.place = reply.get("at", wire.place)
            self.hear(wire, row, reply, asked)
        wire.shut()

    def request(self, row: Row) -> Line:
        return insert(*row)

    def say(self, wire: Wire, row: Row) -> None:
        if not self.open[row]:
            request = self.request(row)
            if row[0] % 40 == 0:  # it is refused whole
                request["entries"] += GONE["entries"]
            self.open[row], self.times[row] = by_name(wire.place, request), 0  # it is kept before it is sent
        self.times[row] += 1
        self.sent += 1
        wire.say(self.open[row])

    def hear(self, wire: Wire, row: Row, reply: Line, asked: list[Row]) -> None:
        self.again += "again" in reply
        if reply.get("undecided") == 104:
            self.times[row] -= 1
            self.say(wire, row)
            asked.append(row)
        elif reply.get("undecided") == 102 and self.times[row] == 1:
            self.late += 1
            self.open[row] = ""
        else:
            if "undecided" in reply:
                self.undecided[row] = reply["undecided"]
            else:
                (self.done if "ok" in reply["answer"] else self.refused).add(row)
            del self.open[row]


class Trials:
    """What becomes of a gateway under writers: it is killed, its journal is torn, compacted, and once that of before stands in its place; tokens are renewed."""

    roles: tuple[str, ...] = ("admin", "ann")  # that have a token without a holder

    def __init__(self, gate: Gateway, writers: list[Writer], kills: int):
        self.gate, self.writers, self.kills, self.dice = gate, writers, kills, random.Random(6)
        self.kept = b""  # a copy of the journal
        self.lost = set[Row]()  # what the journal had more that went
        self.counts = collections.Counter[str]()

    def answered(self) -> int:
        return sum(len(it.done) for it in self.writers)

    def wait(self, holds: Callable[[], bool], what: str) -> None:
        until(lambda: any(it.fault for it in self.writers) or holds(), what)

    def kill(self, at: int) -> None:
        if at % 3 == 1:
            self.renew()
        before = self.answered()
        self.wait(lambda: self.answered() > before, "nothing is answered")
        time.sleep(self.dice.uniform(0, 0.3))
        self.gate.kill()
        if at % 4 == 3:  # half a line stands behind what is whole
            self.counts["torn"] += 1
            with self.gate.journal.open("ab") as file:
                file.write(b'{"part":"12ab12ab12ab12ab12ab'[:self.dice.randrange(1, 28)])
        if at == 2 * self.kills // 5:
            self.kept = self.gate.journal.read_bytes()
        if at == 3 * self.kills // 5 and has_viewd():
            self.restore()
        elif at % 10 == 9 and has_viewd():
            self.compact()
        self.gate.start()

    def compact(self, *words: str) -> None:
        self.counts["compacted"] += 1
        done = compacted(self.gate, "--rows", "1048576", *words)
        assert done.returncode == 0, done.stderr

    def restore(self) -> None:
        """The copy goes on in the place of the journal, under another epoch."""
        self.lost = inserted(self.gate.journal.read_bytes()) - inserted(self.kept)
        self.counts["lost"] = len(self.lost)
        self.gate.journal.write_bytes(self.kept)
        self.compact("--copy")

    def renew(self) -> None:
        """The third writer has another token of the same holder from now on, and the one before opens nothing."""
        self.counts["renewed"] += 1
        self.writers[2].token = f"mia 2 {self.counts['renewed']}"
        holders = {self.writers[0].token: "Mia", self.writers[2].token: "Mia", self.writers[3].token: "Ann"}
        self.gate.know(*self.roles, lines=tuple(token_line(*it) for it in holders.items()))
        self.wait(lambda: self.writers[2].came == self.writers[2].token, "a renewed token opens nothing")

    def run(self) -> None:
        """Kills until all are done, and ends the writers."""
        stop = threading.Event()
        threads = [threading.Thread(target=it.run, args=(stop,), daemon=True) for it in self.writers]
        for thread in threads:
            thread.start()
        try:
            for at in range(self.kills):
                self.kill(at)
        finally:
            stop.set()
        for thread in threads:
            thread.join()
        assert not [it.fault for it in self.writers if it.fault], [it.fault for it in self.writers]

    def account(self, there: dict[Row, int]) -> None:
        """What was told is what is there, each once."""
        writers, lost = self.writers, self.lost
        done, refused = (set[Row]().union(*(getattr(it, key) for it in writers)) for key in ("done", "refused"))
        undecided = {row: number for it in writers for row, number in it.undecided.items()}
        twice = {row for row, copies in there.items() if copies != 1}
        gone, come = done - lost - set(there), set(there) - (done - lost) - set(undecided)
        wrong = twice | gone | come | refused & set(there) | lost & set(there)
        numbers = collections.Counter(undecided.values())
        print(f"  {self.kills} kills ({self.counts['torn']} with a torn end, {self.counts['compacted']} compactions, {self.counts['renewed']} renewed tokens): "
              f"{sum(it.sent for it in writers)} messages of {sum(it.at for it in writers)} requests, {sum(it.again for it in writers)} told again, "
              f"{sum(it.late for it in writers)} sent by another name; "
              f"{len((done - lost) & set(there))} done exactly once, {len(refused)} refused, {numbers[102]} told 102, {numbers[103]} told 103, "
              f"{len(done & lost)} done in the journal that went, {len(wrong)} wrong", flush=True)
        assert not wrong, [*wrong][:10]
        assert sum(it.at for it in writers) == len(done) + len(refused) + len(undecided)
        assert set(numbers) <= {102, 103} and (not lost or numbers[103])
        assert set(writers[3].undecided.values()) <= {103}, "of a holder whose names are all its own nothing is too old"
