#!/usr/bin/python3
"""Has gateways on several machines serve one log, a stream of Redis: one of them leads it, the others follow.

    frontend/redis_log.py redis://HOST:PORT/NAME -- ./gateway --journal COPY --tokens TOKENS --port 8081     starts that gateway, and ends with it
    frontend/redis_log.py redis://HOST:PORT/NAME --port PORT --secret-file FILE                             the gateway runs with --log PORT

What a gateway decides that leads is appended to the stream, and said to be kept then; what others have decided is brought to it. A keeper takes the lease once
that is free and its gateway has all steps on its disk, unless it has --follow. If the lease passes, or Redis is away for so long, the gateway ends with it.

Status 1 if Redis may lose what it is told, refuses, or has what is no log, or if a file is not usable or did not begin it, 2 if the words are wrong, 3 if no
gateway answers, 4 if it ends or says what none should, 5 if the log is not the one that it has followed, 6 if the lease has passed.
"""
import argparse
import collections
import itertools
import pathlib
import secrets
import signal
import sys
import time
from collections.abc import Callable, Iterator
from typing import TypeVar

import door
from door import Door, Ended, Gateway, Held, Kept
from journal import Damaged
from leader import Another, Leader
from redis_stream import PIECE, PIECES, Away, Log, Lost, Steps, Trimmed, Unfit, chain
from status import State, serve

BLOCK = 250  # milliseconds that it waits for a step, before it looks for the lease
AGAIN = 0.2  # seconds until a Redis that is away is asked again
SILENT = 12  # times as long as a lease, after which a gateway that says nothing does not lead
COMPARED = 100  # steps of which a gateway that comes is asked whether it holds them
SIZE, SOWN = 1 << 22, 64  # bytes that are appended at a time, and a step more; and steps of a journal: they have to get there within a lease
MOST_LINES, MOST_BYTES = 1_000_000, 200_000_000  # of a step that brings a snapshot: a gateway takes somewhat more

Answer = TypeVar("Answer")


def log(text: str) -> None:
    print(f"redis_log: {text}", file=sys.stderr, flush=True)


def pieces(lines: list[bytes], position: int) -> Iterator[tuple[int, int, list[bytes]]]:
    """The steps that bring a snapshot: a step has some lines and bytes at most, and nobody is let in before the last one. Raises Damaged."""
    if not lines:
        return
    cuts, size = [0], 0
    for at, line in enumerate(lines):
        size += len(line) + 1
        if size > MOST_BYTES or at - cuts[-1] == MOST_LINES:
            cuts.append(at)
            size = len(line) + 1
    if len(cuts) > min(position, PIECES):
        raise Damaged(f"a snapshot of step {position} has {len(lines)} lines")
    for number, at in enumerate(cuts, 1):
        is_last = number == len(cuts)
        yield number - 1, position if is_last else number, lines[at:None if is_last else cuts[number]]


class Keeper:
    """Brings a log to a gateway, or brings what that decides to the log."""

    def __init__(self, log: Log, door: Door, may_lead: bool, seed: Leader | None = None):
        self.log, self.door, self.may_lead, self.seed = log, door, may_lead, seed
        self.sown = seed.all() if seed else []  # all are read before it is known whether all names are told
        self.chain = [*itertools.accumulate(map(b"\n".join, self.sown), chain, initial=b"")]  # (it would take too long while a lease lasts)
        self.is_open = self.is_away = self.leads = False
        self.rows = 0  # of a table that the gateway can hold

    def state(self) -> State:
        return State(leads=self.leads, open=self.is_open, away=self.is_away, position=self.log.position, on_disk=self.door.on_disk)

    def ask(self, what: Callable[[], Answer]) -> Answer:
        """The answer of Redis, however long it is away; of a lease as long as that may last. Raises Ended, Lost."""
        while True:
            self.door.kept()
            try:
                found = what()
                self.is_away = False
                return found
            except Away as why:
                if self.log.lease and time.monotonic() > self.log.until:
                    raise Lost(f"{why}, and the lease has passed") from None
                if not self.is_away:
                    log(str(why))
                self.is_away = True
                time.sleep(AGAIN)

    def start(self) -> None:
        """Begins, or goes on behind what the gateway holds. Raises Another, Trimmed, Ended."""
        held = self.door.hello()
        while not self.ask(lambda: self.log.begun(self.new_epoch(held))):
            if held.log:
                raise Another(f"the gateway follows {held.log} of epoch {held.epoch}, and {self.log.where} has not begun")
            time.sleep(AGAIN)
        if self.seed and not self.seed.is_compacted and self.seed.epoch != self.log.epoch:
            raise Unfit(f"{self.log.where} was not begun with {self.seed.path}")
        self.rows = held.rows
        if self.rows < (rows := self.ask(self.log.rows)):
            raise Unfit(f"the gateway has --rows {self.rows}, and {self.log.where} was led by one with {rows}")
        if held.log:
            if (held.log, held.epoch) != (self.log.name, self.log.epoch):
                raise Another(f"the gateway follows {held.log} of epoch {held.epoch}, and {self.log.where} is of {self.log.epoch}")
            self.ask(lambda: self.log.stand(held.position))
            self.compare()
            self.door.go_on(held.log, held.epoch)
            log(f"goes on behind step {held.position}")
            return
        self.door.begin(self.log.name, self.log.epoch)
        lines = self.ask(self.log.snapshot)
        for start, end, some in pieces(lines, self.log.position):
            self.door.step(start, end, some)
        log(f"begins with {self.log.where}" + (f", by a snapshot of step {self.log.position}" if lines else ""))

    def new_epoch(self, held: Held) -> str:
        """Of a log that has none, if it may begin here: its journal's, unless names of that are not told, by which requests would be done again."""
        if held.log or not self.may_lead:
            return ""
        return self.seed.epoch if self.seed and not self.seed.is_compacted else secrets.token_hex(16)

    def compare(self) -> None:
        """What the gateway holds ends with the last steps: else the log has lost its end, and has another one by now."""
        wanted = [it for _, lines in self.ask(lambda: self.log.latest(COMPARED)) for it in lines if it.startswith(b'{"as":')]
        if wanted and [*collections.deque(self.door.recall(), len(wanted))] != wanted:
            raise Another(f"step {self.log.position} of {self.log.where} and those before it are not what the gateway holds")

    def bring(self, steps: Steps) -> None:
        for position, lines in steps:
            self.door.step(position - 1, position, lines)
        if steps:
            self.door.flush()

    def show(self) -> None:
        if not self.is_open:
            self.is_open = True
            self.door.open(True)
            log(f"open, behind step {self.door.kept()}")

    def run(self) -> None:
        """Raises Another, Damaged, Ended, Lost, Trimmed, Unfit."""
        self.start()
        goal = self.ask(self.log.last)
        while True:
            if text := self.door.hear(0):
                raise Ended(f"the gateway does not lead, and says {text[:200]!r}")
            steps = self.ask(lambda: self.log.more(BLOCK))
            self.bring(steps)
            self.door.flush()
            if (kept := self.has()) >= goal:
                self.show()
            if self.may_lead and not steps and kept == self.log.position and self.ask(self.log.take):
                self.lead()

    def lead(self) -> None:
        """The log ends where it was read to once no step comes: nobody else adds one."""
        while steps := self.ask(self.log.more):
            self.bring(steps)
        self.sow()
        self.ask(lambda: self.log.set_rows(self.rows))
        self.door.lead()
        pause, asked = self.log.seconds / 4, time.monotonic()
        while not (said := self.door.hear(pause)):
            self.renew(asked)
        if said != b'{"leads":%d}' % self.log.position:
            raise Ended(f"the gateway is to lead behind step {self.log.position}, and says {said[:200]!r}")
        log(f"leads behind step {self.log.position}, by the lease {self.log.lease.decode()}")
        self.show()
        self.leads, renewed, asked = True, time.monotonic(), time.monotonic()
        self.door.has(self.log.position)  # it answers, so that it is known to live
        while True:
            if decided := self.door.decided(self.log.position, pause, PIECE, SIZE):
                self.ask(lambda: self.log.append(decided))
                self.door.has(self.log.position)
            self.has()
            if (now := time.monotonic()) > renewed + pause:
                if self.door.heard > asked:
                    asked = now
                    self.door.has(self.log.position)
                self.renew(asked)
                renewed = now

    def has(self) -> int:
        """Up to which step the gateway has it on its disk. Raises Ended."""
        if (kept := self.door.kept()) > self.log.position:
            raise Ended(f"the gateway was brought step {self.log.position}, and says that it has {kept}")
        return kept

    def renew(self, asked: float) -> None:
        """While the gateway answers what it was asked then."""
        if (silent := time.monotonic() - asked) > SILENT * self.log.seconds:
            raise Lost(f"the gateway has said nothing for {silent:.0f} seconds, so its lease is given back")
        self.ask(self.log.renew)

    def sow(self) -> None:
        """A log begins with its journal, or goes on with that if not all is there. Raises Unfit if it was begun otherwise."""
        if not self.seed:
            return
        last = min(self.log.position, len(self.sown))
        there = self.log.digest if last == self.log.position else self.ask(lambda: self.log.digest_of(last))
        if there not in (self.chain[last], b""):  # a snapshot may have that step alone
            raise Unfit(f"{self.log.where} was not begun with {self.seed.path}: step {last} is another")
        while some := self.sown[self.log.position:self.log.position + SOWN]:
            start = self.log.position
            self.ask(lambda: self.log.append(some))
            self.bring([*enumerate(some, start + 1)])


def keep(given: argparse.Namespace, gateway: Gateway) -> None:
    """Until something ends. A gateway that is too far behind begins anew. Raises what `Keeper.run` raises, OSError, and Kept."""
    keepers = list[Keeper]()
    while True:
        seed = Leader(given.seed, True) if given.seed else None
        if seed and not seed.head():
            raise Damaged(f"{given.seed} has no first line of a journal")
        stream = Log(given.log, given.lease)
        keepers.append(Keeper(stream, gateway.door, not given.follow, seed))
        if given.status and len(keepers) == 1:
            serve(given.status, lambda: keepers[-1].state())
        try:
            keepers[-1].run()
        except Trimmed as why:
            log(str(why))
            gateway.anew()
            log("the gateway begins anew")
        finally:
            stream.release()


def main(given: argparse.Namespace) -> int:
    try:
        gateway = door.gateway(given.gateway, given.port, given.secret_file)
    except OSError as why:
        log(f"no gateway: {why}")
        return 3
    status = 4
    try:
        keep(given, gateway)
    except Ended as why:
        log(str(why))
    except (Damaged, Unfit, OSError) as why:
        log(str(why))
        status = 1
    except Kept as why:
        log(str(why))
        status = 5
    except Another as why:
        log(f"{why}: the gateway needs a new journal file")
        status = 5
    except Lost as why:
        log(str(why))
        status = 6
    finally:
        gateway.close()
    return status


def words() -> argparse.Namespace:
    parser = argparse.ArgumentParser(description=__doc__, formatter_class=argparse.RawDescriptionHelpFormatter)
    parser.add_argument("--follow", action="store_true", help="its gateway never leads")
    parser.add_argument("--lease", type=float, default=5.0, metavar="SECONDS", help="without a sign of who leads, after which another one may (5)")
    parser.add_argument("--seed", type=pathlib.Path, help="a journal, with which a log begins that has nothing yet, at the first start, of one keeper alone;"
                        " one of a gateway that has followed a log that is lost, too")
    parser.add_argument("--status", type=int, metavar="PORT", help="of 127.0.0.1, where /state tells how far it is, and /leads is 200 if its gateway leads")
    parser.add_argument("--port", type=int, help="where the gateway listens for its keeper")
    parser.add_argument("--secret-file", type=pathlib.Path, help="the file that the gateway has, too")
    parser.add_argument("log", metavar="LOG", help="redis://[USER:PASSWORD@]HOST:PORT/NAME; the password may be in REDISCLI_AUTH")
    parser.add_argument("gateway", metavar="GATEWAY", nargs="*", help="a gateway and its words, behind --")
    given = parser.parse_args()
    if bool(given.gateway) == bool(given.port) or bool(given.port) != bool(given.secret_file):
        parser.error("give a gateway behind --, or --port and --secret-file")
    if not given.lease >= 0.1 or given.follow and given.seed:
        parser.error("a lease has 0.1 seconds or more, and who follows begins nothing")
    try:
        Log(given.log)
    except ValueError as why:
        parser.error(str(why))
    except Unfit as why:
        sys.exit(f"redis_log: {why}")
    return given


if __name__ == "__main__":
    signal.signal(signal.SIGTERM, lambda *_: sys.exit(143))  # so that it gives its lease back
    try:
        sys.exit(main(words()))
    except KeyboardInterrupt:
        sys.exit(130)
