"""The program that follows: it brings a gateway one state of PostgreSQL after another, through the door for logs.

It keeps nothing. From where it goes on is what the gateway has on its disk, and PostgreSQL is told no more than that.
"""
import json
import secrets
import sys
import time
from collections import deque
from collections.abc import Iterable, Iterator
from typing import NamedTuple

import psycopg2
import psycopg2.errors

from beginning import NotReady, Progress
from catalog import Unsettled
from door import Gateway
from figures import Figures
from following import Anew, Following
from pgoutput import Unreadable, lsn_text
from prepare import printable
from rows import Request, Write, line
from settings import Settings
from stream import Lost, Place

WAIT = 0.1  # seconds between two cuts if nothing comes
AHEAD = 4  # steps that are said before the first of them is on the gateway's disk
AGAIN = 1.0  # seconds between two looks for a PostgreSQL that is away
WORD = 5.0  # seconds between two words of progress
ADMIN = '"as":"admin"'  # makes what is told
LINES, BYTES = 500_000, 128_000_000  # of a step: a gateway takes twice as many


class Said(NamedTuple):
    """A step that the gateway may not have on its disk."""

    number: int
    place: Place
    certain: int  # all rows of commits before it are told by then


def log(text: str) -> None:
    print(f"viewd-postgresql: {printable(text)}", file=sys.stderr, flush=True)


def is_away(why: psycopg2.Error) -> bool:
    """Of a stream that has ended psycopg2 says no more than that something is wrong."""
    return isinstance(why, (psycopg2.OperationalError, psycopg2.InterfaceError)) or type(why) is psycopg2.DatabaseError


def words() -> Progress:
    """Tells of a first copy now and then."""
    last = time.monotonic()

    def progress(name: str, rows: int) -> None:
        nonlocal last
        if time.monotonic() - last > WORD:
            last = time.monotonic()
            log(f"{name}: {rows:,} rows are read")
    return progress


def requests(lines: Iterable[bytes]) -> Iterator[Request]:
    """What a gateway holds, without the role that made it."""
    for it in lines:
        one: Request = json.loads(it)
        del one["as"]
        yield one


class Follow:
    def __init__(self, settings: Settings, gateway: Gateway):
        self.settings, self.gateway = settings, gateway
        self.following: Following | None = None
        self.waiting: deque[Said] = deque()
        self.certain = 0  # all rows of commits before it are on the gateway's disk, or in the first copy
        self.is_away = False
        self.left = 0  # bytes of the log that are not there
        self.level = self.told = time.monotonic()  # when the gateway had all that was known of, and when it was said that it has not
        self.beginnings = 0
        self.left_out = dict[str, str]()
        self.meet()

    def meet(self) -> None:
        """A gateway that was not there before."""
        self.door = self.gateway.door
        self.held = self.door.hello()
        self.number = self.held.position  # of the last step that was said
        self.open = False

    def run(self) -> None:
        """Follows until the gateway ends. Raises Ended, Kept, NotReady, Wrong, Unsayable; psycopg2.Error if PostgreSQL was never reached."""
        self.start()
        while True:
            try:
                self.door.kept()
                if self.following is None:
                    self.begin()
                elif self.is_away:
                    self.back(self.following)
                else:
                    self.step(self.following)
            except (Anew, Lost, Unreadable) as why:
                self.anew(str(why))
            except Unsettled as why:
                log(str(why))
            except psycopg2.Error as why:
                if self.number == 0 or not is_away(why):
                    raise
                self.away(" ".join(str(why).split()))

    def figures(self) -> Figures:
        """As they are now: another thread asks."""
        is_behind = bool(self.left or self.is_away or not self.following)
        return Figures(self.open, self.is_away, self.left, time.monotonic() - self.level if is_behind else 0.0, self.number, self.beginnings, self.left_out)

    def start(self) -> None:
        """Goes on from what the gateway holds, if that can be."""
        if not self.held.log:
            return
        try:
            self.following = Following.resumed(self.settings, self.held.rows, self.held.log, requests(self.door.recall()))
        except (Anew, Lost, Unreadable) as why:
            self.anew(str(why))
            return
        self.certain = self.following.begun.steps.certain
        self.door.go_on(self.held.log, self.held.epoch)
        self.left_out = dict(self.following.state.left_out())
        log(f"goes on behind step {self.number}")

    def begin(self) -> None:
        try:
            self.following = Following.anew(self.settings, self.held.rows, words())
        except psycopg2.errors.LockNotAvailable as why:  # somebody holds a table, for a while
            raise Unsettled(" ".join(str(why).split())) from None
        except Lost as why:  # no further beginning mends it
            raise NotReady(str(why)) from None
        self.waiting.clear()
        self.certain = self.following.begun.steps.certain
        self.is_away = False
        self.door.begin(self.following.begun.log, secrets.token_hex(16))
        self.first(self.following)
        rows = sum(it.rows.total() for it in self.following.begun.mirror.tables.values())
        self.beginnings += 1
        log(f"began with {rows:,} rows at {lsn_text(self.following.source.place.end)}")
        self.left_out = dict(self.following.state.left_out())
        for name, fault in self.left_out.items():
            log(f"{name} is left out: {fault}")
        self.serve()

    def first(self, following: Following) -> None:
        """The beginning, in as many steps as it needs: nobody is let in before the last, which alone says where it is from."""
        lines, size = list[bytes](), 0
        for it in following.first():
            lines.append(line(ADMIN, it).encode())
            size += len(lines[-1])
            if len(lines) == LINES or size > BYTES:
                self.tell(lines)
                lines, size = [], 0
        self.say(following, lines)

    def step(self, following: Following) -> None:
        self.keep(following)
        if len(self.waiting) >= AHEAD:
            self.door.wait(self.waiting[0].number, WAIT)
            return
        steps = following.begun.steps
        known = steps.told
        steps.late = lambda: self.late(following)
        self.changes(following, following.next(WAIT))
        if known is None and steps.told:  # what was told before it was of another moment
            self.serve()
        self.late(following)

    def changes(self, following: Following, found: list[Request | Write]) -> None:
        """A step of these, if there are any. Raises Anew."""
        lines = [line(ADMIN, it).encode() for it in found]
        if len(lines) > LINES or sum(map(len, lines)) > BYTES:
            raise Anew(f"a transaction of {len(lines):,} requests is more than a step may have")
        if lines:
            self.say(following, lines)

    def tell(self, lines: list[bytes]) -> None:
        self.number += 1
        self.door.step(self.number - 1, self.number, lines)
        self.door.flush()

    def say(self, following: Following, lines: list[bytes]) -> None:
        self.tell(lines)
        self.waiting.append(Said(self.number, following.source.place, following.begun.steps.certain))

    def keep(self, following: Following) -> None:
        """PostgreSQL hears of what is on the gateway's disk, and of nothing else."""
        kept = self.door.kept()
        done: Said | None = None
        while self.waiting and self.waiting[0].number <= kept:
            done = self.waiting.popleft()
        if done:
            self.certain = done.certain
            following.kept(done.place)

    def serve(self) -> None:
        if not self.open:
            self.open = True
            self.door.open(True)

    def shut(self, why: str) -> None:
        log(why)
        if self.open:
            self.open = False
            self.door.open(False)

    def anew(self, why: str) -> None:
        """By another gateway: this one goes on from what it holds, or not at all. Raises Kept."""
        self.shut(f"begins anew: {why}")
        if self.following:
            self.following.close()
        self.following, self.is_away = None, False
        if self.held.log or self.number:
            self.gateway.anew()
            self.meet()

    def away(self, why: str) -> None:
        """Who may see what is not known until PostgreSQL is back."""
        if not self.is_away:
            self.shut(f"PostgreSQL is away: {why}")
        self.is_away = True
        self.door.kept()
        time.sleep(AGAIN)

    def back(self, following: Following) -> None:
        self.following = following.again()
        self.is_away = False
        log("PostgreSQL is back")

    def late(self, following: Following) -> None:
        """Tells what is taken of the rights, and says by how much the gateway is behind, while it is for long."""
        self.keep(following)
        self.changes(following, following.less())
        steps, now = following.begun.steps, time.monotonic()
        if not self.waiting:
            self.certain = steps.certain
        self.left = max(0, steps.last - self.certain)
        if not self.left:
            self.level = now
        elif now - max(self.level, self.told) > WORD:
            self.told = now
            log(f"{self.left:,} bytes behind, for {now - self.level:.0f} seconds")
