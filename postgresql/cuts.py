"""Cuts: moments of PostgreSQL, each with the rows and the rights that one snapshot saw together.

Logical replication has rows in the order of their commits, and no rights. A catalog has rights, and no order. A cut ties them: one
statement, and so one snapshot, answers which transactions it sees, a place in the log after all of them, and the mark of the catalog. The
stream is read to that place; exactly the transactions that the snapshot sees are a step, with the catalog of the same snapshot where its mark
is another one. So a right that came and went between two cuts shows no row that was there meanwhile.
"""
import time
from collections import deque
from collections.abc import Callable
from typing import NamedTuple

import psycopg2

from catalog import MARK, TRIES, Catalog, Connection, Unsettled, asked, connect, printed_as, within
from pgoutput import lsn_of
from stream import OWN, Lost, Place, Stream, Transaction

CUT = f"select pg_current_snapshot()::text, pg_current_wal_insert_lsn()::text, ({MARK})"
PUSH = 0.002  # seconds, after which a commit of this side's own brings the log to the disk, and so to the stream
PATIENCE = 0.05  # seconds between two looks at a stream that is late
PIECE = 5_000  # messages that are taken at a time
LOOK = 0.1  # seconds between two looks at the rights of now, while rows are late
SPARE = 1 << 24  # bytes that others write, behind which a commit of this side's own lets the server forget them
GONE = "the last transaction that was told is not in the log: it is the log of a copy of the database, say"
ALL, HALF = 1 << 32, 1 << 31  # numbers of transactions in the stream have 32 bits


class Cut(NamedTuple):
    """What a snapshot sees."""

    most: int  # no transaction from here on
    running: frozenset[int]  # nor these
    place: int  # all commits that are seen stand before it
    mark: str

    def sees(self, xid: int) -> bool:
        """Of a transaction that has committed, by the lower 32 bits of its number."""
        whole = self.most - self.most % ALL + xid
        if whole >= self.most + HALF:
            whole -= ALL
        elif whole < self.most - HALF:
            whole += ALL
        return whole < self.most and whole not in self.running


def cut(connection: Connection, oids: list[int], publication: str) -> Cut:
    """Of the transaction's snapshot, or of a new one if none is open."""
    return cut_of(*asked(connection, CUT, {"oids": oids, "publication": publication})[0])


def cut_of(snapshot: str, place: str, mark: str) -> Cut:
    _, most, running = snapshot.split(":")
    return Cut(int(most), frozenset(int(it) for it in running.split(",") if it), lsn_of(place), mark)


class Step(NamedTuple):
    """From one cut to the next."""

    transactions: list[Transaction]
    cut: Cut
    catalog: Catalog | None  # none if it is what it was
    certain: int  # all rows of commits before it are told by then


class Steps:
    """The cuts of a database, one after another."""

    def __init__(self, connection: Connection, dsn: str, stream: Stream, oids: list[int], publication: str, told: Cut | None, place: Place,
                 is_known: bool = False):
        self.connection, self.stream, self.oids, self.publication = connection, stream, oids, publication
        self.told = told  # the last one that was told: all that it sees, rows and rights; none behind a start; without a mark: rights may come
        self.place = place  # of the last transaction that was told
        self.certain = place.end  # all rows of commits before it were told
        self.known = place if is_known and place.commit else None  # a transaction that has to come again
        self.last = place.end  # the place of the last cut
        self.late: Callable[[], None] = lambda: None  # is called again and again while rows are late
        self.asked = time.monotonic()  # when there was a cut
        self.newer: str | None = None  # the mark of a later cut than that of the step, by which rights were taken
        self.waiting: deque[Transaction] = deque()
        self.names = ""  # by which the texts of policies and views are printed
        self.texts: dict[str, str] = {}  # that are known, so that none waits for somebody's lock
        self.quick = connect(dsn)  # each of its statements is a transaction: to plan CUT takes longer than to answer it
        self.quick.set_session(isolation_level="READ COMMITTED", readonly=False, autocommit=True)
        with self.quick.cursor() as cursor:
            cursor.execute(f"prepare cut as {CUT}", {"oids": oids, "publication": publication})

    def next(self, seconds: float) -> Step | None:
        """The next step: none if nothing has changed, or what has cannot be told from what is not seen yet. Waits so long for something
        to come. Raises Lost, Unreadable, Unsettled, psycopg2.Error."""
        self.take()
        if not self.waiting:
            self.stream.wait(seconds)
            self.take()
        found, catalog = self.ask(self.told.mark if self.told else "")
        self.last, self.newer = found.place, None
        if catalog is None and not self.waiting:
            self.certain = max(self.certain, min(self.stream.reached, found.place))
            if found.place - self.place.end > SPARE:
                self.push()
            return None
        self.come_to(found.place)
        if self.known:
            raise Lost(GONE)
        seen = [number for number, it in enumerate(self.waiting, 1) if found.sees(it.xid)]
        count = seen[-1] if seen else 0
        if len(seen) < count:  # one that committed before another is seen after it, for a moment, or for as long as a standby is away
            self.asked -= LOOK
            self.late()
            return None
        transactions = [self.waiting.popleft() for _ in range(count)]
        if transactions:
            last = transactions[-1]
            self.place = Place(last.commit, last.end, last.xid)
        step = Step(transactions, found, catalog, max(self.certain, self.place.end if self.waiting else found.place))
        if transactions or catalog:
            return step
        self.done(step)
        return None

    def done(self, step: Step) -> None:
        """It is told."""
        is_whole = self.newer is None or step.catalog and self.is_newest(step)
        self.told, self.certain = step.cut if is_whole else step.cut._replace(mark=""), step.certain

    def is_newest(self, step: Step) -> bool:
        """No later cut has other rights. If one has, nothing is given: it may have been taken."""
        return self.newer in (None, step.cut.mark)

    def take(self) -> None:
        """What has come."""
        more = True
        while more:
            came, more = self.stream.take(PIECE)
            for it in came:
                if self.known:
                    self.recognize(it, self.known)
                if it.end > self.place.end:
                    self.waiting.append(it)
            if more:
                self.late()

    def recognize(self, it: Transaction, known: Place) -> None:
        """The server was told of no more than the beginning of the last commit, so that one comes again."""
        if (it.commit, it.end, it.xid) == known:
            self.known = None
        elif it.end >= known.end:
            raise Lost(GONE)

    def look(self) -> Catalog | None:
        """While rows are late: the catalog of now, if there is another one. What it takes is told before them."""
        if self.told is None or time.monotonic() - self.asked < LOOK:
            return None
        try:
            found, catalog = self.ask(self.told.mark if self.newer is None else self.newer)
        except (Unsettled, psycopg2.Error):  # the next step meets it too
            return None
        if catalog:
            self.told, self.newer = self.told._replace(mark=""), found.mark
        return catalog

    def ask(self, known: str = "") -> tuple[Cut, Catalog | None]:
        """A cut, with its catalog if the mark is another one."""
        try:
            if known and (found := cut_of(*asked(self.quick, "execute cut")[0])).mark == known:
                return found, None
            for _ in range(TRIES):
                self.connection.rollback()
                found = cut(self.connection, self.oids, self.publication)
                if found.mark == known:
                    return found, None
                names = printed_as(self.connection, self.oids)
                if names != self.names:
                    self.names, self.texts = names, {}
                catalog = within(self.connection, self.oids, self.publication, self.texts)
                self.connection.rollback()
                if printed_as(self.connection, self.oids) == names:
                    return found, catalog
                self.names = ""
            raise Unsettled("the names of relations and columns change faster than they can be read")
        finally:
            self.asked = time.monotonic()
            self.connection.rollback()

    def come_to(self, place: int) -> None:
        """Reads the stream until it has all commits before the place. PostgreSQL sends what is on its disk, and what it shows may not
        be there yet: a commit of this side's own brings it there."""
        began, pushed = time.monotonic(), False
        while not self.stream.has(place):
            if self.stream.connection.closed:
                raise psycopg2.OperationalError("the stream has ended")
            if not pushed and time.monotonic() - began > PUSH:
                self.push()
                pushed = True
            self.late()
            self.stream.wait(PATIENCE if pushed else PUSH)
            self.take()

    def push(self) -> None:
        """A transaction that says nothing, and comes as others do."""
        with self.quick.cursor() as cursor:
            cursor.execute("select pg_logical_emit_message(true, %s, '')", [OWN])

    def confirm(self, place: Place) -> None:
        """The steps up to this place are kept."""
        if place.commit:  # psycopg2 takes the slot's own beginning for all that came
            self.stream.confirm(place.commit)

    def close(self) -> None:
        self.quick.close()
