"""A replication slot that is read: whole transactions, in the order of their commits.

Nothing is kept on the server but the slot. psycopg2 speaks the replication protocol around the messages that `pgoutput` has; it answers
the server by itself that all has been taken as soon as it was told so of all that came. So it is told of the beginning of a commit and
never of its end, and the slot knows of no more than whoever reads has kept.
"""
import dataclasses
import re
import select
from types import TracebackType
from typing import Any, NamedTuple

import psycopg2
import psycopg2.errors
import psycopg2.extras

import pgoutput
from catalog import PRINTING, SETTINGS
from pgoutput import Cells, Old, Unreadable, lsn_of, lsn_text

OWN = "viewd"  # the prefix of messages of this side's own
STATUS = 10  # seconds between two messages to the server that say how far this side is
PAGE, HEAD = 8_192, 40  # bytes of a page of the log, and the most of them that are its head


class Lost(Exception):
    """What follows cannot be known from here: all has to be read anew. The text says why."""


class Change(NamedTuple):
    """A row that comes, one that goes, or both. None of both: all rows of the relation go."""

    relation: pgoutput.Relation
    old: Old | None = None
    new: Cells | None = None
    updates: bool = False  # a row goes also where `old` is none: that with the key of the new one

    def truncates(self) -> bool:
        return self.old is None and self.new is None


@dataclasses.dataclass
class Transaction:
    xid: int  # the lower 32 bits of its number
    commit: int  # where its commit stands
    end: int  # the place after it
    changes: list[Change]


class Place(NamedTuple):
    """The last transaction that was told."""

    commit: int  # where its commit is; 0: none was told behind the slot
    end: int  # behind it
    xid: int = 0  # the lower 32 bits of its number

    def again(self) -> int:
        """From here on the server has to send what was not told, and that transaction once more."""
        return self.commit or self.end


class Transactions:
    """Puts messages together to transactions."""

    def __init__(self) -> None:
        self.relations: dict[int, pgoutput.Relation] = {}
        self.open: Transaction | None = None

    def add(self, data: bytes) -> Transaction | None:
        """A transaction, if this message ends one. Raises Unreadable."""
        message = pgoutput.decoded(data)
        match message:
            case pgoutput.Insert():
                self.opened().changes.append(Change(self.relation(message.oid), None, message.new))
            case pgoutput.Update():
                self.opened().changes.append(Change(self.relation(message.oid), message.old, message.new, True))
            case pgoutput.Delete():
                self.opened().changes.append(Change(self.relation(message.oid), message.old))
            case pgoutput.Truncate():
                self.opened().changes += [Change(self.relation(oid)) for oid in message.oids]
            case pgoutput.Relation():
                self.relations[message.oid] = message
            case pgoutput.Begin(final, _, xid):
                if self.open:
                    raise Unreadable("a transaction begins within another one")
                self.open = Transaction(xid, final, final, [])
            case pgoutput.Commit(commit, end, _):
                done, self.open = self.opened(), None
                if done.commit != commit:
                    raise Unreadable(f"a transaction that was to end at {lsn_text(done.commit)} ends at {lsn_text(commit)}")
                done.end = end
                return done
        return None  # of messages, types and origins nothing is needed

    def opened(self) -> Transaction:
        if self.open is None:
            raise Unreadable("a change outside a transaction")
        return self.open

    def relation(self, oid: int) -> pgoutput.Relation:
        if oid not in self.relations:
            raise Unreadable(f"a change of the relation {oid}, of which nothing was said")
        return self.relations[oid]


class Stream:
    """A connection that reads a slot."""

    def __init__(self, dsn: str, slot: str, publication: str):
        """Raises psycopg2.Error."""
        if not re.fullmatch("[a-z0-9_]{1,63}", slot):
            raise Lost(f"{slot} is no name of a slot: they have a-z, 0-9 and _")
        self.slot, self.publication = slot, publication
        self.connection = psycopg2.connect(dsn, connection_factory=psycopg2.extras.LogicalReplicationConnection, options=SETTINGS,
                                           application_name="viewd-postgresql", client_encoding="utf8")
        self.cursor: Any = self.connection.cursor()
        for it in (*PRINTING, "set lock_timeout = 0"):  # a slot waits for all transactions that are running
            self.cursor.execute(it)
        self.transactions = Transactions()
        self.reached = 0  # all transactions with a commit before it were given

    def create(self) -> tuple[int, str]:
        """A new slot: its place, and the name of a snapshot of it, which holds until the next command here."""
        self.cursor.execute(f'CREATE_REPLICATION_SLOT "{self.slot}" LOGICAL pgoutput (SNAPSHOT \'export\')')
        _, place, snapshot, _ = self.cursor.fetchone()
        return lsn_of(place), str(snapshot)

    def begin(self, place: int) -> None:
        """Raises Lost if the slot has not what follows the place, or is in use."""
        names = '"' + self.publication.replace('"', '""') + '"'
        try:
            self.cursor.start_replication(slot_name=self.slot, decode=False, start_lsn=lsn_text(place), status_interval=STATUS,
                                          options={"proto_version": "1", "publication_names": names, "messages": "true"})
        except (psycopg2.errors.UndefinedObject, psycopg2.errors.ObjectInUse, psycopg2.errors.ObjectNotInPrerequisiteState) as why:
            raise Lost(str(why).strip()) from None
        self.reached = place

    def system(self) -> str:
        """Which database this is, wherever it is reached. Before `begin`."""
        self.cursor.execute("IDENTIFY_SYSTEM")
        system = self.cursor.fetchone()[0]
        self.cursor.execute("select oid from pg_database where datname = current_database()")
        return f"postgresql {system}/{self.cursor.fetchone()[0]}"

    def take(self, most: int) -> tuple[list[Transaction], bool]:
        """Transactions that have come, of at most so many messages, and whether there may be more. Does not wait. Raises Unreadable."""
        done: list[Transaction] = []
        for _ in range(most):
            message = self.cursor.read_message()
            if message is None:  # wal_end is that of keepalives too, which come within a transaction as well
                opened = self.transactions.open
                self.reached = max(self.reached, opened.commit if opened else self.cursor.wal_end)
                return done, False
            if found := self.transactions.add(message.payload):
                done.append(found)
                self.reached = max(self.reached, found.end)
        return done, True

    def has(self, place: int) -> bool:
        """Whether all commits before the place were given. At the beginning of a page it may be told before or after the page's head."""
        return self.reached >= place or self.reached % PAGE == 0 and place - self.reached <= HEAD

    def wait(self, seconds: float) -> None:
        """Until something may have come."""
        select.select([self.cursor], [], [], seconds)

    def confirm(self, place: int) -> None:
        """The server may forget what stands before."""
        self.cursor.send_feedback(write_lsn=place, flush_lsn=place, apply_lsn=place, force=True)

    def close(self) -> None:
        self.connection.close()

    def __enter__(self) -> "Stream":
        return self

    def __exit__(self, kind: type[BaseException] | None, error: BaseException | None, trace: TracebackType | None) -> None:
        self.close()
