"""The rows of the tables that are followed, as viewd holds them: what tells of a change in PostgreSQL which rows of viewd go and come.

viewd takes a row out by all of its values. PostgreSQL tells of an update or delete no more than the replica identity of the old row, and
of an update no value that stands out of line and stayed as it was. So the rows are held here too: as a bag, and if changes come by a
key, by that key. A change that does not fit what is held here is an error, since something was lost before it.
"""
from collections import Counter
from collections.abc import Callable, Iterable, Iterator, Mapping, Sequence
from typing import NamedTuple, cast

import pgoutput
from kinds import Column
from pgoutput import UNCHANGED, Cell, Cells
from rows import Odd, Reader, Row, entry
from stream import Change, Lost, Transaction

LONG = 5_000  # changes, behind which others may be heard


class Form(NamedTuple):
    """How the rows of a relation, as it is replicated, become rows of a table."""

    relation: pgoutput.Relation
    cells: tuple[int, ...]  # for each column of the table its place in the row that comes
    key: tuple[int, ...]  # columns of the table that are the replica identity
    strange: tuple[str, ...]  # columns of it that the table has not


class Table:
    """A table that is followed, or one that is shown once."""

    def __init__(self, name: str, columns: Mapping[str, Column], most: int):
        self.name, self.columns, self.most = name, dict(columns), most
        self.reader = Reader(name, columns.values())
        self.rows: Counter[Row] = Counter()
        self.odd: Counter[Row] = Counter()  # that viewd cannot hold
        self.net: Counter[Row] = Counter()  # what has changed of `rows` since the last entries
        self.form: Form | None = None
        self.key: tuple[int, ...] = ()  # columns by which `by_key` finds rows; none: it is not kept
        self.by_key: dict[str, Row] = {}
        self.beyond = False  # there were too many rows: none is held any more
        self.told = True  # viewd has the table

    def fill(self, found: Iterable[tuple[str | None, ...]]) -> "Table":
        """The first contents."""
        for cells in found:
            self.add(self.reader.row(cells), "")
            if len(self.rows) > self.most:
                break
        self.settle()
        self.net.clear()
        return self

    def fault(self) -> str:
        """Why viewd cannot hold the rows. Empty if it can."""
        if self.beyond:
            return f"viewd cannot hold its rows: there are more than {self.most:,} different ones"
        if self.odd:
            why = next(it.why for it in self.odd if isinstance(it, Odd))
            return f"viewd cannot hold {self.odd.total()} of its rows: one has {why}"
        return ""

    def settle(self) -> None:
        """After a step: there may be more rows within one."""
        if len(self.rows) > self.most:
            self.beyond = True
            self.clear()
            self.net.clear()

    def apply(self, change: Change) -> None:
        """Raises Lost if the change does not fit the rows."""
        if self.beyond:
            return
        if change.truncates():
            self.net.subtract(self.rows)
            self.clear()
            return
        form = self.form_of(change.relation)
        old = self.old(form, change)
        new = self.turned(form, change.new, old) if change.new is not None else None
        if old is not None:
            self.remove(*old)
        if new is not None:
            self.add(*new)

    def clear(self) -> None:
        self.rows.clear()
        self.odd.clear()
        self.by_key.clear()

    def add(self, one: Row, key: str) -> None:
        if isinstance(one, Odd):
            self.odd[one] += 1
        else:
            self.rows[one] = self.rows.get(one, 0) + 1
            self.net[one] = self.net.get(one, 0) + 1
        if self.key:
            if key in self.by_key:  # it is no key any more
                self.key, self.by_key = (), {}
            else:
                self.by_key[key] = one

    def remove(self, one: Row, key: str) -> None:
        held = self.odd if isinstance(one, Odd) else self.rows
        left = held.get(one, 0) - 1
        if left < 0:
            raise Lost(f"{self.name}: a row goes that is not there: {one}")
        if left:
            held[one] = left
        else:
            del held[one]
        if held is self.rows:
            self.net[one] = self.net.get(one, 0) - 1
        if self.key:
            del self.by_key[key]

    def old(self, form: Form, change: Change) -> tuple[Row, str] | None:
        """The row that goes, and its key."""
        if change.old is not None and change.old.whole:
            return self.turned(form, change.old.cells, None)
        if change.old is None and not change.updates:
            return None
        if form.strange or not form.key:
            raise Lost(f"{self.name}: its replica identity is {', '.join(form.strange) or 'nothing'}, which is not followed")
        if self.key != form.key:
            self.keep_keys(form)
        key = self.key_of(self.cells(form, change.old.cells if change.old is not None else change.new or ()))
        if key not in self.by_key:
            raise Lost(f"{self.name}: a row goes that is not there, with the key {key}")
        return self.by_key[key], key

    def keep_keys(self, form: Form) -> None:
        """From now on rows are found by this key."""
        self.key, self.by_key = form.key, {}
        for held in (self.rows, self.odd):
            for one, copies in held.items():
                key = self.key_of(self.reader.cells(one))
                if copies > 1 or key in self.by_key:
                    raise Lost(f"{self.name}: a second row with the key {key}")
                self.by_key[key] = one

    def key_of(self, cells: Sequence[Cell]) -> str:
        """Of a row of these cells; empty if none is kept."""
        parts = []
        for place in self.key:
            if (text := cells[place]) is UNCHANGED:
                raise Lost(f"{self.name}: a key that was not sent")
            parts.append(self.reader.part(place, text))
        return ",".join(parts)

    def form_of(self, relation: pgoutput.Relation) -> Form:
        if self.form is None or self.form.relation is not relation:
            there = {it.name: place for place, it in enumerate(relation.columns)}
            if missing := set(self.columns) - set(there):
                raise Lost(f"{self.name} is replicated without {', '.join(sorted(missing))}")
            key = tuple(place for place, name in enumerate(self.columns) if relation.columns[there[name]].key)
            strange = tuple(it.name for it in relation.columns if it.key and it.name not in self.columns)
            self.form = Form(relation, tuple(there[it] for it in self.columns), key, strange)
        return self.form

    def cells(self, form: Form, cells: Cells) -> list[Cell]:
        """Those of the table's columns."""
        if len(cells) != len(form.relation.columns):
            raise Lost(f"{self.name}: a row of {len(cells)} cells, of {len(form.relation.columns)} that were said")
        return [cells[it] for it in form.cells]

    def turned(self, form: Form, cells: Cells, old: tuple[Row, str] | None) -> tuple[Row, str]:
        """A row as viewd holds it, and its key. What was not sent of a new one is as it was in the old one."""
        found = self.cells(form, cells)
        if UNCHANGED in found:
            if old is None:
                raise Lost(f"{self.name}: a value that was not sent, of a row that is not known")
            # (text again, so that a row is too long by what all of it has)
            found = [before if it is UNCHANGED else it for it, before in zip(found, self.reader.cells(old[0]))]
        return self.reader.row(cast("list[str | None]", found)), self.key_of(found)

    def entries(self) -> tuple[list[str], list[str]]:
        """What has changed since the last time: rows that go and rows that come."""
        gone = [entry(self.name, "delete", one, -copies) for one, copies in self.net.items() if copies < 0]
        come = [entry(self.name, "insert", one, copies) for one, copies in self.net.items() if copies > 0]
        self.net.clear()
        return gone, come

    def all(self) -> Iterator[str]:
        """All of the rows, as entries."""
        for one, copies in self.rows.items():
            yield entry(self.name, "insert", one, copies)


class Mirror:
    """All tables that are followed, by their oids."""

    def __init__(self) -> None:
        self.tables: dict[int, Table] = {}

    def apply(self, transactions: Iterable[Transaction], late: Callable[[], None] = lambda: None) -> list[str]:
        """What they change all in all, as entries: all that go stand before those that come. Raises Lost."""
        for number, change in enumerate((one for it in transactions for one in it.changes), 1):
            if table := self.tables.get(change.relation.oid):
                table.apply(change)
            if number % LONG == 0:
                late()
        gone: list[str] = []
        come: list[str] = []
        for table in self.tables.values():
            table.settle()
            one, other = table.entries()
            if table.told:
                gone += one
                come += other
        return gone + come

    def faults(self) -> dict[str, str]:
        """Tables whose rows viewd cannot hold, and why."""
        return {it.name: fault for it in self.tables.values() if (fault := it.fault())}
