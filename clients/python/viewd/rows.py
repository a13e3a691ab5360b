"""Relations that the client follows, and their users: rows that pass `where`, in an order, and exact changes."""
from __future__ import annotations

import asyncio
import operator
from collections.abc import AsyncIterator, Callable, Iterable, Mapping, Sequence
from dataclasses import dataclass
from typing import Any, NamedTuple

from .faults import NotSent, Refused, ViewdError

Value = int | str | bool | None  # None with `nulls` alone
Row = dict[str, Value]
Values = tuple[Value, ...]
Columns = list[tuple[str, str]]
Where = Mapping[str, Value] | Callable[[Row], bool]
Report = Callable[[BaseException], None]
EMPTY: dict[str, Value] = {"int": 0, "text": "", "flag": False}  # what stands in the place of None


@dataclass(frozen=True)
class Change:
    """How many more copies of a row there are than before; below zero, how many fewer."""

    copies: int
    row: Row


class Seen(NamedTuple):
    """A column that is seen."""

    name: str
    kind: str
    at: int  # its place
    may_be_null: bool  # the flag behind it says whether it is

    def folded(self, values: Sequence[Value]) -> Value:
        return None if self.may_be_null and values[self.at + 1] else values[self.at]


def seen_of(columns: Columns, nulls: bool) -> list[Seen]:
    """With `nulls` a flag NAME_null right behind NAME is no column of its own, and says whether NAME is None."""
    seen: list[Seen] = []
    for at, (name, kind) in enumerate(columns):
        if nulls and seen and kind == "flag" and name == f"{seen[-1].name}_null":
            seen[-1] = seen[-1]._replace(may_be_null=True)
        else:
            seen.append(Seen(name, kind, at, False))
    return seen


def pairs_of(columns: Columns, nulls: bool) -> Columns:
    """Their names and kinds."""
    return [(it.name, it.kind) for it in seen_of(columns, nulls)]


def by_size(values: Sequence[Value]) -> tuple[tuple[bool, Value], ...]:
    """For sorting: None is behind all others."""
    return tuple((it is None, it) for it in values)


def values_of(on: str, columns: Columns | None, row: Mapping[str, Value] | Sequence[Value], nulls: bool) -> list[Value]:
    """The values of a row as the gateway has them. Raises ViewdError if a column is missing, or is none of the relation's."""
    if isinstance(row, Sequence) and not isinstance(row, str):
        return list(row)
    if not isinstance(row, Mapping):
        raise ViewdError(f"{on}: {row!r} is no row")
    if columns is None:
        raise ViewdError(f"the columns of {on} are not known")
    seen = seen_of(columns, nulls)
    for name in row:
        if all(it.name != name for it in seen):
            raise ViewdError(f"{on} has no column {name}")
    found: list[Value] = []
    for it in seen:
        if it.name not in row:
            raise ViewdError(f"{on}: the row has no value for {it.name}")
        value = row[it.name]
        found += [EMPTY[it.kind] if value is None else value, value is None] if it.may_be_null else [value]
    return found


class Relation:
    """A relation that the client follows, for all its users by one subscription."""

    def __init__(self, on: str, leave: Callable[[Relation], None], nulls: bool):
        self.on, self.nulls = on, nulls
        self.columns: Columns | None = None  # as they are seen
        self._told: Columns | None = None  # as the gateway has them
        self._seen: list[Seen] = []
        self.state = "waiting"
        self.why: Refused | str | None = None
        self.sub: int | None = None
        self.is_asked = False  # a subscribe is under way
        self.is_half = False  # an event is not settled: what is held may be half of it
        self.users: list[User] = []
        self.held: dict[Values, tuple[Row, int]] = {}
        self._touched: set[Values] | None = None  # rows that changed since users were told; none at all where all are new
        self._leave = leave

    def join(self, user: User) -> None:
        self.users.append(user)
        if self.state != "waiting" and not self.is_half:
            user.take(None)

    def leave(self, user: User) -> None:
        if user in self.users:
            self.users.remove(user)
            if not self.users:
                self._leave(self)

    def begin(self, columns: Columns, sub: int) -> None:
        self.columns, self._told, self._seen = pairs_of(columns, self.nulls), columns, seen_of(columns, self.nulls)
        self.sub, self.state, self.why, self.is_asked, self.is_half = sub, "live", None, False, True
        self.clear()

    def clear(self) -> None:
        self.held, self._touched = {}, None

    def take(self, changes: Iterable[tuple[int, list[Value]]]) -> None:
        assert self.columns is not None
        self.is_half = True
        for copies, values in changes:
            key = self.folded(values)
            row, count = self.held.get(key) or ({name: value for (name, _), value in zip(self.columns, key)}, 0)
            if count + copies:
                self.held[key] = row, count + copies
            else:
                del self.held[key]
            if self._touched is not None:
                self._touched.add(key)

    def folded(self, values: Sequence[Value]) -> Values:
        """As they are seen."""
        return tuple([it.folded(values) for it in self._seen]) if self.nulls else tuple(values)

    def copies(self, row: Mapping[str, Value] | Sequence[Value]) -> int:
        found = self.held.get(self.folded(values_of(self.on, self._told, row, self.nulls)))
        return found[1] if found else 0

    def sorted(self, keys: Iterable[Values]) -> list[Values]:
        return sorted(keys, key=by_size) if self.nulls else sorted(keys)

    def show(self) -> list[User]:
        """Has the users apply what is new. Those to whom it is something."""
        touched, self._touched, self.is_half = self._touched, set(), False
        return [user for user in self.users if user.take(touched)]

    def become(self, state: str) -> list[User]:
        """The rows stay, and the state is another. The users to whom that is something."""
        self.state, self.why = state, None
        return [user for user in self.users if user.take(set())]

    def fault(self) -> ViewdError:
        """Why it has no rows."""
        if isinstance(self.why, Refused):
            return self.why
        return ViewdError(f"{self.on} was ended: {self.why}") if self.state == "refused" else NotSent(f"{self.on} was closed")


class User:
    """Who uses a relation: told of each settled event, until it is closed."""

    def __init__(self, relation: Relation, report: Report):
        self._relation, self._report = relation, report
        self._sleepers: set[asyncio.Event] = set()
        self._is_told = False
        self._is_closed = False

    @property
    def on(self) -> str:
        """The relation's name."""
        return self._relation.on

    @property
    def columns(self) -> Columns | None:
        """Pairs of a name and a kind, or None if they are not known yet."""
        return self._relation.columns

    @property
    def state(self) -> str:
        """`waiting` for the first rows, `live`, `stale` (the rows may be old), `refused` (see `why`) or `closed`."""
        state = "closed" if self._is_closed else self._relation.state
        return "waiting" if state in ("live", "stale") and not self._is_told else state

    @property
    def why(self) -> Refused | str | None:
        """Why: the `Refused`, or `privilege` or `limit` if it was ended."""
        return self._relation.why

    def close(self) -> None:
        """Gives it back: what was seen stays as it is, and nobody is told any more."""
        self._is_closed = True
        self._relation.leave(self)
        self._wake()

    def take(self, touched: set[Values] | None) -> bool:
        """Applies which rows changed, None for all, or that the state is another. Whether that is something to this user."""
        raise NotImplementedError

    def tell(self) -> None:
        """Wakes who waits for it, and calls who listens."""
        self._wake()

    def _fault(self) -> ViewdError:
        return NotSent(f"{self.on} was closed") if self._is_closed else self._relation.fault()

    def _wake(self) -> None:
        for event in self._sleepers:
            event.set()


class Live(User):
    """A relation as one user of it sees it: the rows that pass `where`, in an order, the first `limit` of them."""

    def __init__(self, relation: Relation, report: Report, where: Where | None, order: str | Sequence[str], limit: int | None):
        super().__init__(relation, report)
        self._where, self._limit = where, limit
        self._order = [order] if isinstance(order, str) else [*order]
        self._listeners: list[Callable[[Live], None]] = []
        self._passing: dict[Values, Row] = {}
        self._all: list[Row] | None = []
        self._was: tuple[str, object] = ("waiting", None)

    @property
    def rows(self) -> list[Row]:
        """The rows now, each different row once. They are shared, so take a copy of what you change."""
        return self._sorted()[: self._limit]

    @property
    def total(self) -> int:
        """How many rows pass `where`, without the limit."""
        return len(self._passing)

    def copies(self, row: Mapping[str, Value] | Sequence[Value]) -> int:
        """How many copies of a row there are."""
        return self._relation.copies(row)

    async def ready(self) -> list[Row]:
        """The rows, once the first are there. Raises Refused if the relation is, and NotSent if it is closed before."""
        event = asyncio.Event()
        self._sleepers.add(event)
        try:
            while self.state == "waiting":
                await event.wait()
                event.clear()
        finally:
            self._sleepers.discard(event)
        if self.state in ("refused", "closed"):
            raise self._fault()
        return self.rows

    def subscribe(self, listener: Callable[[Live], None]) -> Callable[[], None]:
        """Calls the listener after each change of the rows or the state. What it returns takes the listener back."""

        def own(live: Live) -> None:
            listener(live)

        self._listeners.append(own)
        return lambda: self._listeners.remove(own) if own in self._listeners else None

    async def __aiter__(self) -> AsyncIterator[list[Row]]:
        """The rows, and again after each change of them or of the state, until it is closed. Who is slow misses what lies between."""
        event = asyncio.Event()
        self._sleepers.add(event)
        if self._is_told:
            event.set()
        try:
            while True:
                await event.wait()
                event.clear()
                if self.state == "closed":
                    return
                yield self.rows
        finally:
            self._sleepers.discard(event)

    async def __aenter__(self) -> Live:
        await self.ready()
        return self

    async def __aexit__(self, *_: object) -> None:
        self.close()

    def close(self) -> None:
        """Gives it back: the rows stay as they are, and nobody is called any more."""
        super().close()
        self._listeners.clear()

    def take(self, touched: set[Values] | None) -> bool:
        """Applies what changed. Whether that is something to this user."""
        if self._relation.is_half and self._relation.state != "closed":
            return False
        is_new = touched is None or not self._is_told
        changed = self._anew() if is_new else self._apply(touched or set())
        self._is_told = True
        if changed:
            self._all = None
        was, self._was = self._was, (self.state, self.why)
        return changed or was != self._was

    def tell(self) -> None:
        """Wakes who waits for it, and calls who listens."""
        super().tell()
        for listener in [*self._listeners]:
            self._guard(listener, self)

    def _anew(self) -> bool:
        if isinstance(self._where, Mapping) and self.columns:
            for name in self._where.keys() - dict(self.columns):
                self._report(ViewdError(f"where: there is no column {name}"))
        self._passing = {key: row for key, (row, _) in self._relation.held.items() if self._passes(row)}
        return True

    def _apply(self, touched: set[Values]) -> bool:
        changed = False
        for key in touched:
            there = self._relation.held.get(key)
            if there and key not in self._passing and self._passes(there[0]):
                self._passing[key] = there[0]
                changed = True
            elif not there and key in self._passing:
                del self._passing[key]
                changed = True
        return changed

    def _guard(self, act: Callable[[Any], Any], it: object) -> Any:
        try:
            return act(it)
        except Exception as why:
            self._report(why)
            return None

    def _passes(self, row: Row) -> bool:
        if self._where is None:
            return True
        if isinstance(self._where, Mapping):
            return all(row.get(name) == value for name, value in self._where.items())
        return bool(self._guard(self._where, row))

    def _sorted(self) -> list[Row]:
        if self._all is None:
            rows = [self._passing[key] for key in self._relation.sorted(self._passing)]
            for word in reversed(self._order):
                name = word.removeprefix("-")
                if self.columns and name not in dict(self.columns):
                    self._report(ViewdError(f"order: there is no column {name}"))
                else:
                    value: Callable[[Row], Any] = operator.itemgetter(name)
                    rows.sort(key=(lambda row: by_size([value(row)])) if self._relation.nulls else value, reverse=word.startswith("-"))
            self._all = rows
        return self._all


class Changes(User):
    """The changes of a relation: first all rows that are there, then what each settled event changed.

    Added up they are at each moment exactly what the role sees, across lost connections too: after one comes the difference. Who is slow
    is told several events as one."""

    def __init__(self, relation: Relation, report: Report):
        super().__init__(relation, report)
        self._seen: dict[Values, tuple[Row, int]] = {}
        self._touched: set[Values] | None = None  # since the last answer; None is all
        self._is_first = True

    def take(self, touched: set[Values] | None) -> bool:
        """Applies which rows changed."""
        if self._relation.is_half and self._relation.state != "closed":
            return False
        self._touched = None if touched is None or self._touched is None else self._touched | touched
        self._is_told = True
        return True

    def __aiter__(self) -> Changes:
        return self

    async def __anext__(self) -> list[Change]:
        """The changes of an event or more; at first the rows that are there, an empty list if there are none.

        Raises why there are no more: what was seen is taken back by the changes before it."""
        event = asyncio.Event()
        self._sleepers.add(event)
        try:
            while True:
                if self._is_closed:
                    raise StopAsyncIteration
                changes = self._taken() if self._is_told and not self._relation.is_half else []
                if changes:
                    self._is_first = False
                    return changes
                if self.state in ("refused", "closed"):
                    raise self._fault()
                if self._is_first and self._is_told and not self._relation.is_half:
                    self._is_first = False
                    return []
                event.clear()
                await event.wait()
        finally:
            self._sleepers.discard(event)

    def _taken(self) -> list[Change]:
        held, seen = self._relation.held, self._seen
        keys = {*seen, *held} if self._touched is None else self._touched
        self._touched = set()
        found = []
        for key in self._relation.sorted(keys):
            row, now = held.get(key) or (seen[key][0] if key in seen else {}, 0)
            was = seen[key][1] if key in seen else 0
            if now:
                seen[key] = row, now
            else:
                seen.pop(key, None)
            if now != was:
                found.append(Change(now - was, row))
        return found
