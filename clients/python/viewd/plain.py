"""The client without asyncio: each call waits for its answer, while a thread keeps the connection.

    with viewd.plain.connect("ws://127.0.0.1:8080/live", token=token) as db:
        db.insert("tickets", {"id": 7, "agent": "mia", "subject": "Hello", "open": True})
        print(db.rows("tickets", where={"open": True}, order="-id"))
        for changes in db.changes("tickets"):
            print(changes)"""
from __future__ import annotations

import asyncio
import concurrent.futures
import threading
from collections.abc import Callable, Coroutine, Iterator, Mapping, Sequence
from typing import Any, TypeVar

from . import client
from .client import Listed, Reply, Token
from .faults import NotSent, Refused
from .rows import Change, Changes, Columns, Live, Report, Row, Where

T = TypeVar("T")


class Runner:
    """A thread that has a loop, in which all of a client is done."""

    def __init__(self) -> None:
        self.loop = asyncio.new_event_loop()
        self.thread = threading.Thread(target=self.loop.run_forever, name="viewd", daemon=True)
        self.thread.start()

    def run(self, work: Coroutine[Any, Any, T], timeout: float | None = None) -> T:
        """Has it done, and waits so many seconds at most. Raises TimeoutError."""
        ended = asyncio.run_coroutine_threadsafe(work, self.loop)
        try:
            return ended.result(timeout)
        except concurrent.futures.TimeoutError:
            ended.cancel()
            raise TimeoutError from None

    def call(self, act: Callable[[], T]) -> T:
        async def work() -> T:
            return act()

        return self.run(work())

    def stop(self) -> None:
        self.loop.call_soon_threadsafe(self.loop.stop)
        self.thread.join()
        self.loop.close()


class PlainLive:
    """A relation that stays what the role may see. What it has may be looked at whenever one likes."""

    def __init__(self, runner: Runner, live: Live):
        self._runner, self._live = runner, live
        self._versions, self._taken = 0, 0
        self._news = threading.Condition()
        runner.call(lambda: live.subscribe(self._told))

    def _told(self, _: Live) -> None:
        with self._news:
            self._versions += 1
            self._news.notify_all()

    @property
    def rows(self) -> list[Row]:
        """The rows now, each different row once."""
        return self._runner.call(lambda: self._live.rows)

    @property
    def total(self) -> int:
        """How many rows pass `where`, without the limit."""
        return self._runner.call(lambda: self._live.total)

    @property
    def state(self) -> str:
        """`waiting` for the first rows, `live`, `stale` (the rows may be old), `refused` (see `why`) or `closed`."""
        return self._live.state

    @property
    def why(self) -> Refused | str | None:
        """Why: the `Refused`, or `privilege` or `limit` if it was ended."""
        return self._live.why

    @property
    def columns(self) -> Columns | None:
        """Pairs of a name and a kind, or None if they are not known yet."""
        return self._live.columns

    def copies(self, row: Listed) -> int:
        """How many copies of a row there are."""
        return self._runner.call(lambda: self._live.copies(row))

    def ready(self, timeout: float | None = None) -> list[Row]:
        """The rows, once the first are there. Raises Refused, NotSent, and TimeoutError after so many seconds."""
        return self._runner.run(self._live.ready(), timeout)

    def wait(self, timeout: float | None = None) -> bool:
        """Waits for rows or a state that no call of `wait` has told of. Whether they came within so many seconds."""
        with self._news:
            came = self._news.wait_for(lambda: self._versions > self._taken, timeout)
            self._taken = self._versions
            return came

    def close(self) -> None:
        """Gives it back: the rows stay as they are."""
        self._runner.call(self._live.close)

    def __enter__(self) -> PlainLive:
        self.ready()
        return self

    def __exit__(self, *_: object) -> None:
        self.close()


class PlainDb:
    """A client of a gateway. `connect` makes one; `with` waits for its role, and ends it."""

    def __init__(self, make: Callable[[], client.Db]):
        self._runner = Runner()
        self._is_ended = False
        try:
            self._db = self._runner.call(make)
        except BaseException:
            self._runner.stop()
            raise

    def __enter__(self) -> PlainDb:
        try:
            self._runner.run(self._db.__aenter__())
        except BaseException:
            self.end()
            raise
        return self

    def __exit__(self, *_: object) -> None:
        self.end()

    @property
    def role(self) -> str | None:
        """The role that the token opens, or None if nobody is in."""
        return self._db.role

    @property
    def state(self) -> str:
        """`connecting` at first, `live`, `stale` (what is shown may be old, and another connection is tried) or `closed`."""
        return self._db.state

    @property
    def why(self) -> str | None:
        """Why the last connection ended, if something is known."""
        return self._db.why

    def rows(self, on: str, *, where: Where | None = None, order: str | Sequence[str] = (), limit: int | None = None) -> list[Row]:
        """The rows of a relation as they are now."""
        with self.live(on, where=where, order=order, limit=limit) as live:
            return live.rows

    def live(self, on: str, *, where: Where | None = None, order: str | Sequence[str] = (), limit: int | None = None) -> PlainLive:
        """A relation that stays what the role may see, as `Db.live`."""
        self._check()
        return PlainLive(self._runner, self._runner.call(lambda: self._db.live(on, where=where, order=order, limit=limit)))

    def changes(self, on: str) -> Iterator[list[Change]]:
        """The changes of a relation, first the rows that are there, as `Db.changes`."""
        self._check()
        changes: Changes = self._runner.call(lambda: self._db.changes(on))
        try:
            while True:
                yield self._runner.run(_next(changes))
        finally:
            if not self._is_ended:
                self._runner.call(changes.close)

    def insert(self, on: str, row: Listed, *, copies: int = 1) -> Reply:
        """Adds copies of a row."""
        return self._run(lambda: self._db.insert(on, row, copies=copies))

    def update(self, on: str, row: Listed, values: Listed, *, copies: int = 1) -> Reply:
        """Replaces copies of a row by ones with other values in some columns."""
        return self._run(lambda: self._db.update(on, row, values, copies=copies))

    def remove(self, on: str, row: Listed, *, copies: int = 1) -> Reply:
        """Removes copies of a row."""
        return self._run(lambda: self._db.remove(on, row, copies=copies))

    def write(self, entries: Sequence[Mapping[str, Any]]) -> Reply:
        """Carries out all entries, or none, as `Db.write`."""
        return self._run(lambda: self._db.write(entries))

    def columns(self, on: str) -> Columns:
        """The columns of a relation."""
        return self._run(lambda: self._db.columns(on))

    def made(self) -> list[Reply]:
        """What made the shape, for an administrator, as `Db.made`."""
        return self._run(lambda: self._db.made())

    def request(self, body: Mapping[str, Any]) -> Reply:
        """Any request of docs/PROTOCOL.md, without session and id. Its reply, once all that it changed is here."""
        return self._run(lambda: self._db.request(body))

    def end(self) -> None:
        """Ends the client: what is under way is undecided, what waits is not sent, and relations are closed."""
        if not self._is_ended:
            self._is_ended = True
            self._runner.run(self._db.end())
            self._runner.stop()

    def _check(self) -> None:
        if self._is_ended:
            raise NotSent("the client has ended")

    def _run(self, work: Callable[[], Coroutine[Any, Any, T]]) -> T:
        self._check()
        return self._runner.run(work())


async def _next(changes: Changes) -> list[Change]:
    return await changes.__anext__()


def connect(url: str | Sequence[str], *, token: Token, columns: Mapping[str, Columns] | None = None, nulls: bool = False,
            on_error: Report | None = None, **timing: float) -> PlainDb:
    """A client of the gateway at the address; the words are those of `viewd.connect`."""
    return PlainDb(lambda: client.connect(url, token=token, columns=columns, nulls=nulls, on_error=on_error, **timing))
