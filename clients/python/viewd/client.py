"""A connection to a gateway that is kept: if it is lost, another is tried."""
from __future__ import annotations

import asyncio
import inspect
import json
import logging
import random
import re
import secrets
import time
from collections.abc import Awaitable, Callable, Mapping, Sequence
from dataclasses import dataclass, field
from typing import Any

import websockets
from websockets.exceptions import ConnectionClosed

from .faults import NotSent, Refused, Undecided, ViewdError
from .rows import Changes, Columns, Live, Relation, Report, User, Value, Where, pairs_of, values_of

BYTES = 65_463  # of a message, at most
LIMIT, TOO_MANY, TOO_LONG = 17, 20, 22
WITHOUT_ID = (1, 2, 22)  # refusals of what could not be read, so that its id is not known
ELSEWHERE = 100  # undecided, and not carried out here: the gateway follows a log that others decide
LATE = 102  # undecided: the holder has had more names since its place than are kept
AGAIN = 104  # undecided now, and to be sent again as it is
OPEN_WRITES = 16  # by name, without an answer, at most: a gateway knows a holder's last 64 names, and one holder may have several clients
BEHIND = 32  # names that may come behind a write which waits to be sent again: beyond 64 it would be forgotten
LONGEST: dict[str, Any] = {"id": 2 ** 53, "once": "_" * 22, "at": f"{'0' * 32}.{2 ** 64}"}  # what a message by name may begin with
UNKNOWN_TOKEN = 4401
ADMIN = "admin"
OPEN: Callable[..., Awaitable[Any]] = getattr(websockets, "connect")  # which versions make of different modules
Reply = dict[str, Any]
Token = str | Callable[[], str | Awaitable[str]]
Listed = Mapping[str, Value] | Sequence[Value]


@dataclass
class Timing:
    """Seconds. The gateway says a line each 20 seconds."""

    silence: float = 30  # without a line, after which the connection is given up
    patience: float = 30  # for which a request waits for a connection, and a write for a gateway that decides, if there are several addresses
    shortest: float = 0.25  # before a second round over all addresses; each further one waits twice as long, and chance takes up to a half off
    longest: float = 30
    again: float = 30  # after which a relation that was too large or found no room, and a write that has to wait (104), are tried again


@dataclass
class Asked:
    """A request, and what is done with its reply."""

    body: dict[str, Any]
    reply: asyncio.Future[Reply]
    first: Callable[[Reply], None] = lambda reply: None  # with the reply that it was carried out
    then: Callable[[Reply | ViewdError], None] = lambda came: None  # once its event is settled, or it failed
    id: int = 0
    timer: asyncio.TimerHandle | None = None
    by_name: bool = False  # it is sent by a name, if the gateway knows names: always by the same name, place and bytes
    name: str | None = None
    at: str = ""
    rest: str = ""  # of the message, behind these
    sent: int = 0  # how often it was, and may have been carried out
    end: asyncio.TimerHandle | None = None  # of the time for which it is taken to other gateways, as one has told that others decide
    is_over: bool = False  # that time

    def come(self, came: Reply | ViewdError) -> None:
        if self.timer:
            self.timer.cancel()
        if not self.reply.done():
            if isinstance(came, ViewdError):
                self.reply.set_exception(came)
                self.reply.exception()  # nobody may wait for it
            else:
                self.reply.set_result(came)
        self.then(came)


class _Lost(Exception):
    """Why the connection went."""


@dataclass
class _Connection:
    """What lasts as long as one connection."""

    out: asyncio.Queue[str] = field(default_factory=asyncio.Queue)
    asked: list[Asked] = field(default_factory=list)  # messages without a reply, in their order
    replied: list[Callable[[], None]] = field(default_factory=list)  # what is done when the event is settled
    by_sub: dict[int, Relation] = field(default_factory=dict)
    changed: dict[Relation, None] = field(default_factory=dict)
    made: list[Reply] = field(default_factory=list)  # lines of what made the shape, which an administrator is told
    welcome: Reply | None = None  # the role, until the line behind it is here
    place: str | None = None  # where names of the holder stand, as the gateway told it last; None if it tells none
    late: list[Asked] = field(default_factory=list)  # writes by name that were told that their place is too old
    goes: bool = False  # to the next address, as a write was told that others decide
    is_in: bool = False  # all that is told of the entry is here
    next_id: int = 1
    since: float = 0


class Db:
    """A client of a gateway. `connect` makes one, within a running loop; `async with` waits for its role, and ends it.

    There is one connection at a time, and a write that others decide takes it along to the next address: so what a write changed is here when it
    is answered. A second connection for writes would spare relations the move, and leave their rows behind the answers."""

    def __init__(self, urls: Sequence[str], token: Token, columns: Mapping[str, Columns] | None, nulls: bool, on_error: Report | None, timing: Timing):
        self.urls, self.nulls, self.timing = [*urls], nulls, timing  # the address in use is in front
        self._left = len(self.urls)  # addresses that are tried before the next wait
        self.role: str | None = None  # that the token opens, or None if nobody is in
        self.protocol: int | None = None  # the number that the gateway tells, or None if nobody is in, or it tells none
        self.state = "connecting"  # at first; `live`; `stale`: what is shown may be old, and another connection is tried; `closed`
        self.why: str | None = None  # why the last connection went, where something is known
        self._token, self._unknown_token, self._tries = token, "", 0
        self._on_error = on_error
        self._known: dict[str, Columns] = {on: [*its] for on, its in (columns or {}).items()}
        self._connection: _Connection | None = None
        self._relations: dict[str, Relation] = {}
        self._waiting: list[Asked] = []  # requests that were never sent, in their order
        self._kept: list[Asked] = []  # writes by name that were sent, and are to be sent again
        self._listeners: list[Callable[[str, str | None], None]] = []
        self._timers: set[asyncio.TimerHandle] = set()
        self._shutting: set[asyncio.Task[None]] = set()
        self._turned = asyncio.Event()  # set where the state is another
        self._loop = asyncio.get_running_loop()
        self._task = self._loop.create_task(self._keep())

    async def __aenter__(self) -> Db:
        while self.state not in ("live", "closed"):
            self._turned.clear()
            await self._turned.wait()
        if self.state == "closed":
            raise NotSent(self.why or "the client has ended")
        return self

    async def __aexit__(self, *_: object) -> None:
        await self.end()

    def on_state(self, listener: Callable[[str, str | None], None]) -> Callable[[], None]:
        """Calls the listener with each new state, and why it came. What it returns takes it back."""

        def own(state: str, why: str | None) -> None:
            listener(state, why)

        self._listeners.append(own)
        return lambda: self._listeners.remove(own) if own in self._listeners else None

    def live(self, on: str, *, where: Where | None = None, order: str | Sequence[str] = (), limit: int | None = None) -> Live:
        """A relation that stays what the role may see. Users of one relation share one subscription.

        `where` has values that columns must have, or is a function of a row; `order` is a column or several, `-` in front for the largest
        first, and then all columns from the left; `limit` is how many rows at most are shown."""
        relation = self._relation(on)
        live = Live(relation, self._report, where, order, limit)
        relation.join(live)
        return live

    def changes(self, on: str) -> Changes:
        """The changes of a relation, to be iterated over: first the rows that are there."""
        relation = self._relation(on)
        changes = Changes(relation, self._report)
        relation.join(changes)
        return changes

    async def insert(self, on: str, row: Listed, *, copies: int = 1) -> Reply:
        """Adds copies of a row."""
        return await self.write([{"on": on, "insert": row, "copies": copies}])

    async def update(self, on: str, row: Listed, values: Listed, *, copies: int = 1) -> Reply:
        """Replaces copies of a row by ones with other values in some columns."""
        new = {**row, **values} if isinstance(row, Mapping) and isinstance(values, Mapping) else values
        return await self.write([{"on": on, "update": [row, new], "copies": copies}])

    async def remove(self, on: str, row: Listed, *, copies: int = 1) -> Reply:
        """Removes copies of a row."""
        return await self.write([{"on": on, "delete": row, "copies": copies}])

    async def write(self, entries: Sequence[Mapping[str, Any]]) -> Reply:
        """Carries out all entries, or none. Each has `on` and one of `insert`, `delete` and `update`, with rows as dicts or lists.

        By its name it is sent until it is answered, if the gateway knows names, and is done once. Raises Refused, Undecided and NotSent."""
        columns: dict[str, Columns] = {}
        for entry in entries:
            pair = entry.get("update", ())
            if isinstance(pair, str) or not isinstance(pair, Sequence):
                raise ViewdError(f"{entry['on']}: {pair!r} is no pair of rows")
            rows = [entry.get("insert"), entry.get("delete"), *pair]
            if entry["on"] not in columns and any(isinstance(it, Mapping) for it in rows):
                columns[entry["on"]] = await self._told_columns(entry["on"])
        lines = []
        for entry in entries:
            on, line = entry["on"], {key: value for key, value in entry.items() if key != "copies" or value != 1}
            for key in ("insert", "delete"):
                if key in line:
                    line[key] = values_of(on, columns.get(on), line[key], self.nulls)
            if "update" in line:
                line["update"] = [values_of(on, columns.get(on), row, self.nulls) for row in line["update"]]
            lines.append(line)
        return await self._request({"do": "write", "entries": lines}, by_name=True)

    async def columns(self, on: str) -> Columns:
        """The columns of a relation: as `connect` or a subscribe has told them; else one subscribe asks."""
        return pairs_of(await self._told_columns(on), self.nulls)

    async def _told_columns(self, on: str) -> Columns:
        if on not in self._known:
            asking = self.live(on)
            try:
                async with asyncio.timeout(self.timing.patience):
                    await asking.ready()
            except TimeoutError:
                raise NotSent("there was no connection") from None
            finally:
                asking.close()
        return self._known[on]

    async def made(self) -> list[Reply]:
        """What made the roles, relations, rights and policies that are there: accepted requests in their order, as `{"as": role, "made":
        request}`. Administrators alone are told it. Raises ViewdError, and NotSent."""
        end = self._loop.time() + self.timing.patience
        while self.state != "closed" and not (self._connection and self._connection.is_in):
            self._turned.clear()
            try:
                async with asyncio.timeout_at(end):
                    await self._turned.wait()
            except TimeoutError:
                raise NotSent("there was no connection") from None
        if self._connection is None:
            raise NotSent(self.why or "the client has ended")
        if self.role != ADMIN:
            raise ViewdError(f"an administrator alone is told what made the shape, and this is {self.role}")
        return [*self._connection.made]

    async def request(self, body: Mapping[str, Any]) -> Reply:
        """Any request of docs/PROTOCOL.md, without session and id. Its reply, once all that it changed is here.

        Raises Refused, Undecided and NotSent."""
        if "id" in body:
            raise ViewdError("a request has its id from the client")
        return await self._request(body, by_name=False)

    async def _request(self, body: Mapping[str, Any], by_name: bool) -> Reply:
        try:
            size = len(text({**(LONGEST if by_name else {"id": 2 ** 53}), **body}).encode())
        except UnicodeEncodeError:
            raise ViewdError("a text has half a pair of surrogates") from None
        if size > BYTES:
            raise Refused({"error": TOO_LONG})
        if self.state == "closed":
            raise NotSent("the client has ended")
        asked = Asked({**body}, self._loop.create_future(), by_name=by_name)
        self._waiting.append(asked)
        if self.role is None:
            self._wait(asked)
        else:
            self._flush()
        return await asked.reply

    async def end(self) -> None:
        """Ends the client: what is under way is undecided, what waits is not sent, and relations are closed."""
        self._close("ended")
        if self._task is not asyncio.current_task():
            self._task.cancel()
            await asyncio.gather(self._task, return_exceptions=True)
        await asyncio.gather(*self._shutting)

    # ---- the connection

    async def _keep(self) -> None:
        while self.state != "closed":
            token = None
            try:
                given = self._token() if callable(self._token) else self._token
                token = await given if inspect.isawaitable(given) else given
                if self.state == "closed":
                    return
                await self._serve(token)
                why = "the connection ended"
            except ConnectionClosed as ended:
                code, why = (ended.rcvd.code, ended.rcvd.reason) if ended.rcvd else (1006, "")
                if code == UNKNOWN_TOKEN:
                    why = why or "the token opens no role"
                    is_fresh = callable(self._token) and token != self._unknown_token
                    if not is_fresh:
                        return self._close(why)
                    self._unknown_token = token or ""
                why = why or f"the connection ended ({code})"
            except TimeoutError:
                why = "silent"
            except Exception as fault:
                why = str(fault) or type(fault).__name__
            self._lost(why)
            self._left -= 1
            if self._left > 0:
                continue
            self._left = len(self.urls)
            wait = min(self.timing.longest, self.timing.shortest * 2 ** min(self._tries, 20))
            self._tries += 1
            await asyncio.sleep(wait * (0.5 + random.random() / 2))

    async def _serve(self, token: str) -> None:
        words: dict[str, Any] = {"ping_interval": None, "max_size": None, "compression": None, "close_timeout": 0.2,
                                 "open_timeout": self.timing.silence}
        socket = await OPEN(self.urls[0], **words)
        connection = _Connection()
        sending = self._loop.create_task(self._send(socket, connection))
        try:
            await socket.send(token)
            self._connection = connection
            while True:
                async with asyncio.timeout(self.timing.silence):  # wait_for of 3.11 loses an end that comes with a message
                    data = await socket.recv()
                for line in (data if isinstance(data, str) else data.decode()).split("\n"):
                    if line:
                        self._one(connection, line)
        finally:
            sending.cancel()
            # a close that is not answered takes a while, for which nobody waits before the end
            shut = self._loop.create_task(_shut(socket))
            self._shutting.add(shut)
            shut.add_done_callback(self._shutting.discard)

    async def _send(self, socket: Any, connection: _Connection) -> None:
        while True:
            await socket.send(await connection.out.get())

    def _report(self, why: BaseException) -> None:
        try:
            if self._on_error:
                return self._on_error(why)
        except Exception as again:
            why = again
        logging.getLogger("viewd").error("a listener failed", exc_info=why)

    def _become(self, state: str) -> None:
        self.state = state
        self._turned.set()
        for listener in [*self._listeners]:
            try:
                listener(self.state, self.why)
            except Exception as fault:
                self._report(fault)

    # What was under way is undecided.
    def _drop(self) -> None:
        connection, self._connection, self.role, self.protocol = self._connection, None, None, None
        if connection is None:
            return
        if connection.since and time.monotonic() - connection.since > 10:
            self._tries, self._left = 0, len(self.urls)
        for act in connection.replied:
            act()
        for asked in connection.asked:
            if asked.name is None:
                asked.come(Undecided())
            else:
                self._kept.append(asked)
        self._waiting[:0] = connection.late

    def _lost(self, why: str) -> None:
        if self.state == "closed":
            return
        self.why = why
        # Who was late is told its place anew by the same gateway: another may know an older one.
        if not (self._connection and self._connection.late):
            self.urls.append(self.urls.pop(0))
        self._drop()
        for asked in self._waiting:
            if asked.timer is None:
                self._wait(asked)
        told = []
        for relation in self._relations.values():
            relation.sub, relation.is_asked = None, False
            if relation.state == "live":
                told += relation.become("stale")
        _tell(told)
        if self.state == "live":
            self._become("stale")

    def _close(self, why: str) -> None:
        if self.state == "closed":
            return
        self.state, self.why = "closed", why  # from here on a listener that asks for more is refused
        self._drop()
        for timer in self._timers:
            timer.cancel()
        kept, self._kept = self._kept, []
        for asked in kept:
            asked.come(Undecided())
        waiting, self._waiting = self._waiting, []
        for asked in waiting:
            asked.come(NotSent(why))
        relations, self._relations = [*self._relations.values()], {}
        _tell([user for relation in relations for user in relation.become("closed")])
        self._become("closed")

    # ---- what is said

    def _wait(self, asked: Asked) -> None:
        asked.timer = self._loop.call_later(self.timing.patience, self._give_up, asked)

    def _give_up(self, asked: Asked) -> None:
        if asked in self._waiting:
            self._waiting.remove(asked)
            asked.come(NotSent("there was no connection"))

    def _ask(self, asked: Asked) -> None:
        connection = self._enlisted(asked)
        connection.out.put_nowait(text({"id": asked.id, **asked.body}))  # the id stands in front

    def _enlisted(self, asked: Asked) -> _Connection:
        connection = self._connection
        assert connection is not None
        asked.id, connection.next_id = connection.next_id, connection.next_id + 1
        if asked.timer:
            asked.timer.cancel()
        connection.asked.append(asked)
        return connection

    # By the name and the place that it had when it was first sent, and by the same bytes.
    def _ask_by_name(self, asked: Asked) -> None:
        connection = self._enlisted(asked)
        if asked.name is None:
            asked.name, asked.at, asked.rest, asked.sent = secrets.token_urlsafe(16), connection.place or "", text(asked.body)[1:], 0
        asked.sent += 1
        connection.out.put_nowait(f'{{"id":{asked.id},"once":"{asked.name}","at":"{asked.at}",{asked.rest}')

    # Sends what was never sent, in its order, as far as it may be.
    def _flush(self) -> None:
        connection = self._connection
        assert connection is not None
        for asked in [*self._waiting]:
            by_name = asked.by_name and connection.place is not None
            if connection.late or connection.goes or by_name and (sum(it.name is not None for it in connection.asked) + len(self._kept) >= OPEN_WRITES
                                               or self._is_far(connection)):
                return
            self._waiting.remove(asked)
            if asked.timer:
                asked.timer.cancel()
            if asked.reply.done():  # nobody waits for it any more
                continue
            if by_name:
                self._ask_by_name(asked)
            else:
                self._ask(asked)

    def _is_far(self, connection: _Connection) -> bool:
        return any(_count(connection.place or "") - _count(it.at) >= BEHIND for it in self._kept)

    # What was sent before and has no answer is sent again. A gateway that tells no place would not know it by its name.
    def _send_again(self) -> None:
        assert self._connection is not None
        kept, self._kept = self._kept, []
        for asked in kept:
            if asked.reply.done():
                continue
            if self._connection.place is None:
                asked.come(Undecided())
            else:
                self._ask_by_name(asked)

    def _keep_for_later(self, asked: Asked) -> None:
        def act() -> None:
            self._timers.discard(timer)
            if self.role is not None and asked in self._kept:  # else it was sent again behind another connection
                self._kept.remove(asked)
                if not asked.reply.done():  # else nobody waits for it any more
                    self._ask_by_name(asked)

        if asked.end:  # here it is decided
            asked.end.cancel()
            self._timers.discard(asked.end)
        asked.end, asked.is_over = None, False
        if asked.sent == 1:
            asked.sent = 0  # it was not carried out
        self._kept.append(asked)
        timer = self._loop.call_later(self.timing.again, act)
        self._timers.add(timer)

    # All goes to the next address once what was asked here is answered.
    def _go_on(self, connection: _Connection, asked: Asked) -> None:
        def end() -> None:
            asked.is_over = True
            self._timers.discard(timer)
            if asked in self._kept:
                self._kept.remove(asked)
                asked.come(Undecided(ELSEWHERE))

        if asked.reply.done():  # nobody waits for it any more
            return
        if asked.sent == 1:
            asked.sent = 0  # it was not carried out
        self._kept.append(asked)
        connection.goes = True
        if asked.end is None:
            asked.end = timer = self._loop.call_later(self.timing.patience, end)
            self._timers.add(timer)

    def _relation(self, on: str) -> Relation:
        if self.state == "closed":
            raise NotSent("the client has ended")
        if on not in self._relations:
            self._relations[on] = relation = Relation(on, self._give_back, self.nulls)
            if self.role is not None:
                self._subscribe(relation)
        return self._relations[on]

    def _subscribe(self, relation: Relation) -> None:
        relation.is_asked = True

        def begin(reply: Reply) -> None:  # with the reply, as changes stand right behind it
            self._known[relation.on] = [(name, kind) for name, kind in reply["columns"]]
            if self._relations.get(relation.on) is not relation:
                return self._unsubscribe(reply["sub"])
            relation.begin(self._known[relation.on], reply["sub"])
            assert self._connection is not None
            self._connection.by_sub[reply["sub"]] = relation
            self._connection.changed[relation] = None

        def settled(came: Reply | ViewdError) -> None:
            if isinstance(came, Refused):
                self._refused(relation, came)

        self._ask(Asked({"do": "subscribe", "on": relation.on}, self._loop.create_future(), begin, settled))

    def _refused(self, relation: Relation, why: Refused) -> None:
        relation.is_asked = False
        if self._relations.get(relation.on) is not relation:
            return
        relation.clear()
        relation.state, relation.why = "refused", why
        _tell(relation.show())
        if why.code in (LIMIT, TOO_MANY):
            self._after(relation)

    def _unsubscribe(self, sub: int) -> None:
        assert self._connection is not None
        self._connection.by_sub.pop(sub, None)

        def settled(came: Reply | ViewdError) -> None:
            # ended meanwhile is as well; and where there is room again, those who found none are tried
            if not isinstance(came, ViewdError):
                self._retry(lambda it: isinstance(it.why, Refused) and it.why.code == TOO_MANY)

        self._ask(Asked({"do": "unsubscribe", "sub": sub}, self._loop.create_future(), then=settled))

    def _give_back(self, relation: Relation) -> None:
        if self._relations.get(relation.on) is not relation:
            return
        del self._relations[relation.on]
        if self._connection is not None:
            self._connection.changed.pop(relation, None)
            if relation.sub is not None:
                self._unsubscribe(relation.sub)

    # Nobody tells when a relation is small enough, or when there is room: so it is tried again.
    def _after(self, relation: Relation) -> None:
        def act() -> None:
            self._timers.discard(timer)
            self._retry(lambda it: it is relation)

        timer = self._loop.call_later(self.timing.again, act)
        self._timers.add(timer)

    def _retry(self, which: Callable[[Relation], bool]) -> None:
        for relation in [*self._relations.values()]:
            if self.role is not None and relation.state == "refused" and not relation.is_asked and which(relation):
                self._subscribe(relation)

    # ---- what is told

    def _one(self, connection: _Connection, line: str) -> None:
        try:
            said = json.loads(line)
        except ValueError:
            raise _Lost("a line that is not understood") from None
        is_place = "at" in said and "names" in said
        if is_place:
            connection.place = said["at"]
        if connection.welcome:
            self._entered(connection, connection.welcome)  # by the line behind the role
        if is_place:
            return
        if said.get("settled"):
            self._settle(connection)
        elif any(key in said for key in ("ok", "error", "answer", "undecided")):
            self._reply(connection, said)
        elif "changes" in said:
            self._changes(connection, said)
        elif "granted" in said:
            connection.replied.append(lambda: self._retry(lambda it: True))
        elif "role" in said and self.role is None:
            connection.welcome = said
        elif "made" in said:
            connection.made.append(said)
        # alive, and what this client does not know, says nothing more than that the gateway is there

    def _entered(self, connection: _Connection, welcome: Reply) -> None:
        connection.welcome = None
        self.role, self.protocol, connection.since, self.why = welcome["role"], welcome.get("protocol"), time.monotonic(), None
        for asked in self._waiting:  # for others' answers from here on
            if asked.timer:
                asked.timer.cancel()
                asked.timer = None
        for relation in [*self._relations.values()]:
            self._subscribe(relation)
        self._send_again()
        self._flush()
        self._become("live")

    def _changes(self, connection: _Connection, said: Reply) -> None:
        relation = connection.by_sub.get(said["sub"])
        if relation is None:  # its last user has gone
            return
        relation.take(said["changes"])
        connection.changed[relation] = None
        if "ended" in said:
            del connection.by_sub[said["sub"]]
            relation.state, relation.why, relation.sub = "refused", said["ended"], None
            if said["ended"] == "limit":
                self._after(relation)

    def _reply(self, connection: _Connection, said: Reply) -> None:
        if not connection.asked:
            raise _Lost("a reply to no request")
        asked = connection.asked[0]
        if said.get("id") != asked.id and ("id" in said or said.get("error") not in WITHOUT_ID):
            raise _Lost("a reply to another request")
        connection.asked.pop(0)
        connection.place = said.get("at", connection.place)
        if "undecided" in said:
            code = said["undecided"]
            if code == AGAIN and asked.name is not None:
                return self._keep_for_later(asked)
            if code == ELSEWHERE and asked.name is not None and len(self.urls) > 1 and not asked.is_over:
                return self._go_on(connection, asked)
            if code == LATE and asked.name is not None and asked.sent == 1:
                asked.name = asked.timer = None
                return connection.late.append(asked)
            return connection.replied.append(lambda: asked.come(Undecided(code)))
        reply = said.get("answer", said)
        if reply.get("ok"):
            asked.first(reply)
        connection.replied.append(lambda: asked.come(reply if reply.get("ok") else Refused(reply)))

    def _settle(self, connection: _Connection) -> None:
        changed, connection.changed = [*connection.changed], {}
        _tell([user for relation in changed for user in relation.show()])
        replied, connection.replied = connection.replied, []
        for act in replied:
            act()
        if connection.goes and not connection.asked:
            raise _Lost("it follows a log that others decide")
        # What was sent once, and came too late, was not carried out. Who comes anew is told another place, and sends it by another name.
        if connection.late and not connection.asked:
            raise _Lost("others of its holder have had many names")
        if self.role is not None and connection is self._connection:
            self._flush()
        if not connection.is_in:
            connection.is_in = True
            self._turned.set()


def _tell(users: list[User]) -> None:
    """Listeners are called when all relations have applied what is new."""
    for user in users:
        user.tell()


def _count(place: str) -> int:
    return int(place.partition(".")[2])


async def _shut(socket: Any) -> None:
    try:
        await socket.close()
    except Exception:
        pass


def text(value: object) -> str:
    """The JSON of a value, without spaces."""
    return json.dumps(value, separators=(",", ":"), ensure_ascii=False)


def connect(url: str | Sequence[str], *, token: Token, columns: Mapping[str, Columns] | None = None, nulls: bool = False,
            on_error: Report | None = None, **timing: float) -> Db:
    """A client of the gateway at the address, as `ws://127.0.0.1:8080/live`, or of those of one log at several, within a running loop.

    `token` is a text, or a function that gives one, or an awaitable of it, for each try. `columns` are known beforehand, for a role that
    writes to what it may not read. With `nulls` a flag `NAME_null` right behind a column `NAME` is no column of its own, and says whether
    `NAME` is None. `on_error` is told what a listener or `where` raises; a log if it is left out. Other words are those of `Timing`, in
    seconds."""
    urls = [re.sub("^http(s?)://", r"ws\1://", it) for it in ([url] if isinstance(url, str) else url)]
    if not urls:
        raise ViewdError("there is no address")
    return Db(urls, token, columns, nulls, on_error, Timing(**timing))
