#!/usr/bin/python3
"""Keeps a relation as hashes in Redis: at each moment exactly what a role saw at one moment, across restarts of anything.

    VIEWD_TOKEN=.. clients/examples/cache/follow.py tickets --key id --redis redis://127.0.0.1:6379

    viewd:tickets:row:7       a hash with the columns of the row whose key is 7
    viewd:tickets:keys        the set of the keys
    viewd:tickets:position    which follower wrote, and how many times
    viewd:tickets:live        is there while the follower and the gateway are, and no longer than 30 seconds behind either

What changed together is written in one transaction, and the position is a part of it. So it tells after a lost connection whether the last
transaction was done, and after a restart of Redis whether what was written has been lost. A follower that finds another position than its own ends
with status 1; one that starts takes over, and writes what is other than it should be. Whoever reads several keys as of one moment reads them in a transaction.
"""
import argparse
import asyncio
import contextlib
import os
import pathlib
import sys
import uuid
from collections.abc import Awaitable, Callable
from typing import Any, TypeVar

import redis.asyncio as redis
from redis.exceptions import RedisError, WatchError

sys.path.insert(0, str(pathlib.Path(__file__).resolve().parents[2] / "python"))

import viewd  # noqa: E402

LIVE = 30  # seconds
Hash = dict[str, str]
Values = tuple[tuple[str, viewd.Value], ...]
T = TypeVar("T")


class Ended(Exception):
    """Why the follower ends."""


class Cache:
    """The hashes of a relation in Redis."""

    def __init__(self, store: "redis.Redis[Any]", on: str, key: list[str]):
        self.store, self.key = store, key
        self.rows, self.keys, self.position, self.live = (f"viewd:{on}:{it}" for it in ("row", "keys", "position", "live"))
        self.own, self.count = uuid.uuid4().hex, 0
        self.at: str | None = None  # the position that this follower has found or written last
        self.held: dict[str, dict[Values, int]] = {}  # rows by their key, with their copies

    def take(self, changes: list[viewd.Change]) -> dict[str, Hash | None]:
        """The hashes of all keys that change; None of those that are dropped. Of rows with one key the first one is shown."""
        hashes: dict[str, Hash | None] = {}
        for it in changes:
            rows, values = self.held.setdefault(self.key_of(it.row), {}), tuple(it.row.items())
            rows[values] = rows.get(values, 0) + it.copies
            if not rows[values]:
                del rows[values]
        for key in {self.key_of(it.row) for it in changes}:
            hashes[key] = {name: word(value) for name, value in min(self.held[key])} if self.held[key] else None
            if not self.held[key]:
                del self.held[key]
        return hashes

    def key_of(self, row: viewd.Row) -> str:
        return ":".join(word(row[name]).replace("%", "%25").replace(":", "%3A") for name in self.key)

    async def begin(self, wanted: dict[str, Hash | None]) -> None:
        """Takes over: from here on Redis has these hashes and no others."""
        while not self.count:
            self.at = await asked(lambda: self.store.get(self.position))
            with contextlib.suppress(Ended):
                await self.write({})  # now nobody else writes
        there = await asked(self.hashes)
        other = {key: it for key, it in wanted.items() if there.get(key) != it}
        await self.write(other | {key: None for key in there if key not in wanted})

    async def hashes(self) -> dict[str, Hash]:
        """What is there."""
        keys = sorted(await self.store.smembers(self.keys))
        found: list[Hash] = []
        for at in range(0, len(keys), 1000):
            async with self.store.pipeline(transaction=False) as pipe:
                for key in keys[at:at + 1000]:
                    pipe.hgetall(f"{self.rows}:{key}")
                found += await pipe.execute()
        return dict(zip(keys, found))

    async def write(self, hashes: dict[str, Hash | None]) -> None:
        """Writes all of them and the next position, or nothing. Raises Ended if the position is another's."""
        after = f"{self.count + 1} by {self.own}"
        while not await asked(lambda: self.written(hashes, after)):
            pass
        self.count, self.at = self.count + 1, after

    async def written(self, hashes: dict[str, Hash | None], after: str) -> bool:
        async with self.store.pipeline() as pipe:
            await pipe.watch(self.position)
            at = await pipe.get(self.position)
            if at == after:
                return True  # by a try whose answer was lost
            if at != self.at:
                raise Ended(f"Redis is at position {at}, not at {self.at}: another follower has taken over, or writes were lost")
            pipe.multi()
            for key, values in hashes.items():
                pipe.delete(f"{self.rows}:{key}")
                if values is None:
                    pipe.srem(self.keys, key)
                else:
                    for name, value in values.items():
                        pipe.hset(f"{self.rows}:{key}", name, value)
                    pipe.sadd(self.keys, key)
            pipe.set(self.position, after)
            with contextlib.suppress(WatchError):
                await pipe.execute()
                return True
        return False

    async def beat(self, db: viewd.Db) -> None:
        while True:
            is_live = db.state == "live" and self.count > 1
            if is_live:
                await asked(lambda: self.store.set(self.live, self.own, ex=LIVE))
            await asyncio.sleep(LIVE / 3 if is_live else 0.2)


async def asked(ask: Callable[[], Awaitable[T]]) -> T:
    """What Redis answers, however often it is asked."""
    wait = 0.05
    while True:
        try:
            return await ask()
        except (RedisError, OSError) as why:
            print(f"cache: {why}; trying again", file=sys.stderr, flush=True)
        await asyncio.sleep(wait)
        wait = min(2 * wait, 5)


def word(value: viewd.Value) -> str:
    return str(value).lower() if isinstance(value, bool) else str(value)


async def follow(db: viewd.Db, cache: Cache, on: str) -> None:
    """Raises Ended, and what the client raises: then the cache is empty."""
    try:
        async for changes in db.changes(on):
            hashes = cache.take(changes)
            await (cache.write(hashes) if cache.count else cache.begin(hashes))
    except viewd.Refused:
        if not cache.count:  # what an earlier follower has left is not for this role any more
            await cache.begin({})
        raise


async def main(given: argparse.Namespace) -> int:
    cache = Cache(redis.from_url(given.redis, decode_responses=True), given.relation, given.key.split(","))
    try:
        async with viewd.connect(given.url.split(), token=os.environ.get("VIEWD_TOKEN") or sys.exit("cache: VIEWD_TOKEN has no token")) as db:
            beat = asyncio.create_task(cache.beat(db))
            try:
                await follow(db, cache, given.relation)
            finally:
                beat.cancel()
    except (Ended, viewd.ViewdError) as why:
        print(f"cache: {why}", file=sys.stderr)
    return 1


if __name__ == "__main__":
    words = argparse.ArgumentParser(description=__doc__.splitlines()[0])
    words.add_argument("relation")
    words.add_argument("--key", required=True, help="the columns, with commas, that tell rows apart")
    words.add_argument("--redis", default="redis://127.0.0.1:6379")
    words.add_argument("--url", default=os.environ.get("VIEWD_URL", "ws://127.0.0.1:8080/live"), help="the gateway, or several of one log; VIEWD_URL, or %(default)s")
    with contextlib.suppress(KeyboardInterrupt):
        sys.exit(asyncio.run(main(words.parse_args())))
