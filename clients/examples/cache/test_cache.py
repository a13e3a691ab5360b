"""The cache behind a gateway and a Redis of its own: exact at each position, across kills of each of them."""
# ruff: noqa: F811
import contextlib
import os
import pathlib
import random
import shutil
import subprocess
import sys
import threading
import time

import pytest

HERE = pathlib.Path(__file__).resolve().parent
sys.path.insert(0, str(HERE.parents[1] / "python/test"))

import viewd  # noqa: E402
from conftest import PATIENCE, gateway  # noqa: E402, F401
from ports import free_port  # noqa: E402

redis = pytest.importorskip("redis")
if not shutil.which("redis-server"):
    pytest.skip("redis-server is not installed", allow_module_level=True)
KEYS, POSITION, LIVE = (f"viewd:notes:{it}" for it in ("keys", "position", "live"))
LAST = 1 << 40  # the row that counts writes


def until(holds, patience=PATIENCE):
    end = time.monotonic() + patience
    while not (found := holds()):
        assert time.monotonic() < end, "it did not come"
        time.sleep(0.02)
    return found


class Store:
    """A Redis that syncs each write."""

    def __init__(self, folder):
        self.folder = folder
        self.port = free_port()
        self.url = f"redis://127.0.0.1:{self.port}"
        self.client = redis.Redis(port=self.port, decode_responses=True)
        self.start()

    def start(self):
        words = ["--port", self.port, "--dir", self.folder, "--bind", "127.0.0.1", "--save", "", "--appendonly", "yes", "--appendfsync", "always"]
        self.process = subprocess.Popen(["redis-server", *map(str, words)], stdout=subprocess.DEVNULL)
        until(self.answers)

    def answers(self):
        assert self.process.poll() is None, "redis-server has ended"
        with contextlib.suppress(redis.RedisError):
            return self.client.ping()

    def kill(self):
        self.process.kill()
        self.process.wait(PATIENCE)

    def held(self):
        """The position and the hashes as of one moment."""
        while True:
            with contextlib.suppress(redis.WatchError, redis.ConnectionError), self.client.pipeline() as pipe:
                pipe.watch(POSITION)
                at, keys = pipe.get(POSITION), sorted(pipe.smembers(KEYS))
                pipe.multi()
                for key in keys:
                    pipe.hgetall(f"viewd:notes:row:{key}")
                pipe.keys("viewd:notes:row:*")
                *hashes, names = pipe.execute()
                assert sorted(names) == sorted(f"viewd:notes:row:{key}" for key in keys)
                return at, dict(zip(keys, hashes))


@pytest.fixture
def store(tmp_path):
    store = Store(tmp_path)
    try:
        yield store
    finally:
        store.kill()


class Follower:
    """`follow.py` for a role, started again wherever it ends by itself, as a service is."""

    def __init__(self, gateway, store, role="ann", again=False):
        self.words = [HERE / "follow.py", "notes", "--key", "id", "--url", gateway.url, "--redis", store.url]
        self.env, self.again = {**os.environ, "VIEWD_TOKEN": f"{role}-demo"}, again
        self.said = (gateway.folder / "follower").open("ab+")
        self.start()

    def start(self):
        self.process = subprocess.Popen(self.words, env=self.env, stderr=self.said)

    def keep(self):
        if self.again and self.process.poll() is not None:
            self.start()

    def kill(self):
        self.process.kill()
        self.process.wait(PATIENCE)

    def ended(self):
        """Its status, and what it said last."""
        status = self.process.wait(PATIENCE)
        self.said.seek(0)
        return status, self.said.read().decode().splitlines()[-1]


@contextlib.contextmanager
def following(*words, **how):
    follower = Follower(*words, **how)
    try:
        yield follower
    finally:
        follower.kill()


def row(id, who="ann", done=False):
    return {"id": id, "who": who, "done": done}


def hash_of(row):
    return {"id": str(row["id"]), "who": row["who"], "done": str(row["done"]).lower()}


def hashes_of(rows):
    return {str(it["id"]): hash_of(it) for it in rows}


def test_rows_come_change_and_go(gateway, store):
    with viewd.plain.connect(gateway.url, token="ann-demo") as ann, following(gateway, store):
        until(lambda: store.client.get(LIVE))
        until(lambda: 0 < store.client.ttl(LIVE) <= 30)
        assert store.held()[1] == {}
        ann.insert("notes", row(7, "a:b"), copies=2)
        until(lambda: store.held()[1] == hashes_of([row(7, "a:b")]))
        before = store.client.get(POSITION)
        ann.remove("notes", row(7, "a:b"))  # one copy is left
        ann.write([{"on": "notes", "update": [row(7, "a:b"), row(7, "mia", True)]}, {"on": "notes", "insert": row(2 ** 63 - 1)}])
        until(lambda: store.held()[1] == hashes_of([row(7, "mia", True), row(2 ** 63 - 1)]))
        count, _, own = before.partition(" ")
        assert store.client.get(POSITION) == f"{int(count) + 2} {own}"  # a position for each event
        ann.insert("notes", row(7, "eve"))  # of two rows with one key the first is shown, until it goes
        until(lambda: store.held()[1]["7"]["who"] == "eve")
        ann.remove("notes", row(7, "eve"))
        until(lambda: store.held()[1]["7"]["who"] == "mia")


def test_what_a_role_may_not_see_is_not_there(gateway, store):
    with viewd.plain.connect(gateway.url, token="ann-demo") as ann:
        ann.write([{"on": "notes", "insert": row(1, "mia")}, {"on": "notes", "insert": row(2)}])
        with following(gateway, store, "mia") as follower:
            until(lambda: store.held()[1] == hashes_of([row(1, "mia")]))
            ann.request({"do": "create_policy", "on": "notes", "name": "every", "command": "select", "using": "true"})
            until(lambda: len(store.held()[1]) == 2)
            ann.request({"do": "revoke", "on": "notes", "privileges": ["select"], "to": "mia"})
            assert follower.ended() == (1, "cache: notes was ended: privilege") and store.held()[1] == {}
        ann.request({"do": "grant", "on": "notes", "privileges": ["select"], "to": "mia"})
        with following(gateway, store, "mia"):
            until(lambda: len(store.held()[1]) == 2)
        ann.request({"do": "revoke", "on": "notes", "privileges": ["select"], "to": "mia"})
        with following(gateway, store, "mia") as follower:  # what was taken while nobody followed
            assert follower.ended() == (1, "cache: missing privilege (13), on notes, privilege select") and store.held()[1] == {}


def test_a_restart_writes_what_is_other(gateway, store):
    with viewd.plain.connect(gateway.url, token="ann-demo") as ann:
        ann.write([{"on": "notes", "insert": row(at)} for at in range(5)])
        with following(gateway, store):
            until(lambda: len(store.held()[1]) == 5)
        ann.write([{"on": "notes", "delete": row(0)}, {"on": "notes", "update": [row(1), row(1, "mia")]}, {"on": "notes", "insert": row(9)}])
        store.client.hset("viewd:notes:row:2", "who", "somebody")
        store.client.config_resetstat()
        with following(gateway, store):
            until(lambda: store.held()[1] == hashes_of([row(1, "mia"), row(2), row(3), row(4), row(9)]))
            assert store.client.info("commandstats")["cmdstat_hset"]["calls"] == 3 * 3


def test_one_that_starts_takes_over(gateway, store):
    with viewd.plain.connect(gateway.url, token="ann-demo") as ann, following(gateway, store) as first:
        ann.insert("notes", row(1))
        until(lambda: len(store.held()[1]) == 1)
        own = store.client.get(POSITION).partition(" by ")[2]
        with following(gateway, store):
            until(lambda: store.client.get(POSITION).partition(" by ")[2] != own)
            ann.insert("notes", row(2))
            status, said = first.ended()
            assert status == 1 and "another follower has taken over" in said
            until(lambda: len(store.held()[1]) == 2)


def test_a_redis_that_lost_what_was_written(gateway, store):
    with viewd.plain.connect(gateway.url, token="ann-demo") as ann:
        ann.write([{"on": "notes", "insert": row(1)}, {"on": "notes", "insert": row(2)}])
        with following(gateway, store) as follower:
            until(lambda: len(store.held()[1]) == 2)
            store.client.flushall()
            ann.insert("notes", row(3))
            status, said = follower.ended()
            assert status == 1 and "at position None" in said
        with following(gateway, store):
            until(lambda: store.held()[1] == hashes_of([row(1), row(2), row(3)]))


def test_exact_across_kills_of_each(gateway, store):
    """Each write replaces a row by one of the next number, and the count in another: at each position they are of one write."""
    writing = threading.Event()
    with viewd.plain.connect(gateway.url, token="ann-demo", shortest=0.05) as ann, following(gateway, store, again=True) as follower:
        ann.write([{"on": "notes", "insert": row(0, "pair")}, {"on": "notes", "insert": row(LAST, "0")}])
        counts, number = [], 0
        seed = random.randrange(1 << 32)
        print(f"the seed is {seed}")
        dice = random.Random(seed)
        ends = [follower.kill, store.kill, gateway.kill, lambda: store.client.execute_command("CLIENT", "KILL", "TYPE", "normal")]

        def counted():
            """As of the cache, how many writes there were."""
            return int(store.held()[1].get(str(LAST), {"who": -1})["who"])

        def write():
            nonlocal number
            while not writing.is_set():
                after = number + 1
                with contextlib.suppress(viewd.Undecided, viewd.NotSent, viewd.Refused):
                    ann.write([{"on": "notes", "update": [row(number, "pair"), row(after, "pair")]},
                               {"on": "notes", "update": [row(LAST, str(number)), row(LAST, str(after))]}])
                # what was undecided is looked up
                with contextlib.suppress(viewd.NotSent, viewd.Undecided):
                    number = max(int(it["id"]) for it in ann.rows("notes", where={"who": "pair"}))

        def there():
            while True:
                with contextlib.suppress(viewd.NotSent, viewd.Undecided):
                    return ann.rows("notes")

        thread = threading.Thread(target=write, daemon=True)
        thread.start()
        try:
            for turn in range(8):
                until(lambda: follower.keep() or counted() >= 3 * turn)
                with contextlib.suppress(redis.RedisError):
                    dice.choice(ends)()
                if store.process.poll() is not None:
                    store.start()
                if gateway.process.poll() is not None:
                    gateway.start()
                for _ in range(10):
                    follower.keep()
                    held = store.held()[1]
                    count = held[str(LAST)]["who"]
                    assert {*held} == {count, str(LAST)}, held
                    counts.append(int(count))
            assert counts == sorted(counts), counts
            until(lambda: follower.keep() or counted() > 20)
        finally:
            writing.set()
            thread.join()
        until(lambda: follower.keep() or store.held()[1] == hashes_of(there()))
        assert max(counts) > 10
