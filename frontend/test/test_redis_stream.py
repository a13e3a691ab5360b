"""A log as a stream of Redis, over a real redis-server: who may append, what readers see of damage, which Redis is not asked, and how keepers end.

GATEWAY names another program than the one that is built."""
import hashlib
import re
import signal
import subprocess
from collections.abc import Callable
from typing import Any

import pytest

import door
import redis_log
from journal import Damaged
from leader import Another
from party import REDIS_LOG, Machine, ends
from redis_log import Keeper
from redis_stream import Away, Lost, Unfit
from store import EPOCH, LONG, WORD, Store, entry, opened, written
from trial import until
from wire import PATIENCE, TOP


def raises(kind: type[Exception], words: str, what: Callable[[], Any]) -> None:
    with pytest.raises(kind, match=re.escape(words)):
        what()


def status(*words: Any, **more: Any) -> tuple[int, str]:
    """Of a keeper that has to end by itself, and what it says."""
    done = subprocess.run([REDIS_LOG, *words], stdin=subprocess.DEVNULL, capture_output=True, text=True, timeout=PATIENCE, **more)
    assert "Traceback" not in done.stderr, done.stderr
    return done.returncode, done.stderr


def test_who_has_lost_the_lease_appends_nothing(store: Store) -> None:
    one, two, reader = opened(store), opened(store), opened(store)
    assert one.take() and not two.take() and store.client.pttl("desk:lease") > 0
    one.append([[entry(1)], [entry(2), entry(3)]])
    assert len(two.more()) == 2 and not two.take() and two.more(10) == []
    assert 0 < store.client.pttl("desk:lease") <= 1000 * LONG  # it passes by itself
    store.client.pexpire("desk:lease", 1)
    until(two.take, "the lease does not pass")
    two.append([[entry(4)]])
    for what in (lambda: one.append([[entry(5)]]), one.renew):
        raises(Lost, "the lease has passed", what)
    one.release()  # which is not its own any more
    two.renew()
    two.append([[entry(6)]])
    two.release()
    assert one.take() and store.client.get("desk:number") == b"3"
    assert [len(lines) for lines in store.steps()] == [1, 2, 1, 1]
    assert reader.more() == [(1, [entry(1)]), (2, [entry(2), entry(3)]), (3, [entry(4)]), (4, [entry(6)])] and reader.digest == two.digest


def test_an_append_is_made_once(store: Store) -> None:
    """One whose answer was lost is sent again, and makes nothing more; one behind other steps is refused."""
    log = opened(store)
    assert log.take()
    for steps in ([[entry(1)]], [[entry(2)], [entry(3)]]):
        before = log.position, log.digest
        log.append(steps)
        after = log.position, log.digest
        log.position, log.digest = before
        log.append(steps)
        assert (log.position, log.digest) == after and len(store.steps()) == log.position
    log.position, log.digest = before
    for steps in ([[entry(4)]], [[entry(4)], [entry(5)]], [[entry(2)], [entry(3)], [entry(4)]]):
        raises(Damaged, "somebody has written beside who leads", lambda: log.append(steps))
    assert len(store.steps()) == after[0]


def test_what_is_promised_is_shown() -> None:
    """Each row of what OPERATING says of logs names tests that are there."""
    tests = "".join(it.read_text() for at in ("frontend/test", "clients/python/test") for it in (TOP / at).glob("test_*.py"))
    document = (TOP / "docs/OPERATING.md").read_text()
    rows = [row.split("|") for part in re.findall(r"(?ms)^\|[^\n]*\| shown by.*?\n\n", document) for row in part.splitlines()[2:] if row]
    assert len(rows) > 20
    for row in rows:
        named = re.findall("`([a-z_]+(?:[.]py)?)`", row[-2])
        assert named or row[-2].strip() == "the same", row
        for it in named:
            assert (TOP / "frontend/test" / it).is_file() if it.endswith(".py") else f"def test_{it}(" in tests, it


def test_a_step_is_an_entry(store: Store) -> None:
    """As it is told, by who has no part in it."""
    written(store, 3)
    digest = ""
    for number, (identifier, fields) in enumerate(store.client.xrange("desk"), 1):
        digest = hashlib.sha256(digest.encode() + entry(number - 1)).hexdigest()[:32]
        assert (identifier, fields) == (b"%d-0" % number, {b"lines": entry(number - 1), b"digest": digest.encode()})
    assert store.client.get("desk:epoch").decode() == EPOCH


def test_a_stream_is_read_in_its_order(store: Store) -> None:
    """What is missing, stands twice, is out of order or is another is seen by each reader, and stops it."""
    written(store, 5)
    good = store.client.xrange("desk")
    gone, twice, turned, other = good[:2] + good[3:], good[:3] + [(b"4-0", good[2][1])], list(good), list(good)
    turned[1:3] = [(b"2-0", good[2][1]), (b"3-0", good[1][1])]
    other[2] = b"3-0", good[2][1] | {b"lines": entry(7)}
    renumbered = [(b"%d-0" % number, fields) for number, (_, fields) in enumerate(gone, 1)]
    no_step = good[:2] + [(b"3-0", {b"line": entry(7)})]
    for what in (gone, twice, turned, other, renumbered, no_step, good[1:]):
        store.client.delete("desk")
        for identifier, fields in what:
            store.client.xadd("desk", fields, identifier)
        reader = opened(store)
        with pytest.raises(Damaged):
            reader.more()
        assert reader.position < 4
    ends(Machine(store.url), 1, "stands behind step 0")


def test_a_redis_that_may_lose_what_it_is_told_is_not_asked(store: Store) -> None:
    for word, bad, good in (("appendonly", "no", "yes"), ("appendfsync", "everysec", "always"), ("appendfsync", "no", "always"), ("no-appendfsync-on-rewrite", "yes", "no"),
                            ("maxmemory-policy", "allkeys-lru", "noeviction"), ("maxmemory-policy", "volatile-ttl", "noeviction")):
        log = opened(store)
        store.client.config_set(word, bad)
        told = f"may lose what it is told: {word} is {bad}, not {good}"
        raises(Unfit, told, lambda: opened(store))
        store.client.client_kill_filter(_type="normal", skipme=True)  # and one that comes back is asked again
        try:
            log.last()
        except Away:
            raises(Unfit, told, log.last)
        except Unfit as why:
            assert told in str(why)
        else:
            raise AssertionError(word)
        store.client.config_set(word, good)
    store.client.config_set("no-appendfsync-on-rewrite", "yes")
    ends(Machine(store.url), 1, "may lose what it is told: no-appendfsync-on-rewrite is yes, not no")
    store.client.config_set("no-appendfsync-on-rewrite", "no")
    store.client.execute_command("ACL", "SETUSER", "viewd", "on", ">secret", "~*", "&*", "+@all", "-config")
    raises(Unfit, "refuses", lambda: opened(store, store.url.replace(f":{WORD}@", "viewd:secret@")))


def test_an_end_that_is_lost_is_told(store: Store) -> None:
    written(store, 5)
    early, late = opened(store), opened(store)
    assert len(early.more()) == len(late.more()) == 5
    store.client.execute_command("XDEL", "desk", "5-0")
    store.client.client_kill_filter(_type="normal", skipme=True)
    for it in (early, late):
        with pytest.raises((Another, Away)) as why:
            it.more()
        if why.type is Away:
            raises(Another, "has lost its end: it has 4 steps, and its step 5 was taken in here", it.more)
    one = opened(store)
    store.client.set("desk:epoch", "0" * 32)
    store.client.client_kill_filter(_type="normal", skipme=True)
    with pytest.raises((Another, Away)) as why:
        one.more()
    if why.type is Away:
        raises(Another, "is another log now", one.more)


def test_redis_may_ask_for_tls_and_a_password(store: Store, monkeypatch: pytest.MonkeyPatch) -> None:
    for url in (store.url.replace(WORD, "wrong"), store.url.replace(f":{WORD}@", "")):
        ends(Machine(url), 1, "redis://127.0.0.1")
    monkeypatch.setenv("REDISCLI_AUTH", WORD)
    assert opened(store, store.url.replace(f":{WORD}@", "")).last() == 0
    monkeypatch.delenv("REDISCLI_AUTH")
    found = re.search(r"(?m)^user (viewd .*)$", (TOP / "docs/OPERATING.md").read_text())
    assert found
    store.client.execute_command("ACL", "SETUSER", *found[1].split())
    url = store.url.replace(f":{WORD}@", "viewd:A-LONG-PASSWORD@")
    one = opened(store, url)
    assert one.take()
    one.append([[entry(1)]])
    one.renew()
    assert one.put_snapshot([entry(1)], 1) and opened(store, url).snapshot() == [entry(1)] and one.more(10) == []
    one.release()
    safe = Store(tls=True)
    try:
        assert written(safe, 3).last() == 3 and WORD not in opened(safe).where
        raises(Away, "certificate", lambda: opened(safe, safe.url.partition("?")[0]))
    finally:
        safe.end()


def test_words_of_a_keeper(store: Store) -> None:
    wrong: list[list[Any]] = [[], [store.url], [store.url, "--port", "1"], [store.url, "--port", "1", "--", "x"], ["http://127.0.0.1/desk", "--", "x"], ["redis://127.0.0.1", "--", "x"],
                              ["redis://127.0.0.1/a/b", "--", "x"], [store.url, "--lease", "0", "--", "x"], [store.url, "--lease", "nan", "--", "x"], [store.url, "--follow", "--seed", "x", "--", "x"]]
    for some in wrong:
        assert status(*some)[0] == 2, some
    assert status(store.url, "--", "/nonexistent") == (3, "redis_log: no gateway: [Errno 2] No such file or directory: '/nonexistent'\n")
    assert status(store.url, "--", "/bin/false") == (4, "redis_log: the gateway has ended\n")
    assert status("--seed", "/nonexistent", store.url, "--", "/bin/false") == (1, "redis_log: [Errno 2] No such file or directory: '/nonexistent'\n")


class Told:
    """A gateway's side of the door, as its keeper has it: what it was told, and it is on disk at once."""

    def __init__(self) -> None:
        self.words: list[str] = []
        self.at = 0

    def hello(self) -> door.Held:
        return door.Held(65_536)

    def kept(self) -> int:
        return self.at

    def step(self, start: int, end: int, lines: list[bytes]) -> None:
        self.words.append(f"step {start} {end}")
        self.at = end

    def hear(self, seconds: float) -> bytes:
        if seconds:
            raise door.Ended("enough")
        return b""

    def __getattr__(self, name: str) -> Callable[..., None]:
        return lambda *_: self.words.append(name)


def test_who_leads_has_read_to_the_end(store: Store, monkeypatch: pytest.MonkeyPatch) -> None:
    """Steps that came between its last look and the lease are brought before it is to lead."""
    one, two, told = written(store, 2), opened(store), Told()
    assert one.take()
    take = two.take

    def late() -> bool:
        if one.lease:
            one.append([[entry(2)], [entry(3)]])
            one.release()
        return take()
    monkeypatch.setattr(two, "take", late)
    with pytest.raises(door.Ended, match="enough"):
        Keeper(two, told, True).run()  # type: ignore[arg-type]
    words = [it for it in told.words if it != "flush"]
    assert words == ["begin", "step 0 1", "step 1 2", "open", "step 2 3", "step 3 4", "lead"]
    assert two.lease and two.position == 4
    two.release()


def test_a_snapshot_comes_in_steps_that_a_gateway_takes(store: Store, monkeypatch: pytest.MonkeyPatch) -> None:
    """Of some lines and bytes at most."""
    log, lines = written(store, 3), [entry(number) for number in range(25)]
    assert log.put_snapshot(lines, 1) and not log.put_snapshot(lines, 1)
    assert [len(it) for it in store.steps()] == [1] and len(store.client.keys("desk:snapshot:*")) == 1
    size = sum(len(it) + 1 for it in lines[:16])
    cases: list[tuple[int, int, list[int]]] = [(10, 1 << 20, [10, 20]), (1 << 20, size, [16]), (1 << 20, size - 1, [15]), (25, 1 << 20, []), (7, 1 << 20, [7, 14, 21])]
    for most_lines, most_bytes, cuts in cases:
        monkeypatch.setattr(redis_log, "MOST_LINES", most_lines)
        monkeypatch.setattr(redis_log, "MOST_BYTES", most_bytes)
        begun = opened(store)
        if len(cuts) > 2:  # more steps than there are positions
            raises(Damaged, "a snapshot of step 3 has 25 lines", lambda: [*redis_log.pieces(begun.snapshot(), begun.position)])
            continue
        told = [*redis_log.pieces(begun.snapshot(), begun.position)]
        places = [0, *cuts, 25]
        assert [it for _, _, some in told for it in some] == lines and [len(some) for _, _, some in told] == [b - a for a, b in zip(places, places[1:])]
        assert [(start, end) for start, end, _ in told] == [(at, at + 1) for at in range(len(cuts))] + [(len(cuts), 3)]
        assert begun.position == 3 and begun.digest == log.digest and begun.more(10) == []
    store.client.rpop(store.client.keys("desk:snapshot:*")[0])
    raises(Damaged, "the snapshot of step 3 has 24 lines, and not 25", opened(store).snapshot)


def test_a_compaction_of_a_redis_that_stands_still_says_so(store: Store) -> None:
    written(store, 3)
    store.process.send_signal(signal.SIGSTOP)
    try:
        done = subprocess.run([TOP / "frontend/compact.py", store.url, "/bin/false"], capture_output=True, text=True, timeout=PATIENCE)
    finally:
        store.process.send_signal(signal.SIGCONT)
    assert done.returncode == 1 and "is away" in done.stderr and "Traceback" not in done.stderr, done
