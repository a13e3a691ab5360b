"""What tests of the program have in common."""
import collections
import contextlib
import hashlib
import json
import resource
import time
from collections.abc import Callable, Iterable, Iterator
from typing import Any

from wire import PATIENCE, Ended, Gateway, Line, Wire

Rows = collections.Counter[tuple[Any, ...]]
BASE: list[Line] = [{"do": "create_role", "name": name} for name in ("ann", "bob", "mia")] + [
    {"do": "create_table", "name": "notes", "owner": "ann", "columns": [["id", "int"], ["who", "text"]]},
    {"do": "grant", "on": "notes", "privileges": ["select", "insert", "delete"], "to": "mia"},
    {"do": "grant", "on": "notes", "privileges": ["select"], "to": "bob"}]
FILES = 4096  # that the tests and the program may have open, if the system allows it


def many_files(count: int = FILES) -> None:
    """The process and those that it starts may have so many files open, or as many as the system allows."""
    most = resource.getrlimit(resource.RLIMIT_NOFILE)[1]
    resource.setrlimit(resource.RLIMIT_NOFILE, (most if most != resource.RLIM_INFINITY and most < count else count, most))


@contextlib.contextmanager
def serving(base: list[Line] = BASE, **how: Any) -> Iterator[tuple[Gateway, Wire]]:
    """A gateway that has carried out these requests, and its administrator."""
    gate = Gateway(**how)
    admin = gate.enter("admin")
    for it in base:
        assert admin.ask(it)[0].startswith('{"ok":true'), it
    yield gate, admin
    assert gate.process.poll() is None, gate.said()
    gate.end()


def until(holds: Callable[[], Any], what: str) -> None:
    """Waits until it holds."""
    end = time.monotonic() + PATIENCE
    while not holds():
        assert time.monotonic() < end, what
        time.sleep(0.05)


def comes_in(gate: Gateway, role: str) -> bool:
    try:
        return gate.enter(role) is not None
    except (Ended, OSError):
        return False


def insert(number: int, who: str, on: str = "notes", **keys: Any) -> Line:
    return {**keys, "do": "write", "entries": [{"on": on, "insert": [number, who]}]}


def total(lines: list[str], sub: int = 1) -> Rows:
    """What the lines for a number add up to."""
    rows: Rows = collections.Counter()
    for it in map(json.loads, lines):
        if it.get("sub") == sub:
            for copies, row in it.get("changes", []):
                rows[tuple(row)] += copies
    return collections.Counter({row: copies for row, copies in rows.items() if copies})


def chained(texts: Iterable[tuple[bool, bytes]], epoch: bytes = b"0123456789abcdef" * 2) -> bytes:
    """A journal of these texts behind a head, as OPERATING describes it. Each is the last of its record, or a part."""
    before, out = bytes(32), b""
    for is_last, text in ((True, b'"journal":1,"epoch":"%s","audit":1}' % epoch), *texts):
        mark = b'{"last":"' if is_last else b'{"part":"'
        before = hashlib.sha256(before + mark + text).digest()
        out += b'%s%s",%s\n' % (mark, before.hex().encode(), text)
    return out
