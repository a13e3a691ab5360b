#!/usr/bin/python3
"""Writes a journal anew: the requests that make its roles, relations, rights and policies, and then the rows as they are now.

    frontend/compact.py [--rows N] [--copy] [--steps N] JOURNAL [VIEWD]

viewd has no dump, so it is told the journal and the administrator subscribes to each table. What was written is read
back by another viewd before it takes the journal's place. If anything differs, the journal stays as it was.

A file, the journal of ./gateway, is written anew while no gateway writes it, and has no more who wrote what and when: a copy of the
old one keeps that. The last 64 names of each holder stay, with their answers. A copy that is to go on in the place of a journal that had more gets
another epoch by --copy. Of a log, redis://HOST:PORT/NAME, the lines are kept as a snapshot of the step to which it was read, gateways
that have none of it begin there, and steps are dropped that are older; gateways run meanwhile. It has all names, which are a fifth of a kilobyte each.
"""
import argparse
import contextlib
import fcntl
import json
import os
import pathlib
import subprocess
import sys
from collections.abc import Callable, Iterable, Iterator
from typing import Any

import audit
from journal import BODY, Damaged, Request, Shape, by_role, entry_of, replay, to_text

ENTRIES = 1000  # of a write

Rows = dict[str, list[Any]]  # of each table: pairs of copies and row


class Viewd:
    """A viewd that is asked one thing after another."""

    def __init__(self, words: list[str | pathlib.Path]):
        self.process = subprocess.Popen(words, stdin=subprocess.PIPE, stdout=subprocess.PIPE)
        assert self.process.stdin and self.process.stdout
        self.to, self.told = self.process.stdin, self.process.stdout
        self.sessions: dict[str, int] = {}

    def ask(self, role: str, request: Request) -> tuple[Request, list[Any]]:
        """The reply, and the changes that came before it. Raises Damaged if it is no acceptance."""
        if role not in self.sessions and request["do"] != "begin":
            self.ask(role, {"do": "begin", "role": role})
        session = self.sessions.setdefault(role, len(self.sessions) + 1)
        self.to.write(to_text(request | {"session": session}) + b"\n")
        self.to.flush()
        changes: list[Any] = []
        while "changes" in (line := json.loads(self.told.readline() or "{}")):
            changes += line["changes"]
        if "ok" not in line:
            raise Damaged(f"viewd answers {line} to {request} of {role}")
        return line, changes

    def state(self, entries: Iterable[tuple[str, Request]]) -> tuple[Shape, Rows]:
        """Where the entries lead."""
        shape = Shape()
        for role, request in entries:
            self.ask(role, request)
            shape.apply(request)
        rows = {}
        for table in [name for name, made in shape.relations.items() if made["do"] == "create_table"]:
            sub = self.ask("admin", {"do": "subscribe", "on": table})[0]["sub"]
            # No line follows if the table is empty: the reply to the next request ends the wait.
            rows[table] = self.ask("admin", {"do": "unsubscribe", "sub": sub})[1]
        self.to.close()
        self.process.wait()
        return shape, rows


def lines(shape: Shape, rows: Rows) -> Iterator[bytes]:
    """The journal that leads to a state."""
    for request in shape.requests():
        yield by_role("admin", to_text(request)[1:-1])
    inserts: list[bytes] = []
    room = 0
    for table, pairs in rows.items():
        for copies, row in pairs:
            insert = to_text({"on": table, "insert": row} | ({"copies": copies} if copies > 1 else {}))
            if len(inserts) == ENTRIES or len(insert) + 1 > room:
                yield from write(inserts)
                inserts, room = [], BODY - len('"do":"write","entries":[]')
            inserts.append(insert)
            room -= len(insert) + 1
    yield from write(inserts)


def write(inserts: list[bytes]) -> Iterator[bytes]:
    if inserts:
        yield by_role("admin", b'"do":"write","entries":[%s]' % b",".join(inserts))


@contextlib.contextmanager
def locked(path: pathlib.Path) -> Iterator[None]:
    """Nobody else writes the journal meanwhile. Its lock is a file of its own, as another file comes to its place. Raises BlockingIOError."""
    with path.with_name(path.name + ".lock").open("w") as lock:
        fcntl.flock(lock, fcntl.LOCK_EX | fcntl.LOCK_NB)
        yield


def entries(journal: audit.Journal, where: pathlib.Path) -> Iterator[tuple[str, Request]]:
    """Role and request of each entry. Raises Damaged."""
    for number, text in enumerate(journal.entries, 1):
        yield entry_of(text.entry, f"{where}: entry {number}")


def replace(path: pathlib.Path, lines: Iterable[bytes], check: Callable[[pathlib.Path], None]) -> None:
    """Puts a file of these lines where `path` is, whole or not at all: not where `check` raises."""
    fresh = path.with_name(path.name + ".new")
    with fresh.open("wb") as file:
        os.fchmod(file.fileno(), 0o600)
        file.writelines(lines)
        file.flush()
        os.fsync(file.fileno())
    check(fresh)
    fresh.rename(path)
    folder = os.open(path.parent, os.O_RDONLY)
    try:
        os.fsync(folder)
    finally:
        os.close(folder)


def size_of(path: pathlib.Path) -> str:
    return f"{path.read_bytes().count(10):,} lines of {path.stat().st_size:,} bytes"


def names_of(journal: audit.Journal) -> dict[str, tuple[int, list[bytes]]]:
    """How many names of each holder there were, and the last ones."""
    return {holder: (own.count, own.recent) for holder, own in journal.owns.items()}


def compact(path: pathlib.Path, words: list[str | pathlib.Path], is_copy: bool) -> str:
    with locked(path):
        journal = audit.read(path.read_bytes(), str(path))
        before, was = Viewd(words).state(entries(journal, path)), size_of(path)

        def check(fresh: pathlib.Path) -> None:
            made = audit.read(fresh.read_bytes(), str(fresh))
            if Viewd(words).state(entries(made, fresh)) != before or names_of(made) != names_of(journal):
                raise Damaged(f"{fresh} leads to another state, so {path} stays")

        replace(path, audit.written(journal, lines(*before), is_copy), check)
        return f"{path}: {size_of(path)} instead of {was}"


def snapshot(url: str, words: list[str | pathlib.Path], rest: int) -> str:
    """Reads to the end that the log has now. Raises Damaged."""
    from leader import Another
    from redis_stream import Away, Log, Trimmed, Unfit  # (a file needs no Redis)
    try:
        log = Log(url)
        if not log.begun() or not (end := log.last()):
            raise Damaged(f"{log.where} is empty")
        said = log.snapshot()
        while log.position < end:
            if not (steps := log.more()):
                raise Damaged(f"{log.where} has lost its end")
            said += [line for _, lines in steps for line in lines]
        names = [it for it in said if it.startswith(b'{"once":')]
        before = Viewd(words).state(accepted(said, log.where))
        made = [it.rstrip(b"\n") for it in lines(*before)]
        if Viewd(words).state(accepted(made, log.where)) != before:
            raise Damaged(f"the snapshot leads to another state, so {log.where} stays")
        done = log.put_snapshot(made + names, rest)
    except (Another, Away, Unfit, Trimmed, ValueError) as why:
        raise Damaged(str(why)) from None
    if not done:
        return f"{log.where}: there is a snapshot of this step, or of a later one"
    return f"{log.where}: {len(made)} lines lead to the state of step {log.position}, and {len(names)} are names"


def accepted(lines: Iterable[bytes], where: str) -> Iterator[tuple[str, Request]]:
    """Role and request of each entry among the lines of steps."""
    return (entry_of(it, f"{where}: an entry") for it in lines if not it.startswith(b'{"once":'))


def main(given: argparse.Namespace) -> str:
    words = replay(given.viewd, given.rows)
    return snapshot(given.journal, words, given.steps) if "://" in given.journal else compact(pathlib.Path(given.journal), words, given.copy)


if __name__ == "__main__":
    here = pathlib.Path(__file__).resolve().parent
    words = argparse.ArgumentParser(description=__doc__, formatter_class=argparse.RawDescriptionHelpFormatter)
    words.add_argument("--rows", type=int, help="the row limit of viewd, if not its own: at least the one under which the journal was written")
    words.add_argument("--copy", action="store_true", help="another epoch: for a copy that goes on in the place of a journal that had more")
    words.add_argument("--steps", type=int, default=10_000, help="of a log that stay before its snapshot (10,000): who is less far behind needs none")
    words.add_argument("journal", metavar="JOURNAL")
    words.add_argument("viewd", metavar="VIEWD", nargs="?", default=here.parent / "viewd", type=pathlib.Path)
    try:
        print(main(words.parse_args()))
    except BlockingIOError:
        sys.exit("compact: another process writes this journal")
    except (Damaged, OSError) as why:
        sys.exit(f"compact: {why}")
