#!/usr/bin/python3
"""Searches a view of documents as far as a role may see it, in an index of SQLite's FTS5 that follows it, with a page that searches as one types.

    VIEWD_TOKEN=.. clients/examples/search/search.py pages --index pages.db --port 8081

Whoever may reach the port sees what the role sees: it is on 127.0.0.1. The texts of the view are indexed, and its other columns are shown. Rows and the
position, which counts what was applied, are written in one transaction: so the index is at each moment exactly what the role saw at one moment, and a
search that waits for more than a position is answered when there is something new. A start writes what is other than it was left.
"""
import argparse
import contextlib
import fcntl
import http.server
import json
import os
import pathlib
import re
import sqlite3
import sys
import threading
import urllib.parse
from collections.abc import Iterator

HERE = pathlib.Path(__file__).resolve().parent
sys.path.insert(0, str(HERE.parents[1] / "python"))

import viewd  # noqa: E402
from viewd import plain  # noqa: E402

SHOWN = 20  # results
MOST = 16  # words of a search
WAIT = 20  # seconds for which a search waits for something new, at most
FILES = {"/": ("index.html", "text/html"), "/search.js": ("search.js", "text/javascript"), "/search.css": ("search.css", "text/css")}
FORM = "1"  # of the file: one of another form, or of other columns, is made anew


class Index:
    """Rows by their JSON in a table, and their texts in an index by the same numbers."""

    def __init__(self, file: pathlib.Path):
        self.file, self.news = file, threading.Condition()

    @contextlib.contextmanager
    def opened(self) -> Iterator[sqlite3.Connection]:
        with contextlib.closing(sqlite3.connect(self.file, timeout=60, isolation_level=None)) as base:
            base.execute("pragma synchronous = full")
            yield base

    @contextlib.contextmanager
    def writing(self) -> Iterator[sqlite3.Connection]:
        """A transaction, after which those who wait are told."""
        with self.opened() as base:
            base.execute("begin immediate")
            yield base
            base.execute("update position set at = at + 1")
            base.execute("commit")
        with self.news:
            self.news.notify_all()

    def begin(self, columns: viewd.Columns) -> None:
        """Makes the tables, if those that are there are of another form."""
        if not (texts := [kind for _, kind in columns if kind == "text"]):
            raise viewd.ViewdError("there is no text to be searched")
        form = json.dumps([FORM, columns])
        with self.opened() as base:
            base.execute("pragma journal_mode = wal")
            base.execute("begin immediate")
            base.execute("create table if not exists form (text)")
            if base.execute("select text from form").fetchone() != (form,):
                for name in ("rows", "texts", "position"):
                    base.execute(f"drop table if exists {name}")
                base.execute("delete from form")
                base.execute("insert into form values (?)", [form])
                base.execute("create table rows (number integer primary key, row unique, copies)")
                base.execute(f"create virtual table texts using fts5({', '.join(places(len(texts)))}, prefix = '2 3')")
                base.execute("create table position as select 0 as at")
            base.execute("commit")

    def become(self, changes: list[viewd.Change]) -> None:
        """From here on it has these rows and no others."""
        wanted = {text(it.row): it for it in changes}
        with self.writing() as base:
            there = dict(base.execute("select row, copies from rows").fetchall())
            for row in there.keys() | wanted.keys():
                copies = (wanted[row].copies if row in wanted else 0) - there.get(row, 0)
                change(base, viewd.Change(copies, json.loads(row)))

    def take(self, changes: list[viewd.Change]) -> None:
        """Applies what changed."""
        with self.writing() as base:
            for it in changes:
                change(base, it)

    def search(self, words: str, behind: int) -> dict[str, object]:
        """The first rows that have words which begin with these, and marked pieces of them; once the position is behind that, or time is up."""
        match = " ".join(f'"{it}"*' for it in re.findall(r"\w+", words)[:MOST])
        with self.opened() as base:
            with self.news:
                self.news.wait_for(lambda: position(base) > behind, WAIT)
            base.execute("begin")  # all of it is of one moment
            if not match:
                lines = base.execute("select row, '' from rows order by number desc limit ?", [SHOWN]).fetchall()
                total = base.execute("select count(*) from rows").fetchone()[0]
            else:
                lines = base.execute("select row, snippet(texts, -1, char(2), char(3), '…', 16) from texts join rows on number = texts.rowid"
                                     " where texts match ? order by rank, number limit ?", [match, SHOWN]).fetchall()
                total = base.execute("select count(*) from texts where texts match ?", [match]).fetchone()[0]
            return {"position": position(base), "total": total, "found": [{"row": words_of(row), "piece": piece} for row, piece in lines]}


def words_of(row: str) -> dict[str, str]:
    """Words for the page, whose numbers are exact below 2^53 alone."""
    return {name: it if isinstance(it, str) else json.dumps(it) for name, it in json.loads(row).items()}


def places(number: int) -> list[str]:
    """Names for the texts of a row, as an index has some names for itself."""
    return [f"text_{at}" for at in range(number)]


def text(row: viewd.Row) -> str:
    return json.dumps(row, ensure_ascii=False, separators=(",", ":"))


def position(base: sqlite3.Connection) -> int:
    return int(base.execute("select at from position").fetchone()[0])


def change(base: sqlite3.Connection, it: viewd.Change) -> None:
    """Keeps how many copies of a row there are; a row that has some is in the index."""
    row = text(it.row)
    was = base.execute("select number, copies from rows where row = ?", [row]).fetchone()
    if was and was[1] + it.copies:
        base.execute("update rows set copies = copies + ? where number = ?", [it.copies, was[0]])
    elif was:
        base.execute("delete from texts where rowid = ?", [was[0]])
        base.execute("delete from rows where number = ?", [was[0]])
    else:
        texts = [value for value in it.row.values() if isinstance(value, str)]
        number = base.execute("insert into rows (row, copies) values (?, ?)", [row, it.copies]).lastrowid
        base.execute(f"insert into texts (rowid, {', '.join(places(len(texts)))}) values (?{', ?' * len(texts)})", [number, *texts])


class Handler(http.server.BaseHTTPRequestHandler):
    """The page, and searches: `/search?words=..&behind=POSITION`."""

    index: Index
    db: plain.PlainDb
    protocol_version = "HTTP/1.1"

    def do_GET(self) -> None:
        url = urllib.parse.urlsplit(self.path)
        if self.headers.get("Host", "").partition(":")[0] not in ("127.0.0.1", "localhost"):
            self.answer(403, "text/plain", b"")  # a page of another name that leads here
        elif url.path in FILES:
            name, kind = FILES[url.path]
            self.answer(200, f"{kind}; charset=utf-8", (HERE / name).read_bytes())
        elif url.path == "/search":
            asked = dict(urllib.parse.parse_qsl(url.query))
            behind = asked.get("behind", "")
            found = self.index.search(asked.get("words", ""), int(behind) if behind.isdecimal() else -1)
            self.answer(200, "application/json", json.dumps(found | {"state": self.db.state, "role": self.db.role}).encode())
        else:
            self.answer(404, "text/plain", b"")

    def answer(self, status: int, kind: str, body: bytes) -> None:
        self.send_response(status)
        for name, value in (("Content-Type", kind), ("Content-Length", str(len(body))), ("Cache-Control", "no-store"), ("X-Content-Type-Options", "nosniff"),
                            ("Content-Security-Policy", "default-src 'none'; script-src 'self'; style-src 'self'; connect-src 'self'; img-src data:;"
                                                        " base-uri 'none'; form-action 'none'; frame-ancestors 'none'")):
            self.send_header(name, value)
        self.end_headers()
        with contextlib.suppress(ConnectionError):  # who typed on has gone
            self.wfile.write(body)

    def log_message(self, format: str, *words: object) -> None:
        """No line for each letter that somebody types."""


def follow(db: plain.PlainDb, index: Index, on: str, port: int) -> None:
    """Raises what the client raises."""
    index.begin(db.columns(on))
    take, server = index.become, None
    for changes in db.changes(on):
        take(changes)
        take = index.take
        if not server:
            server = http.server.ThreadingHTTPServer(("127.0.0.1", port), type("Own", (Handler,), {"index": index, "db": db}))
            server.daemon_threads = True
            threading.Thread(target=server.serve_forever, daemon=True).start()
            print(f"search: http://127.0.0.1:{port}", file=sys.stderr, flush=True)


def main(given: argparse.Namespace) -> int:
    os.umask(0o077)
    token = os.environ.get("VIEWD_TOKEN") or sys.exit("search: VIEWD_TOKEN has no token")
    try:
        with given.index.with_name(given.index.name + ".lock").open("w") as lock:
            fcntl.flock(lock, fcntl.LOCK_EX | fcntl.LOCK_NB)
            with plain.connect(given.url.split(), token=token) as db:
                try:
                    follow(db, Index(given.index), given.relation, given.port)
                except viewd.NotSent:
                    raise
                except viewd.ViewdError:  # the role may not read it any more
                    for end in ("", "-wal", "-shm"):
                        given.index.with_name(given.index.name + end).unlink(missing_ok=True)
                    raise
    except BlockingIOError:
        print("search: another one has this index", file=sys.stderr)
    except (viewd.ViewdError, OSError) as why:
        print(f"search: {why}", file=sys.stderr)
    return 1


if __name__ == "__main__":
    words = argparse.ArgumentParser(description=__doc__.splitlines()[0])
    words.add_argument("relation")
    words.add_argument("--index", type=pathlib.Path, required=True, help="the file of the index, made where it is missing, with others beside it")
    words.add_argument("--port", type=int, default=8081, help="on 127.0.0.1 (%(default)s)")
    words.add_argument("--url", default=os.environ.get("VIEWD_URL", "ws://127.0.0.1:8080/live"), help="the gateway, or several of one log; VIEWD_URL, or %(default)s")
    with contextlib.suppress(KeyboardInterrupt):
        sys.exit(main(words.parse_args()))
