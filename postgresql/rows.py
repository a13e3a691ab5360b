"""Rows of a table: from what PostgreSQL prints of their cells to entries of viewd's writes.

A row is held as the list in JSON that stands in the entries, each value in its canonical form: so equal rows are equal texts.
"""
import json
from collections.abc import Iterable, Iterator, Sequence
from typing import Any, NamedTuple, TypeAlias

import psycopg2.extensions

from catalog import Connection, Relation
from kinds import Column, cell, in_json, name_ok
from predicate import TEXT, Refused

LINE = 65_536  # bytes of a line without its newline, viewd's limit
ENTRIES = 1_000  # of a write, viewd's limit
AROUND = 100  # bytes of a line that stand around its entries
LONG = LINE // 8  # characters of a row's texts, below which its line is never too long
PIECE = 2_000  # rows that are fetched at a time
TYPED = (16, 20, 21, 23)  # boolean and numbers, which psycopg2 would not leave as the texts that PostgreSQL prints
COPIES = (1 << 63) - 1  # of a row, viewd's limit
Request = dict[str, Any]
Row: TypeAlias = str


class Write(NamedTuple):
    """A request to write."""

    entries: list[str]  # in JSON


class Odd(str):
    """A row that viewd cannot hold."""

    cells: list[str | None]  # as PostgreSQL prints them, or in canonical form
    why: str


def read(connection: Connection, rel: Relation, columns: Iterable[str]) -> Iterator[tuple[str | None, ...]]:
    """All rows of a table, as the texts that PostgreSQL prints; none is NULL."""
    names = ", ".join(map(quoted, columns))
    with connection.cursor(name="rows") as cursor:
        as_text = psycopg2.extensions.new_type(TYPED, "CELL", lambda text, _: text)  # type: ignore[no-untyped-call]
        psycopg2.extensions.register_type(as_text, cursor)  # type: ignore[no-untyped-call]
        cursor.itersize = PIECE
        cursor.execute(f"select {names} from {rel.sql}")
        yield from cursor


def quoted(name: str) -> str:
    assert name_ok(name)
    return f'"{name}"'


class Reader:
    """Makes rows of a table."""

    def __init__(self, name: str, columns: Iterable[Column]):
        self.name, self.columns = name, tuple(columns)
        self.values = tuple(map(cell, self.columns))
        self.may_be_long = sum(it.kind.viewd == "text" for it in self.columns) * TEXT > LONG

    def row(self, cells: Sequence[str | None]) -> Row:
        """As viewd holds it. What it cannot hold says why."""
        try:
            found = f"[{','.join([value(it) for value, it in zip(self.values, cells, strict=True)])}]"
        except Refused as why:
            return self.odd(cells, str(why))
        if self.may_be_long and AROUND + size(entry(self.name, "insert", found, COPIES)) > LINE:
            return self.odd(cells, f"texts that take a line of more than {LINE:,} bytes")
        return found

    def odd(self, cells: Sequence[str | None], why: str) -> Odd:
        """Two are equal if all of their parts are."""
        one = Odd(f"odd [{','.join(map(self.part, range(len(cells)), cells))}]")
        one.cells, one.why = list(cells), why
        return one

    def part(self, place: int, text: str | None) -> str:
        """Of a row: another one for each other value, also of those that viewd cannot hold."""
        try:
            return self.values[place](text)
        except Refused:
            return f"odd {in_json(text)}"

    def cells(self, one: Row) -> list[str | None]:
        """Those that the row was made of, or others of which the same would be made."""
        if isinstance(one, Odd):
            return one.cells
        values, found = iter(json.loads(one)), list[str | None]()
        for it in self.columns:
            text = printed(next(values))
            found.append(None if it.nullable and next(values) else text)
        return found


def printed(value: object) -> str:
    """As PostgreSQL does."""
    return str(value).lower()[0] if isinstance(value, bool) else str(value)


def of(values: Iterable[object]) -> Row:
    """A row of these values."""
    return in_json(list(values))


def entry(name: str, does: str, one: Row, copies: int) -> str:
    more = f',"copies":{copies}' if copies > 1 else ""
    return f'{{"on":"{name}","{does}":{one}{more}}}'


def size(one: str) -> int:
    """Bytes of an entry in its line, with what parts it from the next."""
    return (len(one) if one.isascii() else len(one.encode())) + 1


def writes(entries: Iterable[str]) -> Iterator[Write]:
    """The entries as writes, each within viewd's limits."""
    held: list[str] = []
    long = AROUND
    for one in entries:
        more = size(one)
        if len(held) == ENTRIES or long + more > LINE:
            yield Write(held)
            held, long = [], AROUND
        held.append(one)
        long += more
    if held:
        yield Write(held)


def line(before: str, it: Request | Write) -> str:
    """A request in JSON, behind what stands before."""
    text = f'{{"do":"write","entries":[{",".join(it.entries)}]}}' if isinstance(it, Write) else in_json(it)
    return f"{{{before},{text[1:]}"
