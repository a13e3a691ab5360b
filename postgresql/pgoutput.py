"""The messages of PostgreSQL's logical replication, as its own plugin `pgoutput` writes them in protocol 1.

Their forms are those of "Logical Replication Message Formats" in PostgreSQL's documentation. A message that has another one is an error:
whoever reads on after it would lose rows without a word.
"""
import enum
import functools
import struct
from typing import Any, Literal, NamedTuple, TypeAlias, Union


class Unreadable(Exception):
    """The bytes are no message of this protocol. The text says why."""


class Toast(enum.Enum):
    """A value that stands out of line, and that an update did not touch: it is not sent."""

    UNCHANGED = "unchanged"


Unchanged: TypeAlias = Literal[Toast.UNCHANGED]
UNCHANGED: Unchanged = Toast.UNCHANGED
Cell: TypeAlias = Union[str, None, Unchanged]  # as PostgreSQL prints the value; none is NULL
Cells: TypeAlias = tuple[Cell, ...]


class Begin(NamedTuple):
    final: int  # where the commit will stand
    time: int  # microseconds since 2000
    xid: int  # the lower 32 bits of the transaction's number


class Commit(NamedTuple):
    commit: int  # where it stands
    end: int  # the place after it
    time: int


class Origin(NamedTuple):
    commit: int  # at the origin
    name: str


class Message(NamedTuple):
    """What pg_logical_emit_message wrote."""

    transactional: bool
    lsn: int
    prefix: str
    content: bytes


class Column(NamedTuple):
    name: str
    key: bool  # it is part of the replica identity; of FULL each is
    type: int
    modifier: int


class Relation(NamedTuple):
    """Comes before the first change of a relation, and again if it has become another one."""

    oid: int
    schema: str
    name: str
    identity: str  # d, f, i or n, as in pg_class
    columns: tuple[Column, ...]


class Type(NamedTuple):
    """Comes before a relation that has a column of a type that is not PostgreSQL's own."""

    oid: int
    schema: str
    name: str


class Old(NamedTuple):
    """The row as it was: all of it, or its replica identity alone, in which all other cells are NULL."""

    cells: Cells
    whole: bool


class Insert(NamedTuple):
    oid: int
    new: Cells


class Update(NamedTuple):
    oid: int
    old: Old | None  # none if the replica identity is not all of the row, and stayed as it was
    new: Cells


class Delete(NamedTuple):
    oid: int
    old: Old


class Truncate(NamedTuple):
    oids: tuple[int, ...]
    cascade: bool
    restart: bool  # identities begin anew


Decoded: TypeAlias = Union[Begin, Commit, Origin, Message, Relation, Type, Insert, Update, Delete, Truncate]


SIZE = struct.Struct("!I").unpack_from  # of a text
TEXT, NULL, SAME = b"tnu"  # what begins a cell


@functools.cache
def layout(form: str) -> struct.Struct:
    return struct.Struct(f"!{form}")


class Bytes:
    """A message that is read from its beginning to its end."""

    def __init__(self, data: bytes):
        self.data, self.at = data, 0

    def take(self, size: int) -> bytes:
        if size > len(self.data) - self.at:
            raise Unreadable(f"{size} bytes are to come at byte {self.at} of {len(self.data)}")
        self.at += size
        return self.data[self.at - size:self.at]

    def numbers(self, form: str) -> tuple[Any, ...]:
        whole = layout(form)
        self.at += whole.size
        if self.at > len(self.data):
            raise Unreadable(f"{whole.size} bytes are to come at byte {self.at - whole.size} of {len(self.data)}")
        return whole.unpack_from(self.data, self.at - whole.size)

    def number(self, form: str) -> int:
        return int(self.numbers(form)[0])

    def sign(self) -> str:
        return chr(self.take(1)[0])

    def decoded(self, data: bytes) -> str:
        try:
            return data.decode()
        except UnicodeDecodeError as why:
            raise Unreadable(f"a text is not UTF-8, before byte {self.at}: {why.reason}") from None

    def text(self) -> str:
        """One that a byte 0 ends."""
        end = self.data.find(0, self.at)
        if end < 0:
            raise Unreadable(f"a text without an end at byte {self.at}")
        found = self.take(end - self.at)
        self.take(1)
        return self.decoded(found)

    def cells(self) -> Cells:
        """Most of a log is cells, so they are read in place."""
        data, found, count = self.data, list[Cell](), self.number("H")
        at = self.at
        try:
            for _ in range(count):
                kind = data[at]
                at += 1
                if kind == TEXT:
                    begin = at + 4
                    at = begin + SIZE(data, at)[0]
                    found.append(data[begin:at].decode())
                elif kind == NULL:
                    found.append(None)
                elif kind == SAME:
                    found.append(UNCHANGED)
                else:
                    raise Unreadable(f"a value of the kind {chr(kind)!r}")
        except UnicodeDecodeError as why:
            raise Unreadable(f"a text is not UTF-8, before byte {at}: {why.reason}") from None
        except (IndexError, struct.error):
            at = len(data) + 1
        if at > len(data):
            raise Unreadable(f"a row is cut off at byte {len(data)}")
        self.at = at
        return tuple(found)

    def old(self, kind: bytes) -> Old:
        if kind not in (b"K", b"O"):
            raise Unreadable(f"a row of the kind {kind.decode('latin-1')!r} in place of an old one")
        return Old(self.cells(), kind == b"O")

    def new(self, kind: bytes) -> Cells:
        if kind != b"N":
            raise Unreadable(f"a row of the kind {kind.decode('latin-1')!r} in place of a new one")
        return self.cells()


def decoded(data: bytes) -> Decoded:
    """A message. Raises Unreadable."""
    found = Bytes(data)
    kind = found.sign()
    try:
        message = _message(kind, found)
    except Unreadable as why:
        raise Unreadable(f"a message of the kind {kind!r}: {why}") from None
    if found.at < len(data):
        raise Unreadable(f"a message of the kind {kind!r}: {len(data) - found.at} bytes are left over")
    return message


def _message(kind: str, found: Bytes) -> Decoded:
    match kind:
        case "I":
            oid, which = found.numbers("Is")
            return Insert(oid, found.new(which))
        case "U":
            oid, which = found.numbers("Is")
            old = None if which == b"N" else found.old(which)
            return Update(oid, old, found.new(which if old is None else found.take(1)))
        case "D":
            oid, which = found.numbers("Is")
            return Delete(oid, found.old(which))
        case "B":
            return Begin(*found.numbers("QqI"))
        case "C":
            return Commit(*found.numbers("bQQq")[1:])
        case "O":
            return Origin(found.number("Q"), found.text())
        case "M":
            flags, lsn = found.numbers("bQ")
            prefix = found.text()
            return Message(bool(flags & 1), lsn, prefix, found.take(found.number("I")))
        case "R":
            return _relation(found)
        case "Y":
            return Type(found.number("I"), found.text(), found.text())
        case "T":
            count, options = found.numbers("IB")
            return Truncate(found.numbers(f"{count}I"), bool(options & 1), bool(options & 2))
    raise Unreadable("protocol 1 has none")


def _relation(found: Bytes) -> Relation:
    oid, schema, name, identity = found.number("I"), found.text(), found.text(), found.sign()
    columns = []
    for _ in range(found.number("H")):
        flags, column = found.number("b"), found.text()
        columns.append(Column(column, bool(flags & 1), *found.numbers("Ii")))
    return Relation(oid, schema or "pg_catalog", name, identity, tuple(columns))


def lsn_text(lsn: int) -> str:
    """A place in the log as PostgreSQL writes it."""
    return f"{lsn >> 32:X}/{lsn & 0xFFFFFFFF:X}"


def lsn_of(text: str) -> int:
    high, low = text.split("/")
    return int(high, 16) << 32 | int(low, 16)
