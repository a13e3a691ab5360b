"""viewd's predicates as values: comparisons, joined by `and` and `or`. They know true and false alone.

There is no `not`: what it is put before is turned round instead (`negated`), which is exact if nothing is unknown.
"""
import dataclasses
from collections.abc import Iterable
from typing import NamedTuple, TypeAlias, Union

BYTES = 4_096  # of a query or predicate, viewd's limit
DEPTH = 32  # parentheses open at once, viewd's limit
TEXT = 1_024  # bytes of a text, viewd's limit
OPPOSITE = {"=": "<>", "<>": "=", "<": ">=", ">=": "<", ">": "<=", "<=": ">"}


class Refused(Exception):
    """Cannot be said in viewd's words. The text says what; `columns` are those that COLLATE "C" would help."""

    def __init__(self, why: str, columns: tuple[str, ...] = ()):
        super().__init__(why)
        self.columns = columns


class Atom(NamedTuple):
    left: str
    op: str
    right: str


@dataclasses.dataclass(frozen=True)
class Every:
    parts: tuple["Test", ...]


@dataclasses.dataclass(frozen=True)
class Some:
    parts: tuple["Test", ...]


Test: TypeAlias = Union[Atom, Every, Some]
TRUE: Test = Every(())
FALSE: Test = Some(())


def every(tests: Iterable[Test]) -> Test:
    parts: list[Test] = []
    for it in tests:
        if it == FALSE:
            return FALSE
        parts += [one for one in (it.parts if isinstance(it, Every) else (it,)) if one not in parts]
    return parts[0] if len(parts) == 1 else bounded(Every(tuple(parts)))


def some(tests: Iterable[Test]) -> Test:
    parts: list[Test] = []
    for it in tests:
        if it == TRUE:
            return TRUE
        parts += [one for one in (it.parts if isinstance(it, Some) else (it,)) if one not in parts]
    return parts[0] if len(parts) == 1 else bounded(Some(tuple(parts)))


def negated(test: Test) -> Test:
    match test:
        case Atom(left, op, right):
            return Atom(left, OPPOSITE[op], right)
        case Every(parts):
            return some(map(negated, parts))
        case Some(parts):
            return every(map(negated, parts))


def bounded(test: Test) -> Test:
    """What is far too long is refused at once, before it grows on."""
    if size(test) > 4 * BYTES:
        raise Refused(f"its text has more than {BYTES:,} bytes")
    return test


def size(test: Test) -> int:
    if isinstance(test, Atom):
        return sum(map(len, test))
    return sum(map(size, test.parts))


def written(test: Test) -> str:
    match test:
        case Atom(left, op, right):
            return f"{left} {op} {right}"
        case Every(()):
            return "true"
        case Some(()):
            return "false"
        case Every(parts):
            return " and ".join(f"({written(it)})" if isinstance(it, Some) else written(it) for it in parts)
        case Some(parts):
            return " or ".join(map(written, parts))


def quoted(text: str) -> str:
    if len(text.encode()) > TEXT or "\0" in text:
        raise Refused(f"a text of more than {TEXT:,} bytes")
    return "'" + text.replace("'", "''") + "'"


def fit(text: str) -> str:
    """A text that is within viewd's limits."""
    if len(text.encode()) > BYTES:
        raise Refused(f"its text has more than {BYTES:,} bytes")
    depth, inside = 0, False
    for sign in text:
        if sign == "'":
            inside = not inside
        elif not inside and sign in "()":
            depth += 1 if sign == "(" else -1
            if depth > DEPTH:
                raise Refused(f"more than {DEPTH} parentheses open at once")
    return text
