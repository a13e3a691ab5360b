"""PostgreSQL's types as viewd carries them: each in one of its three kinds, in one canonical form.

Equality of the canonical forms is equality in PostgreSQL, for every kind here. Order is so for those that say it (`ordered`); for
texts it is a matter of their collation. A canonical form is what PostgreSQL prints with DateStyle ISO and TimeZone UTC; a
numeric is without the zeros at its end, since 1.0 = 1.00.
"""
import json
import re
from collections.abc import Callable
from decimal import Decimal, InvalidOperation
from typing import NamedTuple

from pglast import keywords

from predicate import TEXT, Refused, quoted

WORDS = frozenset("""all and as between by case cast count cross current_user distinct except exists false fetch for from full group having in
inner intersect is join left like limit natural not null offset on or order outer public right select sum true union using where window
with""".split())
NAME = re.compile("[a-z_][a-z0-9_]{0,62}")
LEAST, MOST = -(1 << 63), (1 << 63) - 1
BYTEWISE = ("C", "POSIX", "ucs_basic")  # collations that order texts by their bytes
EMPTY = {"int": "0", "text": '""', "flag": "false"}  # in JSON: stands where a value is NULL
in_json = json.JSONEncoder(ensure_ascii=False, separators=(",", ":")).encode
SHORT = TEXT // 4  # characters of a text, whose bytes are never too many
YEARS = "of the years 1 to 9999"
DAY = "[0-9]{4}-[0-9]{2}-[0-9]{2}"
TIME = f"{DAY} [0-9]{{2}}:[0-9]{{2}}:[0-9]{{2}}([.][0-9]{{1,6}})?"
DAYS, TIMES, ZONED = (re.compile(f"{it}|-?infinity") for it in (DAY, TIME, f"{TIME}[+]00"))
UUID = re.compile("[0-9a-f]{8}(-[0-9a-f]{4}){3}-[0-9a-f]{12}")


class Kind(NamedTuple):
    """Two types of one family are compared by viewd as they are."""

    family: str
    viewd: str = "text"  # its kind: int, text or flag
    ordered: bool = True  # viewd orders it as PostgreSQL does; texts by their collation
    size: int = 0  # bytes of a number
    labels: tuple[str, ...] = ()  # of an enum, in its order


KINDS = {
    "smallint": Kind("int", "int", size=2), "integer": Kind("int", "int", size=4), "bigint": Kind("int", "int", size=8),
    "text": Kind("text"), "character varying": Kind("text"), "boolean": Kind("bool", "flag"), "uuid": Kind("uuid"),
    "date": Kind("date"), "timestamp without time zone": Kind("timestamp"), "timestamp with time zone": Kind("timestamptz"),
    "numeric": Kind("numeric", ordered=False)}
CASTS = {  # as the parser calls them
    "int2": KINDS["smallint"], "int4": KINDS["integer"], "int8": KINDS["bigint"], "text": KINDS["text"], "varchar": KINDS["text"],
    "bool": KINDS["boolean"], "uuid": KINDS["uuid"], "date": KINDS["date"], "timestamp": KINDS["timestamp without time zone"],
    "timestamptz": KINDS["timestamp with time zone"], "numeric": KINDS["numeric"]}
SUM = Kind("sum", "int")  # of bigint: a numeric in PostgreSQL and a number in viewd, so it is compared with nothing else


class Column(NamedTuple):
    """A column that viewd holds; if it may be NULL, as two: this one and NAME_null."""

    kind: Kind
    nullable: bool = False
    collation: str = ""  # another one than the database's


def name_ok(name: str) -> bool:
    return bool(NAME.fullmatch(name)) and name not in WORDS


def identifier(name: str) -> str:
    """A name as SQL writes it."""
    words = keywords.RESERVED_KEYWORDS | keywords.TYPE_FUNC_NAME_KEYWORDS | keywords.COL_NAME_KEYWORDS
    return name if NAME.fullmatch(name) and name not in words else '"' + name.replace('"', '""') + '"'


def enum(name: str, labels: list[str]) -> Kind:
    """Its order is that of its labels; viewd's is that of their bytes."""
    return Kind(name, ordered=[it.encode() for it in labels] == sorted(it.encode() for it in labels), labels=tuple(labels))


def decimal(text: str) -> str:
    """A numeric without the zeros at its end."""
    if text in ("NaN", "Infinity", "-Infinity"):
        return text
    try:
        plain = format(Decimal(text), "f")
    except InvalidOperation:
        raise Refused(f"the number {text}") from None
    if "." in plain:
        plain = plain.rstrip("0").rstrip(".")
    return "0" if plain == "-0" else plain


def date(text: str) -> str:
    return held(text, DAYS, "date")


def timestamp(text: str) -> str:
    return held(text, TIMES, "timestamp")


def timestamptz(text: str) -> str:
    return held(text, ZONED, "timestamp")


def held(text: str, form: re.Pattern[str], what: str) -> str:
    if not form.fullmatch(text):
        raise Refused(f"the {what} {text}: viewd can hold those {YEARS}")
    return text


def uuid(text: str) -> str:
    if not UUID.fullmatch(text):
        raise Refused(f"the uuid {text}")
    return text


CANONICAL: dict[str, Callable[[str], str]] = {"numeric": decimal, "date": date, "timestamp": timestamp, "timestamptz": timestamptz, "uuid": uuid}


def canonical(kind: Kind, text: str) -> str:
    """A text that PostgreSQL prints for a value of the kind, in its canonical form. Raises Refused if viewd cannot hold it."""
    if kind.labels and text not in kind.labels:
        raise Refused(f"{kind.family} has no {text}")
    form = CANONICAL.get(kind.family, str)(text)
    if len(form.encode()) > TEXT:
        raise Refused(f"a text of more than {TEXT:,} bytes")
    return form


def constant(kind: Kind, text: str) -> str:
    """A constant as viewd writes it."""
    match kind.viewd:
        case "int":
            if not re.fullmatch("-?[0-9]+", text) or not LEAST <= int(text) <= MOST:
                raise Refused(f"the number {text}")
            return str(int(text))
        case "flag":
            if text not in ("t", "f", "true", "false"):
                raise Refused(f"the boolean {text}")
            return "true" if text[0] == "t" else "false"
    return quoted(canonical(kind, text))


def value(kind: Kind) -> Callable[[str], str]:
    """What makes a value in JSON of what PostgreSQL prints. It raises Refused where viewd cannot hold it."""
    match kind.viewd:
        case "int":
            return str
        case "flag":
            return lambda text: "true" if text == "t" else "false"
    if kind.family == "text":
        return lambda text: in_json(text if len(text) <= SHORT else canonical(kind, text))
    return lambda text: in_json(canonical(kind, text))


def cell(column: Column) -> Callable[[str | None], str]:
    """The same for a cell, of which NULL is none: two values if it may be NULL."""
    plain, null = value(column.kind), EMPTY[column.kind.viewd] + ",true"

    def some(text: str | None) -> str:
        if text is None:
            raise Refused("a NULL in a column that is NOT NULL")
        return plain(text)
    return (lambda text: null if text is None else plain(text) + ",false") if column.nullable else some
