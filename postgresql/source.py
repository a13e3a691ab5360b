"""What this side keeps in the gateway: from where the log goes on, and what tells that a table is not the one that was read.

They are rows of a table of viewd's, which administrators alone read: so they are as whole as the step that has them.
"""
import dataclasses
import hashlib
import json
from collections.abc import Iterable
from typing import NamedTuple

from catalog import Attribute, Relation
from pgoutput import lsn_of, lsn_text
from relations import Made
from rows import Request, Row, entry, of
from settings import Settings
from state import State
from stream import Place

NAME = "viewd_source"
FORM: Request = {"do": "create_table", "name": NAME, "owner": "admin", "columns": [["what", "text"], ["name", "text"], ["value", "text"]]}


class Print(NamedTuple):
    """A relation of PostgreSQL as it was when it was told."""

    oid: int
    name: str = ""
    published: str = ""
    columns: str = ""
    versions: str = ""  # of the columns
    file: int = 0


def printed(oid: int, it: Made, rel: Relation | None) -> Print:
    if rel is None:
        return Print(oid)
    name = digest([rel.schema, rel.name])
    return Print(oid, name, rel.published, digest(kept(it, rel, False)), digest(kept(it, rel, True)), rel.file)


def kept(it: Made, rel: Relation, version: bool) -> list[tuple[object, ...]]:
    """What of the columns that are followed has to stay as it is."""
    def of(one: Attribute) -> tuple[object, ...]:
        return (one.name, one.number, one.notnull, one.whole, one.collation, tuple(one.labels or ()), one.version if version else "")
    return [of(one) for one in rel.columns if one.name in it.columns]


def digest(it: object) -> str:
    return hashlib.sha256(repr(it).encode()).hexdigest()[:16]


@dataclasses.dataclass(frozen=True)
class Source:
    settings: str  # a digest of what was configured
    place: Place
    prints: dict[str, Print]  # by viewd's names, also of what is left out

    def names(self) -> dict[int, str]:
        return {it.oid: name for name, it in self.prints.items()}

    def rows(self) -> set[Row]:
        place = f"{lsn_text(self.place.commit)} {lsn_text(self.place.end)} {self.place.xid}"
        relations = (("relation", name, json.dumps(it)) for name, it in self.prints.items())
        return {of(it) for it in (("settings", "", self.settings), ("place", "", place), *relations)}


def settled(settings: Settings) -> str:
    """A digest of what decides what is followed."""
    return digest(settings._replace(dsn=""))


def sourced(settings: Settings, place: Place, state: State) -> Source:
    return Source(settled(settings), place, {it.name: printed(oid, it, state.catalog.relations.get(oid)) for oid, it in state.made.items()})


def changes(before: Source | None, after: Source) -> list[str]:
    """Entries that lead from the rows of one to those of the other."""
    old, new = before.rows() if before else set(), after.rows()
    return [*(entry(NAME, "delete", it, 1) for it in sorted(old - new)), *(entry(NAME, "insert", it, 1) for it in sorted(new - old))]


def read(rows: Iterable[Row]) -> Source:
    """What `rows` made. Raises ValueError and KeyError where it was something else."""
    found = {(str(what), str(name)): str(value) for what, name, value in map(json.loads, rows)}
    commit, end, xid = found["place", ""].split()
    prints = {name: Print(*json.loads(value)) for (what, name), value in found.items() if what == "relation"}
    return Source(found["settings", ""], Place(lsn_of(commit), lsn_of(end), int(xid)), prints)
