"""Which tables and views viewd can have, and why it cannot have the others."""
import dataclasses

from catalog import Attribute, Catalog, Relation
from kinds import KINDS, Column, Kind, enum, identifier, name_ok
from mirror import Table
from predicate import Refused
from rows import Request
from settings import Users
from translate import Words
from views import COLUMNS, Source, halves, view

TABLES = 64  # and as many views: viewd's limits; one of them is `viewd_source`
ANSWERS = {"text": KINDS["text"], "character varying": KINDS["text"], "name": KINDS["text"], "uuid": KINDS["uuid"]}  # types of what tells who the user is
STRANGE = {"p": "a partitioned table", "m": "a materialized view", "f": "a foreign table"}


@dataclasses.dataclass
class Made:
    """A relation that viewd has, or could have."""

    name: str
    oid: int
    request: Request | None = None  # that makes it
    columns: dict[str, Column] = dataclasses.field(default_factory=dict)
    faults: list[str] = dataclasses.field(default_factory=list)  # why it is left out
    missing: list[str] = dataclasses.field(default_factory=list)  # why it cannot be followed yet, though it can be shown
    sql: list[str] = dataclasses.field(default_factory=list)  # what would help
    unread: bool = False  # no more is wrong with it than that the role that reads it may not
    steps: int = 1  # of a view's query
    table: Table | None = None  # its rows
    guards: list[Request] = dataclasses.field(default_factory=list)  # its row security and policies

    def identified(self, rel: Relation) -> bool:
        """A row that is updated or deleted can be told from the others by what is replicated of it."""
        return rel.identity == "f" or bool(rel.key) and set(rel.key) <= set(self.columns)


class Names:
    """viewd's names of roles. One whose name viewd cannot have keeps its place among roles; nobody can be it."""

    def __init__(self, catalog: Catalog):
        self.names, self.own = {0: "public"}, set()
        for oid, it in catalog.roles.items():
            fit = name_ok(it.name) and it.name != "admin" and not it.name.startswith("viewd_role_")
            self.names[oid] = it.name if fit else f"viewd_role_{oid}"
            if fit:
                self.own.add(it.name)

    def __getitem__(self, oid: int) -> str:
        """A role that is gone leaves its number in grants for a moment."""
        return self.names.get(oid, f"viewd_role_{oid}")


def words_of(catalog: Catalog, users: Users) -> Words:
    """What expressions may speak of, beside columns."""
    found = {it.type: enum(it.type, it.labels) for rel in catalog.relations.values() for it in rel.columns if it.labels is not None}
    return Words(catalog.collation, found, catalog.equality, catalog.casts, {it: answers(catalog, it) for it in users.calls}, users.names)


def answers(catalog: Catalog, call: str) -> Kind | None:
    """What a call answers by which users are told; of PostgreSQL's own functions that is a text, or `check_calls` has refused it."""
    kinds = {ANSWERS.get(kind) for function, kind in catalog.answers if function == function_of(call)} or {KINDS["text"]}
    return kinds.pop() if len(kinds) == 1 else None


def function_of(call: str) -> str:
    name = call.split("(")[0]
    return name if "." in name else f"pg_catalog.{name}"


def kind_of(it: Attribute) -> Kind | None:
    return enum(it.type, it.labels) if it.labels is not None else KINDS.get(it.type)


def columns_of(rel: Relation, chosen: list[str] | None, made: Made) -> None:
    """The columns of a table that viewd can hold, and why it cannot hold the others."""
    names = {it.name for it in rel.columns}
    for it in rel.columns:
        kind = kind_of(it)
        if chosen is not None and it.name not in chosen:
            continue
        if kind is None:
            made.faults.append(f"column {it.name}: viewd has no type {it.type}")
        elif not name_ok(it.name):
            made.faults.append(f"column {it.name}: no name of viewd's")
        elif not it.notnull and (f"{it.name}_null" in names or not name_ok(f"{it.name}_null")):
            made.faults.append(f"column {it.name}: it may be NULL, and {it.name}_null is no name that is free; "
                               f"say ALTER TABLE .. ALTER COLUMN {it.name} SET NOT NULL")
            made.sql.append(f"ALTER TABLE {rel.sql} ALTER COLUMN {identifier(it.name)} SET NOT NULL;")
        elif it.generated:
            made.faults.append(f"column {it.name}: it is generated, and is not replicated")
        elif not it.deterministic:
            made.faults.append(f"column {it.name}: its collation {it.collation} takes different texts for equal")
            made.sql.append(collated(rel, it.name))
        else:
            made.columns[it.name] = Column(kind, not it.notnull, it.collation)
    if chosen is not None and (gone := set(chosen) - names):
        made.faults.append(f"column {', '.join(sorted(gone))}: there is none")
    count = len(halves(made.columns))
    if not made.faults and not 1 <= count <= COLUMNS:
        made.faults.append(f"{count} columns, of which viewd can hold {COLUMNS}" + (" (one that may be NULL is two)" if count > len(made.columns) else ""))


def collated(rel: Relation, column: str) -> str:
    """The statement that gives a column of text the order of its bytes."""
    kind = next((it.whole for it in rel.columns if it.name == column), "text")
    return (f'ALTER TABLE {rel.sql} ALTER COLUMN {identifier(column)} TYPE {kind} COLLATE "C";'
            "  -- policies and views that name it have to be dropped before, and made again")


def table(rel: Relation, made: Made, chosen: list[str] | None, roles: Names, user: str) -> None:
    columns_of(rel, chosen, made)
    if rel.persistence != "p":
        made.faults.append("it is temporary or unlogged, and is not replicated")
    if rel.parts:
        made.faults.append("it has parts or is one (inheritance, partitions): a SELECT of it shows rows of others")
    fits = not made.faults
    if not rel.readable:
        made.faults.append(f"the role {user} may not read it: say GRANT SELECT ON {rel.sql} TO .., and USAGE ON its schema")
    if rel.bound:
        made.faults.append(f"policies bind the role {user}, so it cannot see all rows: say ALTER ROLE .. BYPASSRLS")
    made.unread = fits and bool(made.faults)
    if not made.identified(rel):
        made.missing.append(f"its deleted rows are not replicated whole, nor by a key that is followed: say ALTER TABLE {rel.sql} REPLICA IDENTITY FULL")
    if not rel.published:
        made.missing.append("the publication has it not, or not whole (a row filter, a list of columns, not all of insert, update, delete, truncate)")
    if not made.faults:
        columns = [[c, "flag" if c not in made.columns else made.columns[c].kind.viewd] for c in halves(made.columns)]
        made.request = {"do": "create_table", "name": made.name, "owner": roles[rel.owner], "columns": columns}


def tables(catalog: Catalog, names: dict[int, str], chosen: dict[str, list[str]]) -> dict[int, Made]:
    """All relations, as they are named, with the requests of those tables that viewd can have."""
    roles, found = Names(catalog), dict[int, Made]()
    for oid, name in names.items():
        made = found[oid] = Made(name, oid)
        rel = catalog.relations.get(oid)
        if rel is None:
            made.faults.append("there is no such relation")
            continue
        if not name_ok(name) or name.startswith("viewd_"):
            made.faults.append(f"{name} is no name of viewd's")
        if rel.kind == "r":
            table(rel, made, chosen.get(name), roles, catalog.server.user)
        elif rel.kind != "v":
            made.faults.append(STRANGE.get(rel.kind, f"a relation of the kind {rel.kind}"))
        elif not rel.invoker:
            made.faults.append("it reads with the rights of its owner: say ALTER VIEW .. SET (security_invoker = true)")
            made.sql.append(f"ALTER VIEW {rel.sql} SET (security_invoker = true);")
    for it in [it for it in found.values() if it.request][TABLES - 1:]:
        close(it, f"more than {TABLES - 1} tables: viewd can have {TABLES}, and one of them says where they are from")
    return found


def views(catalog: Catalog, found: dict[int, Made], words: Words) -> dict[int, Made]:
    """The same with the requests of views, each after what it reads."""
    roles, order = Names(catalog), list[int]()
    waiting = [oid for oid, it in found.items() if not it.faults and not it.request]
    while waiting:
        known = {(catalog.relations[oid].schema, catalog.relations[oid].name): Source(it.name, it.columns, it.steps)
                 for oid, it in found.items() if it.request}
        done = []
        for oid in waiting:
            made, rel = found[oid], catalog.relations[oid]
            try:
                if rel.text is None:
                    raise Refused("its text cannot be read now")
                one = view(rel.text, known, words)
            except Refused as why:
                made.faults = [f"its query cannot be said in viewd's words: {why}"]
                made.sql = [sql for it in why.columns if (sql := collated_of(catalog, it))]
                continue
            done.append(oid)
            made.faults, made.sql, made.columns, made.steps = [], [], one.columns, one.steps
            made.request = {"do": "create_view", "name": made.name, "owner": roles[rel.owner], "query": one.query}
            if len(order) + len(done) > TABLES:
                close(made, f"more than {TABLES} views, of which viewd can have {TABLES}")
        order += done
        waiting = [it for it in waiting if it not in done] if done else []
    return {oid: it for oid, it in found.items() if oid not in order} | {oid: found[oid] for oid in order}


def collated_of(catalog: Catalog, column: str) -> str:
    """For a column of one table alone that has this name; of several it is not known which one is meant."""
    name = column.split(".")[-1]
    of = [rel for rel in catalog.relations.values() if rel.kind == "r" and any(it.name == name for it in rel.columns)]
    return collated(of[0], name) if len(of) == 1 else ""


def close(made: Made, fault: str) -> None:
    made.request = None
    made.faults.append(fault)
