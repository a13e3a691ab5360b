"""All that viewd is told of a database at one moment: relations with their rows, and rights."""
import dataclasses
from collections.abc import Callable, Iterator

import rows
from catalog import RELATIONS, TRIES, Catalog, Connection, Relation, Unsettled, asked, read
from kinds import UUID
from mirror import Table
from relations import ANSWERS, Made, close, function_of, tables, views, words_of
from rights import NOT_BOUND, ROLES, Rights, granted, guarded, rights
from rows import Request, Write
from settings import Settings, Users, Wrong

ANSWERING = """select distinct format_type(p.prorettype, null) from pg_proc p join pg_namespace n on n.oid = p.pronamespace
             where n.nspname || '.' || p.proname = %(name)s"""


class Unsayable(Exception):
    """Nothing of the database can be said in viewd's words. The text says why."""


@dataclasses.dataclass
class State:
    catalog: Catalog
    made: dict[int, Made]
    rights: Rights

    def left_out(self) -> Iterator[tuple[str, str]]:
        """What viewd will not have, and why."""
        for it in self.made.values():
            if it.request is None:
                yield it.name, "; ".join(it.faults)
        yield from self.rights.left_out.items()

    def is_whole(self) -> bool:
        """Nothing is left out but roles that no policy binds, of which each database has one."""
        return all(why == NOT_BOUND for _, why in self.left_out())

    def requests(self) -> Iterator[Request | Write]:
        """Those that bring an empty viewd here, of a session of admin. Policies stand before rows: no reader is shown more for a moment."""
        yield from ({"do": "create_role", "name": it} for it in self.rights.roles)
        yield from ({"do": "grant_role", "role": role, "to": to} for role, to in self.rights.members)
        held = [it for it in self.made.values() if it.request]
        yield from (it.request for it in held if it.request)
        for it in held:
            yield from it.guards
        yield from rows.writes(entry for it in held if it.table for entry in it.table.all())
        yield from granted(self.rights)


def named(connection: Connection, settings: Settings) -> dict[int, str]:
    """viewd's names of relations, by oid. Raises Wrong if one that is named is not there, two are one, or a call answers no user."""
    check_calls(connection, settings.users)
    found: list[tuple[int, str]] = []
    if settings.relations is None:
        there = asked(connection, RELATIONS)
        often = [it[2] for it in there]
        found = [(oid, name if often.count(name) == 1 else f"{schema}_{name}") for oid, schema, name, _ in there]
    for name, text in (settings.relations or {}).items():
        oid = asked(connection, "select to_regclass(%(text)s)::oid::bigint", {"text": text})[0][0]
        if oid is None:
            raise Wrong(f"[relations] {name}: there is no relation {text}")
        found.append((oid, name))
    for place, one in enumerate(("oid", "name")):
        if len({it[place] for it in found}) < len(found):
            raise Wrong(f"two relations have one {one}: name them in [relations]")
    if unknown := set(settings.columns) - {name for _, name in found}:
        raise Wrong(f"[columns] {min(unknown)}: there is no such relation")
    return dict(found)


def check_calls(connection: Connection, users: Users) -> None:
    """viewd's users are texts or uuids, and so is what tells who the user is. Raises Wrong."""
    for call in users.calls:
        function = function_of(call)
        kinds = {str(it[0]) for it in asked(connection, ANSWERING, {"name": function})}
        if not kinds <= set(ANSWERS) or not kinds or "uuid" in kinds and (len(kinds) > 1 or function.startswith("pg_catalog.")):
            raise Wrong(f"[users] {call} answers {', '.join(sorted(kinds)) or 'nothing: there is no such function'}; "
                        "viewd's users are texts, or uuids of a function of the database's own")
        if "uuid" in kinds and (odd := [it for it in users.names if not UUID.fullmatch(it)]):
            raise Wrong(f"[users] {call} answers a uuid, and {odd[0]} is none as PostgreSQL prints it")


def state(connection: Connection, settings: Settings, most: int) -> State:
    """All that is there now. Raises Wrong, Unsayable, Unsettled, psycopg2.Error."""
    for _ in range(TRIES):
        names = named(connection, settings)
        catalog = read(connection, list(names), settings.publication)
        if named(connection, settings) == names:  # those of before are of another moment
            return said(catalog, names, settings, lambda it, rel: Table(it.name, it.columns, most).fill(rows.read(connection, rel, it.columns)))
        connection.rollback()
    raise Unsettled("relations are named faster than they can be read")


def said(catalog: Catalog, names: dict[int, str], settings: Settings, held: Callable[[Made, Relation], Table], follows: bool = False) -> State:
    """What a catalog says. `held` answers the rows of a table; what cannot be followed is left out if `follows`. Raises Wrong, Unsayable."""
    if catalog.server.encoding != "UTF8":
        raise Unsayable(f"the database's encoding is {catalog.server.encoding}: viewd orders texts by the bytes of UTF8")
    if catalog.tampered:
        raise Unsayable("the database has operators or aggregates of its own in pg_catalog, which are printed as PostgreSQL's")
    if catalog.withheld:
        raise Unsayable("EXECUTE on operators, casts or aggregates of PostgreSQL is taken from PUBLIC, which viewd cannot say")
    if of_views := [name for oid, name in names.items() if name in settings.columns and oid in catalog.relations and catalog.relations[oid].kind != "r"]:
        raise Wrong(f"[columns] {of_views[0]}: it is no table")
    words = words_of(catalog, settings.users)
    made = tables(catalog, names, settings.columns)
    for oid, it in made.items():
        rel = catalog.relations.get(oid)
        if it.request and rel and follows and it.missing:
            close(it, "; ".join(it.missing))
        if it.request and rel:
            it.guards = guarded(catalog, rel, it, words)
        if it.request and rel:
            it.table = held(it, rel)
            if fault := it.table.fault():
                close(it, fault)
    made = views(catalog, made, words)
    found = State(catalog, made, rights(catalog, made, settings.users))
    if len(found.rights.roles) > ROLES:
        raise Unsayable(f"{len(found.rights.roles)} roles: viewd can have {ROLES}")
    return found
