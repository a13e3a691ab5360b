"""What has to be said in PostgreSQL before it can be followed, and a configuration to begin with.

Names come from whoever may make a table, and what is printed here is read and copied by the database's administrator: a sign that cannot
be printed is written as its number, so that no name begins a line of its own.
"""
import re

from bridge import Bridge
from kinds import identifier
from settings import Settings
from state import State


def printable(text: str) -> str:
    return "".join(it if it.isprintable() else f"\\u{ord(it):04x}" for it in text)


def as_sql(statement: str) -> str:
    """The statement with each quoted name in signs that can be printed."""
    def name(found: re.Match[str]) -> str:
        if found[0].isprintable():
            return found[0]
        return "U&" + "".join(it if it.isprintable() else f"\\+{ord(it):06x}" for it in found[0].replace("\\", "\\\\"))
    return re.sub('"(?:[^"]|"")*"', name, statement)


def missing(state: State, settings: Settings, bridge: Bridge) -> list[str]:
    """Statements for the database's administrator, in an order in which they can be run."""
    server = state.catalog.server
    found: list[str] = []
    if server.wal_level != "logical":
        found.append("ALTER SYSTEM SET wal_level = logical;  -- and start PostgreSQL again")
    found += bridge.sql
    for it in state.made.values():
        found += [sql for sql in it.sql if sql not in found]
    tables = [(state.catalog.relations[oid], it) for oid, it in state.made.items() if it.request and it.request["do"] == "create_table"]
    found += [f"ALTER TABLE {rel.sql} REPLICA IDENTITY FULL;" for rel, it in tables if not it.identified(rel)]
    absent = [rel.sql for rel, _ in tables if not rel.published]
    if absent and not server.publication:
        return [*found, f"CREATE PUBLICATION {identifier(settings.publication)} FOR TABLE {', '.join(absent)};"]
    return found + [f"ALTER PUBLICATION {identifier(settings.publication)} ADD TABLE {it};  -- where it is there in part, DROP TABLE it first" for it in absent]


def text(value: str) -> str:
    """A text of TOML."""
    return '"' + "".join("\\" + it if it in '"\\' else it if it.isprintable() else f"\\U{ord(it):08x}" for it in value) + '"'


def configuration(state: State, settings: Settings) -> str:
    """A file for what is in the database, with what viewd cannot have after a `#`."""
    lines = ["# What viewd follows of a PostgreSQL: docs/POSTGRESQL.md", "", "[postgres]", f"dsn = {text(settings.dsn)}",
             f"slot = {text(settings.slot)}", f"publication = {text(settings.publication)}", "", "[relations]  # viewd's name = PostgreSQL's"]
    for oid, it in state.made.items():
        fault = "; ".join(it.faults)
        rel = state.catalog.relations.get(oid)
        if rel is not None:
            lines.append(f"{it.name} = {text(rel.sql)}" if not fault else printable(f"# {it.name} = {text(rel.sql)}: {fault}"))
    lines += ["", "# [columns]  # of those of which not all are followed", '# tickets = ["id", "agent"]', "",
              "# [users]  # who are no roles: a session has the role, and the calls answer who it is", '# role = "app"',
              """# calls = ["current_setting('app.user')"]""", '# names = ["ann", "bob"]']
    return "\n".join(lines) + "\n"


def told(state: State, settings: Settings, bridge: Bridge) -> tuple[str, bool]:
    """The report of `check`, and whether all can be followed as it is."""
    held, server = [it for it in state.made.values() if it.request], state.catalog.server
    lines = [f"PostgreSQL {server.version // 10_000}, as {server.user}" + (f", for {bridge.name}" if bridge.name != server.user else "")]
    lines += ["", "would be followed:"] if held else ["", "nothing would be followed"]
    for it in held:
        kind = f"a table of {it.table.rows.total():,} rows" if it.table else "a view"
        null = [name for name, column in it.columns.items() if column.nullable]
        lines.append(f"  {it.name}: {kind}" + (f"; may be NULL, and is two: {', '.join(null)}" if null else ""))
    left = list(state.left_out())
    lines += ["", "would be left out:", *(f"  {name}: {why}" for name, why in left)] if left else []
    late = [(f"role {bridge.name}", why) for why in bridge.lacks] + [(it.name, why) for it in held for why in it.missing]
    lines += ["", "cannot be followed yet:", *(f"  {name}: {why}" for name, why in late)] if late else []
    sql = missing(state, settings, bridge)
    said = ["", "to say in PostgreSQL:", *(f"  {as_sql(it)}" for it in sql)] if sql else []
    return "\n".join([*map(printable, lines), *said]) + "\n", bool(held) and state.is_whole() and not (late or sql)
