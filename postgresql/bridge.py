"""The role that `follow` logs in as: what it lacks, and the statements that give it no more than that.

Whoever asks may be another one: an administrator, before that role is there. What everybody has a role has before it is made.
"""
from typing import NamedTuple

from catalog import Connection, asked
from kinds import identifier
from settings import Wrong
from state import State

ROLE = """select r.oid is not null, coalesce(r.oid, 0)::bigint, coalesce(r.rolcanlogin, false), coalesce(r.rolreplication or r.rolsuper, false),
                 has_database_privilege(coalesce(r.oid, 0), current_database(), 'connect'), current_database(), given.name
          from (values (%(role)s::name)) given(name) left join pg_roles r on r.rolname = given.name"""
TABLES = """select c.oid::bigint, has_schema_privilege(%(role)s::oid, c.relnamespace, 'usage'), has_table_privilege(%(role)s::oid, c.oid, 'select'),
                   c.relrowsecurity and (r.oid is null or not (r.rolsuper or r.rolbypassrls
                                                               or not c.relforcerowsecurity and pg_has_role(r.oid, c.relowner, 'usage')))
            from pg_class c left join pg_roles r on r.oid = %(role)s::oid where c.oid = any (%(oids)s::oid[]) order by c.oid"""


class Bridge(NamedTuple):
    """A role, and what it needs to follow the tables that viewd could have."""

    name: str
    lacks: list[str]
    sql: list[str]


def bridge(connection: Connection, state: State, role: str) -> Bridge:
    """Of the transaction in which the state was read. Raises Wrong if there can be no such role; psycopg2.Error."""
    there, oid, login, replication, connect, database, name = asked(connection, ROLE, {"role": role})[0]
    if not there and (not name or name.startswith("pg_") or name in ("public", "none")):
        raise Wrong(f"the role {role}: PostgreSQL keeps this name for itself" if name else "a role has a name")
    of = {oid: rel.sql for oid, rel in state.catalog.relations.items() if rel.kind == "r" and (state.made[oid].request or state.made[oid].unread)}
    schemas, unread, bound = list[str](), list[str](), list[str]()
    for table, usage, select, is_bound in asked(connection, TABLES, {"role": oid, "oids": list(of)}):
        schema = identifier(state.catalog.relations[table].schema)
        schemas += [schema] if not usage and schema not in schemas else []
        unread += [of[table]] if not select else []
        bound += [of[table]] if is_bound else []
    attributes = [word for word, is_missing in (("LOGIN", not login), ("REPLICATION", not replication), ("BYPASSRLS", bound)) if is_missing]
    lacks = [words for words, is_missing in (
        ("it may not log in", not login), ("it has no REPLICATION", not replication), (f"it may not connect to the database {database}", not connect),
        (f"it may not use the schema {', '.join(schemas)}", schemas), (f"it may not read {', '.join(unread)}", unread),
        (f"policies bind it, so it cannot see all rows of {', '.join(bound)}", bound)) if is_missing]
    to = identifier(name)
    sql = [f"{'ALTER' if there else 'CREATE'} ROLE {to} {' '.join(attributes)};"] if attributes else []
    if not there:
        lacks, sql[0] = ["there is no such role"], f"{sql[0]}  -- and \\password {to}, if it comes by one"
    sql += [f"GRANT CONNECT ON DATABASE {identifier(database)} TO {to};"] if not connect else []
    sql += [f"GRANT USAGE ON SCHEMA {', '.join(schemas)} TO {to};"] if schemas else []
    sql += [f"GRANT SELECT ON {', '.join(unread)} TO {to};"] if unread else []
    return Bridge(name, lacks, sql)
