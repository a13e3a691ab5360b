"""What PostgreSQL's catalogs say of who may read what.

`CATALOG` is one statement, so it is answered from one snapshot. `MARK` is another value wherever what CATALOG reads is, and costs a
twentieth. Both are of the relations whose oids are given, and take no lock on them.

Texts of policies and views are read beside it, since PostgreSQL prints them by the catalogs of that moment, and with a lock on
their table: `read` takes the mark before and after, and reads anew if it is another one.

It was tried on PostgreSQL 15 and 17. What 16 and 17 have otherwise stands in FROM_16 and COLLATION.
"""
import dataclasses
from typing import Any

import psycopg2
import psycopg2.errors
import psycopg2.extensions

Connection = psycopg2.extensions.connection
# What PostgreSQL prints is canonical by these; and rows that a policy hides from the bridge are an error, and never left out.
SETTINGS = ("-c search_path=pg_catalog -c datestyle=ISO,YMD -c timezone=UTC -c intervalstyle=postgres -c row_security=off "
            "-c standard_conforming_strings=on -c quote_all_identifiers=off -c lock_timeout=1s")
PRINTING = ("set datestyle = ISO, YMD", "set timezone = UTC")
PRINTED = (1082, 1114, 1184, 1700, 2950)  # date, timestamps, numeric and uuid are read as the texts that PostgreSQL prints
TRIES = 5
FROM_16 = {"inherits": "m.inherit_option", "owner_inherits": "true"}  # a membership says itself whether it gives what the role has
TO_15 = {"inherits": "(select rolinherit from pg_roles where oid = m.member)",
         "owner_inherits": "(select rolinherit from pg_roles where oid = d.datdba)"}
COLLATION = {15: "case datlocprovider when 'c' then datcollate else 'icu' end",
             17: "case datlocprovider when 'c' then datcollate when 'b' then case datlocale when 'C.UTF-8' then 'C' else datlocale end else 'icu' end"}
# Types that viewd carries. An operator or cast of the database's own for one of them may stand where PostgreSQL prints no name of it.
CARRIED = """(t.typtype = 'e' or t.oid = any ('{{int2,int4,int8,text,varchar,name,bool,uuid,date,timestamp,timestamptz,numeric}}'::regtype[]))"""
OWN = 16384  # the least oid of what is not PostgreSQL's own
RELATIONS = """
select c.oid::bigint, n.nspname, c.relname, c.relkind::text from pg_class c join pg_namespace n on n.oid = c.relnamespace
where c.relkind in ('r', 'v', 'p', 'm', 'f') and c.relpersistence <> 't' and n.nspname !~ '^pg_' and n.nspname <> 'information_schema'
order by n.nspname, c.relname
"""
CATALOG = """
with used as (
    select oid, rolname from pg_roles where rolname !~ '^pg_'
    union select r.oid, r.rolname from pg_roles r join pg_auth_members m on m.roleid = r.oid
    union select oid, rolname from pg_roles where rolname = 'pg_database_owner'
    union select r.oid, r.rolname from pg_roles r join pg_class c on c.relowner = r.oid where c.oid = any (%(oids)s::oid[])
), chosen as (
    select c.* from pg_class c where c.oid = any (%(oids)s::oid[])
), usage as (
    select n.oid, jsonb_agg(a.grantee::oid::bigint order by a.grantee::oid) as roles
    from pg_namespace n, lateral aclexplode(coalesce(n.nspacl, acldefault('n', n.nspowner))) a
    where a.privilege_type = 'USAGE' and n.oid in (select relnamespace from chosen) group by n.oid
), published as (
    -- with versions: a table that left and came back has lost rows
    select r.prrelid, concat_ws(',', r.oid, r.xmin, p.xmin) as whole from pg_publication_rel r join pg_publication p on p.oid = r.prpubid
    where p.pubname = %(publication)s and r.prqual is null and r.prattrs is null
          and p.pubinsert and p.pubupdate and p.pubdelete and p.pubtruncate
), identities as (
    select x.indrelid, jsonb_agg(a.attname order by a.attnum) as key
    from pg_index x join chosen c on c.oid = x.indrelid join pg_attribute a on a.attrelid = x.indrelid
    where a.attnum = any ((x.indkey::int2[])[0:x.indnkeyatts - 1]) and x.indisvalid and x.indimmediate
          and case c.relreplident when 'd' then x.indisprimary when 'i' then x.indisreplident else false end
    group by x.indrelid
), columns as (
    select a.attrelid, jsonb_agg(jsonb_build_object(
        'name', a.attname, 'number', a.attnum, 'version', a.xmin::text, 'notnull', a.attnotnull, 'generated', a.attgenerated <> '',
        'type', case when t.typnamespace = 'pg_catalog'::regnamespace then format_type(a.atttypid, null)
                     when position('.' in t.typnamespace::regnamespace || t.typname) > 0 then 'a name with a dot'
                     else (select nspname from pg_namespace where oid = t.typnamespace) || '.' || t.typname end,
        'whole', format_type(a.atttypid, a.atttypmod),
        'collation', coalesce(nullif(case when c.collnamespace = 'pg_catalog'::regnamespace then c.collname
                                     else c.collnamespace::regnamespace || '.' || c.collname end, 'default'), ''),
        'deterministic', coalesce(c.collisdeterministic, true),
        'labels', (select jsonb_agg(e.enumlabel order by e.enumsortorder) from pg_enum e where e.enumtypid = t.oid)) order by a.attnum) as list
    from pg_attribute a join pg_type t on t.oid = a.atttypid left join pg_collation c on c.oid = a.attcollation
    where a.attnum > 0 and not a.attisdropped and a.attrelid in (select oid from chosen) group by a.attrelid
), policies as (
    select p.polrelid, jsonb_agg(jsonb_build_object('oid', p.oid::bigint, 'version', p.xmin::text, 'name', p.polname, 'restrictive', not p.polpermissive,
        'roles', (select jsonb_agg(r::bigint order by r) from unnest(p.polroles) r)) order by p.polname) as list
    from pg_policy p where p.polcmd in ('*', 'r') and p.polqual is not null and p.polrelid in (select oid from chosen) group by p.polrelid
)
select jsonb_build_object(
    'relations', (select coalesce(jsonb_object_agg(c.oid::text, jsonb_build_object(
            'schema', n.nspname, 'name', c.relname, 'sql', quote_ident(n.nspname) || '.' || quote_ident(c.relname), 'kind', c.relkind,
            'owner', c.relowner::bigint, 'usage', coalesce(u.roles, '[]'),
            'select', coalesce((select jsonb_agg(a.grantee::bigint order by a.grantee::oid)
                                from aclexplode(coalesce(c.relacl, acldefault('r', c.relowner))) a where a.privilege_type = 'SELECT'), '[]'),
            'enable', c.relrowsecurity, 'force', c.relforcerowsecurity, 'policies', coalesce(o.list, '[]'),
            'identity', c.relreplident, 'key', coalesce(i.key, '[]'), 'persistence', c.relpersistence,
            'parts', exists (select from pg_inherits i where i.inhparent = c.oid or i.inhrelid = c.oid),
            'published', coalesce(p.whole, ''), 'file', c.relfilenode::bigint, 'columns', coalesce(k.list, '[]'),
            'readable', c.relkind <> 'r' or has_schema_privilege(n.oid, 'usage') and has_table_privilege(c.oid, 'select'),
            'bound', c.relkind = 'r' and row_security_active(c.oid),
            'invoker', coalesce((select option_value::boolean from pg_options_to_table(c.reloptions)
                                 where option_name = 'security_invoker'), false),
            'query', coalesce((select md5(w.ev_action::text) from pg_rewrite w where w.ev_class = c.oid and w.rulename = '_RETURN'), ''))), '{{}}')
        from chosen c join pg_namespace n on n.oid = c.relnamespace left join usage u on u.oid = n.oid left join published p on p.prrelid = c.oid
        left join columns k on k.attrelid = c.oid left join policies o on o.polrelid = c.oid left join identities i on i.indrelid = c.oid),
    'roles', (select jsonb_object_agg(r.oid::text, jsonb_build_object('name', r.rolname, 'super', r.rolsuper, 'bypass', r.rolbypassrls))
              from used u join pg_roles r on r.oid = u.oid),
    'members', (select coalesce(jsonb_agg(jsonb_build_array(role, member) order by role, member), '[]') from (
                  select m.roleid::bigint, m.member::bigint from pg_auth_members m where {inherits}
                  -- nothing is stored of this one
                  union select r.oid::bigint, d.datdba::bigint from pg_roles r, pg_database d
                        where r.rolname = 'pg_database_owner' and d.datname = current_database() and {owner_inherits}) e(role, member)),
    'equality', exists (select from pg_operator o join pg_type t on t.oid in (o.oprleft, o.oprright)
                        where o.oid >= {own} and o.oprname = '=' and {carried})
             or exists (select from pg_opclass o join pg_am m on m.oid = o.opcmethod join pg_type t on t.oid = o.opcintype
                        where o.oid >= {own} and o.opcdefault and m.amname in ('btree', 'hash') and {carried}),
    'tampered', exists (select from pg_operator where oid >= {own} and oprnamespace = 'pg_catalog'::regnamespace)
             or exists (select from pg_proc where oid >= {own} and pronamespace = 'pg_catalog'::regnamespace and proname in ('count', 'sum')),
    'withheld', exists (select from pg_proc p where p.oid < {own} and p.proacl is not null and not has_function_privilege('public', p.oid, 'execute')
                        and (p.proname in ('count', 'sum') or exists (select from pg_cast c where c.castfunc = p.oid)
                             or exists (select from pg_operator o where o.oprcode = p.oid and o.oprname in ('=', '<>', '<', '<=', '>', '>=')))),
    'casts', exists (select from pg_cast c join pg_type t on t.oid = c.castsource where c.oid >= {own} and {carried}),
    -- what functions answer that policies name; those of PostgreSQL's own are not among them
    'answers', (select coalesce(jsonb_agg(distinct jsonb_build_array(n.nspname || '.' || f.proname, format_type(f.prorettype, null))), '[]')
                from pg_policy p join pg_depend d on d.classid = 'pg_policy'::regclass and d.objid = p.oid and d.refclassid = 'pg_proc'::regclass
                join pg_proc f on f.oid = d.refobjid join pg_namespace n on n.oid = f.pronamespace where p.polrelid in (select oid from chosen)),
    'collation', (select {collation} from pg_database where datname = current_database()),
    'server', jsonb_build_object('version', current_setting('server_version_num')::int, 'wal_level', current_setting('wal_level'),
        'user', current_user, 'encoding', current_setting('server_encoding'),
        'replication', (select rolreplication or rolsuper from pg_roles where rolname = current_user),
        'publication', exists (select from pg_publication where pubname = %(publication)s)))
"""
# What decides how PostgreSQL prints a text: names of relations and columns, views, and what may be meant without a name.
NAMES = """
    select string_agg(concat_ws(',', c.oid, c.relname, n.nspname), ' ' order by c.oid)
        from pg_class c join pg_namespace n on n.oid = c.relnamespace where c.oid = any (%(oids)s::oid[])
    union all select string_agg(concat_ws(',', attrelid, attnum, attname), ' ' order by attrelid, attnum) from pg_attribute
        where attrelid = any (%(oids)s::oid[]) and attnum > 0
    union all select string_agg(concat_ws(',', oid, xmin), ' ' order by oid) from pg_enum
    union all select string_agg(concat_ws(',', oid, xmin), ' ' order by oid) from pg_rewrite where ev_class = any (%(oids)s::oid[])
    union all select concat_ws(',', (select string_agg(concat_ws(',', oid, xmin), ' ' order by oid) from pg_operator where oid >= 16384),
        (select string_agg(concat_ws(',', oid, xmin), ' ' order by oid) from pg_opclass where oid >= 16384),
        (select string_agg(oid::text, ' ' order by oid) from pg_cast where oid >= 16384),
        (select string_agg(concat_ws(',', oid, xmin), ' ' order by oid) from pg_proc where oid < 16384 and proacl is not null),
        (select string_agg(concat_ws(',', oid, xmin), ' ' order by oid) from pg_proc where oid >= 16384 and proname in ('count', 'sum')))
"""
PRINTED_AS = f"select md5(string_agg(it, ';')) from ({NAMES}) parts(it)"
MARK = f"""
select md5(string_agg(it, ';')) from (
    select string_agg(concat_ws(',', oid, rolname, rolinherit, rolsuper, rolbypassrls), ' ' order by oid) from pg_roles
    union all select string_agg(concat_ws(',', roleid, member, xmin), ' ' order by roleid, member, xmin::text) from pg_auth_members
    union all select string_agg(concat_ws(',', c.oid, c.xmin, c.relnamespace, n.xmin), ' ' order by c.oid)
        from pg_class c join pg_namespace n on n.oid = c.relnamespace where c.oid = any (%(oids)s::oid[])
    union all select string_agg(concat_ws(',', oid, xmin), ' ' order by oid) from pg_policy where polrelid = any (%(oids)s::oid[])
    union all select string_agg(concat_ws(',', attrelid, attnum, xmin), ' ' order by attrelid, attnum) from pg_attribute
        where attrelid = any (%(oids)s::oid[]) and attnum > 0
    union all select string_agg(concat_ws(',', indexrelid, xmin), ' ' order by indexrelid) from pg_index where indrelid = any (%(oids)s::oid[])
    union all select string_agg(concat_ws(',', r.prrelid, r.xmin, p.xmin), ' ' order by r.prrelid)
        from pg_publication p join pg_publication_rel r on r.prpubid = p.oid where p.pubname = %(publication)s
    union all select string_agg(concat_ws(',', inhrelid, inhparent, xmin), ' ' order by inhrelid, inhparent) from pg_inherits
        where inhrelid = any (%(oids)s::oid[]) or inhparent = any (%(oids)s::oid[])
    union all select concat_ws(',', oid, xmin) from pg_database where datname = current_database()
    union all {NAMES}
) parts(it)
"""


class Unsettled(Exception):
    """The catalog was another one each time that it was read."""


@dataclasses.dataclass(frozen=True)
class Attribute:
    """A column as PostgreSQL has it."""

    name: str
    number: int
    version: str
    notnull: bool
    generated: bool
    type: str
    whole: str  # the type with its length
    collation: str  # empty: the database's
    deterministic: bool
    labels: list[str] | None  # of an enum


@dataclasses.dataclass(frozen=True)
class Policy:
    """A policy for ALL or SELECT with USING."""

    oid: int
    version: str
    name: str
    restrictive: bool
    roles: list[int]  # 0 is PUBLIC
    text: str | None = None  # none if its table is locked


@dataclasses.dataclass(frozen=True)
class Relation:
    schema: str
    name: str
    sql: str  # its name with its schema, as SQL writes it
    kind: str
    owner: int
    usage: list[int]  # who has USAGE on its schema
    select: list[int]  # who has SELECT
    enable: bool
    force: bool
    policies: list[Policy]
    identity: str
    key: list[str]  # its columns, if it is a key
    persistence: str
    parts: bool
    published: str  # versions of its place in the publication; empty if it is not there, or not whole
    file: int
    columns: list[Attribute]
    readable: bool  # by the bridge's own role
    bound: bool  # the bridge's own role, by the policies
    invoker: bool
    query: str  # a hash
    text: str | None = None  # of a view's query


@dataclasses.dataclass(frozen=True)
class Role:
    name: str
    super: bool
    bypass: bool


@dataclasses.dataclass(frozen=True)
class Server:
    version: int
    wal_level: str
    user: str
    encoding: str
    replication: bool  # the bridge's own role may follow the log
    publication: bool


@dataclasses.dataclass(frozen=True)
class Catalog:
    relations: dict[int, Relation]
    roles: dict[int, Role]
    members: list[tuple[int, int]]  # a role, and a member that has what it has without asking
    equality: bool  # the database has an operator = of its own for a type that viewd carries
    casts: bool  # and a cast of its own
    tampered: bool  # it has operators or aggregates of its own in PostgreSQL's schema
    withheld: bool  # not everybody may carry out those of PostgreSQL
    answers: list[tuple[str, str]]  # functions that policies name, and the type of what each answers
    collation: str  # the database's
    server: Server


def connect(dsn: str) -> Connection:
    """A connection on which every text is printed in one form. Raises psycopg2.Error."""
    connection = psycopg2.connect(dsn, options=SETTINGS, application_name="viewd-postgresql", client_encoding="utf8")
    printing(connection)
    as_text = psycopg2.extensions.new_type(PRINTED, "PRINTED", lambda text, _: text)  # type: ignore[no-untyped-call]
    psycopg2.extensions.register_type(as_text, connection)  # type: ignore[no-untyped-call]
    connection.set_session(isolation_level="REPEATABLE READ", readonly=True)
    return connection


def printing(connection: Connection) -> None:
    """libpq lets PGDATESTYLE and PGTZ win over what the connection was made with."""
    connection.autocommit = True
    with connection.cursor() as cursor:
        for it in PRINTING:
            cursor.execute(it)
    connection.autocommit = False


def asked(connection: Connection, query: str, values: dict[str, object] | None = None) -> list[tuple[Any, ...]]:
    with connection.cursor() as cursor:
        cursor.execute(query, values)
        return cursor.fetchall()


def statement(version: int) -> str:
    """CATALOG for a server of this number (150004 is 15.4)."""
    major = version // 10_000
    words = FROM_16 if major >= 16 else TO_15
    return CATALOG.format(collation=COLLATION[17 if major >= 17 else 15], own=OWN, carried=CARRIED.format(), **words)


def mark(connection: Connection, oids: list[int], publication: str) -> str:
    return str(asked(connection, MARK, {"oids": oids, "publication": publication})[0][0])


def read(connection: Connection, oids: list[int], publication: str) -> Catalog:
    """The catalog with its texts, and the transaction left open: rows that are read in it have the same catalog."""
    for _ in range(TRIES):
        connection.rollback()
        before = mark(connection, oids, publication)
        catalog = within(connection, oids, publication)
        connection.rollback()
        if mark(connection, oids, publication) == before:  # of a new snapshot; versions never come back
            return catalog
    raise Unsettled("the catalog changes faster than it can be read")


def printed_as(connection: Connection, oids: list[int]) -> str:
    """The mark of what decides how texts are printed."""
    return str(asked(connection, PRINTED_AS, {"oids": oids})[0][0])


def within(connection: Connection, oids: list[int], publication: str, known: dict[str, str] | None = None) -> Catalog:
    """The catalog of the transaction that is open. A policy is its own, and is printed with the names of now: these are its own too where
    `printed_as` is still the same. Texts that are known are not read, and others are known then."""
    found = asked(connection, statement(connection.server_version), {"oids": oids, "publication": publication})[0][0]
    return made(connection, found, {} if known is None else known)


def made(connection: Connection, found: dict[str, Any], known: dict[str, str]) -> Catalog:
    def of(what: str, oid: int, version: str) -> str | None:
        key = f"{what} {oid} {version}"
        if key not in known and (read := text(connection, what, oid)) is not None:
            known[key] = read
        return known.get(key)
    relations = {}
    for oid, it in found["relations"].items():
        columns = [Attribute(**one) for one in it.pop("columns")]
        policies = [Policy(**one, text=of("pg_get_expr(polqual, polrelid) from pg_policy where oid", one["oid"], one["version"]))
                    for one in it.pop("policies")]
        query = of("pg_get_viewdef(oid) from pg_class where oid", int(oid), it["query"]) if it["kind"] == "v" else None
        relations[int(oid)] = Relation(**it, columns=columns, policies=policies, text=query)
    return Catalog(relations, {int(oid): Role(**it) for oid, it in found["roles"].items()}, [(role, member) for role, member in found["members"]],
                   found["equality"], found["casts"], found["tampered"], found["withheld"], [(name, kind) for name, kind in found["answers"]],
                   found["collation"], Server(**found["server"]))


def text(connection: Connection, what: str, oid: int) -> str | None:
    """What PostgreSQL prints of an object, none if its table is locked for longer than a second."""
    with connection.cursor() as cursor:
        cursor.execute("savepoint printed")
        try:
            cursor.execute(f"select {what} = %s", (oid,))
            row = cursor.fetchone()
        except psycopg2.errors.LockNotAvailable:
            cursor.execute("rollback to printed")
            return None
        cursor.execute("release printed")
        return None if row is None or row[0] is None else str(row[0]).rstrip().removesuffix(";")
