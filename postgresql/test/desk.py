"""A database to translate: tables with every kind, NULLs among their rows, roles and policies; and who sees what, by PostgreSQL and by viewd."""
import contextlib
import io
import json
import os
import pathlib
import re
import subprocess
import sys
import tempfile
from collections import Counter
from typing import Any

import psycopg2
import psycopg2.errors
import psycopg2.extensions

TOP = pathlib.Path(__file__).resolve().parent.parent.parent
VIEWD = pathlib.Path(os.environ.get("VIEWD", TOP / "crates/viewd/out/viewd"))
PROGRAM = pathlib.Path(os.environ.get("VIEWD_POSTGRESQL", TOP / "postgresql")) / "program.py"
sys.path.insert(0, str(PROGRAM.parent))
import program  # noqa: E402

ROLES = ("ann", "bob", "eve")
TABLES = """
create type public.mood as enum ('sad', 'ok', 'happy');
create type public.level as enum ('a low', 'b mid', 'c high');
create role ann; create role bob; create role eve; create role team; create role lead; grant team to ann; grant team to lead; grant lead to eve; create role clerk login;
create collation public."C" (provider = icu, locale = 'en');
create table things (id bigint not null, n integer, owner text not null, note text, code text collate "C", open boolean not null, done boolean, day date, amount numeric);
create table kinds (id integer not null, owner text not null, key uuid, at timestamp, seen timestamptz(3), mood public.mood, level public.level, small smallint, short varchar(5));
create table keyed (id integer primary key, owner text not null);
create table people (name text not null, boss text, rank integer not null);
insert into things select g, nullif(g % 5 - 1, 3), (array['ann', 'bob', 'eve', 'team', 'Ann', ''])[1 + g % 6], (array['a', 'B', 'b', null, '', 'x''y', 'größe'])[1 + g % 7],
    (array['a', 'B', null, 'b', 'é'])[1 + g % 5], g % 3 = 0, (array[true, false, null])[1 + (g / 2) % 3],
    (array['2024-01-31', '2024-02-01', null, 'infinity', '-infinity', '0999-12-31', '9999-12-31']::date[])[1 + g % 7],
    (array[1.0, 1.00, 1.5, null, 'NaN', -2.50, 10, 9, 0.000, 12345678901234567890.10]::numeric[])[1 + g % 10] from generate_series(0, 59) g;
insert into things select * from things where id % 9 = 0;
insert into kinds select g, (array['ann', 'bob', 'eve'])[1 + g % 3], (array['10000000-0000-4000-8000-00000000000a', 'a0000000-0000-4000-8000-000000000001', null]::uuid[])[1 + g % 3],
    (array['2024-01-01', '2024-01-01 00:00:00.5', '2024-01-01 00:00:00.25', null, 'infinity', '2023-12-31 23:59:59.999999']::timestamp[])[1 + g % 6],
    (array['2024-01-01 00:00+02', '2024-01-01 00:00:00.5+00', null, '2024-01-01 00:00:00.25+00', '-infinity']::timestamptz[])[1 + g % 5],
    (array['sad', 'ok', 'happy', null]::public.mood[])[1 + g % 4], (array['a low', 'b mid', 'c high', null]::public.level[])[1 + g % 4],
    nullif(g % 4, 2)::smallint, (array['ann', 'B', 'b', null])[1 + (g / 3) % 4] from generate_series(0, 41) g;
insert into people values ('ann', 'eve', 1), ('bob', 'eve', 1), ('eve', null, 3), ('Ann', 'zoe', 1), ('team', null, 2), ('x', null, 2), ('x', null, 2);
grant select on things, kinds, people to public;
alter table people enable row level security;
create policy seen on people using (boss is not null or rank > 2 or name = current_user);
"""


class Desk:
    """A connection as superuser, and the program over the same database."""

    def __init__(self, dsn: str):
        self.dsn = dsn
        self.again()

    def again(self) -> None:
        """The server may have been stopped."""
        self.connection = psycopg2.connect(self.dsn, options="-c datestyle=ISO -c timezone=UTC")
        self.connection.autocommit = True
        self.cursor = self.connection.cursor()
        for oid, name in ((1082, "date"), (1114, "timestamp"), (1184, "timestamptz"), (1700, "numeric"), (2950, "uuid")):
            as_text = psycopg2.extensions.new_type((oid,), name, lambda text, _: text)  # type: ignore[no-untyped-call]
            psycopg2.extensions.register_type(as_text, self.connection)  # type: ignore[no-untyped-call]

    def do(self, *statements: str) -> None:
        for it in statements:
            self.cursor.execute(it)

    def program(self, *words: str, config: str | None = None, dsn: str | None = None) -> "subprocess.CompletedProcess[str]":
        """What the program says and answers to these words. It runs here: to start it takes longer than all that it does."""
        given: list[str] = []
        if config is not None:
            file = self.room() / "config.toml"
            file.write_text(config)
            given = [str(file)]
        every = [words[0], self.dsn if dsn is None else dsn, *given, *words[1:]]
        out, err = io.StringIO(), io.StringIO()
        with contextlib.redirect_stdout(out), contextlib.redirect_stderr(err):
            try:
                status = program.main(every)
            except SystemExit as end:
                status = int(end.code or 0)
        return subprocess.CompletedProcess(every, status, out.getvalue(), err.getvalue())

    def started(self, *words: str) -> "subprocess.CompletedProcess[str]":
        """The same in a process of its own."""
        return subprocess.run(["/usr/bin/python3", PROGRAM, words[0], self.dsn, *words[1:]], capture_output=True, text=True)

    def room(self) -> pathlib.Path:
        return pathlib.Path(os.environ.get("VIEWD_POSTGRESQL_ROOM") or tempfile.gettempdir())

    def seen(self, role: str, relation: str, *before: str) -> Counter[tuple[Any, ...]] | None:
        """What PostgreSQL shows to the role: none if it refuses. Each value as viewd's clients should see it."""
        return self.seen_at(role, f"public.{relation}", *before)

    def seen_at(self, role: str, relation: str, *before: str, columns: str = "*") -> Counter[tuple[Any, ...]] | None:
        self.do("begin", f"set local role {role}", *before)
        try:
            self.cursor.execute(f"select {columns} from {relation}")
            return Counter(tuple(map(plain, row)) for row in self.cursor.fetchall())
        except psycopg2.errors.InsufficientPrivilege:
            return None
        finally:
            self.do("rollback")


def plain(value: object) -> object:
    """A numeric is the same however many zeros follow."""
    if isinstance(value, str) and re.fullmatch(r"-?[0-9]+\.[0-9]*0", value):
        value = value.rstrip("0").rstrip(".")
        return "0" if value == "-0" else value
    return value


class Shown:
    """What a viewd shows that was told the requests of `show`."""

    def __init__(self, requests: str, roles: tuple[str, ...]):
        self.told = [json.loads(line) for line in requests.split("\n") if line]
        self.names: dict[str, list[str]] = {}
        for it in self.told:
            if it["do"] in ("create_table", "create_view"):
                self.names[it["name"]] = columns_of(it)
        asks, session, of = [], 1, dict[int, tuple[str, str]]()
        pairs = [(role, name) for role in roles for name in self.names]
        for place, (role, name) in enumerate(pairs):
            if place == 0 or role != pairs[place - 1][0] or of and sum(it[0] == role for it in of.values()) % 16 == 0:
                session += 1
                asks.append({"do": "begin", "role": role, "session": session})
            of[len(asks)] = role, name
            asks.append({"do": "subscribe", "on": name, "session": session})
        lines = requests + "".join(json.dumps(it) + "\n" for it in asks)
        done = subprocess.run([VIEWD, "replay"], input=lines, capture_output=True, text=True, check=True)
        answers = [json.loads(it) for it in done.stdout.split("\n") if it]
        replies = [it for it in answers if "changes" not in it]
        assert len(replies) == len(self.told) + len(asks), (len(replies), len(self.told), len(asks))
        self.refused = [(request, answer) for request, answer in zip(self.told, replies) if "ok" not in answer]
        self.rows: dict[tuple[str, str], Counter[tuple[Any, ...]] | None] = {}
        subs: dict[int, tuple[str, str]] = {}
        for place, answer in enumerate(replies[len(self.told):]):
            if place in of:
                self.rows[of[place]] = Counter() if "ok" in answer else None
                if "ok" in answer:
                    subs[answer["sub"]] = of[place]
                else:
                    assert answer["error"] == 13, answer
        for answer in answers:
            for copies, row in answer.get("changes", ()):
                held = self.rows[subs[answer["sub"]]]
                assert held is not None
                held[decoded(self.names[subs[answer["sub"]][1]], row)] += copies


def columns_of(request: dict[str, Any]) -> list[str]:
    """Of a relation that is made."""
    if request["do"] == "create_table":
        return [name for name, _ in request["columns"]]
    return re.findall(r" as (\w+)", request["query"].split(" from ")[0])


def decoded(names: list[str], row: list[Any]) -> tuple[Any, ...]:
    """A row as clients should see it: NAME and NAME_null are one."""
    values = dict(zip(names, row, strict=True))
    found = []
    for column, value in values.items():
        if column.endswith("_null") and column[:-5] in values:
            continue
        null = values.get(f"{column}_null", False)
        assert not null or value in (0, "", False), (names, row)
        found.append(None if null else value)
    return tuple(found)


def alike(rows: Counter[tuple[Any, ...]] | None) -> Counter[tuple[str, ...]] | None:
    """As texts: a sum of bigint is a numeric in PostgreSQL and a number in viewd."""
    if rows is None:
        return None
    found: Counter[tuple[str, ...]] = Counter()
    for row, copies in rows.items():
        found[tuple(map(str, row))] += copies
    return found
