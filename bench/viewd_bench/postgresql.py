"""The same workloads in PostgreSQL: a server of its own in a folder of its own, over a socket of files alone, that is asked for the
views anew after each batch.

Of a line the processor time of the server's process is measured: the batch, and then each view that is subscribed to, once for
each role, by EXPLAIN ANALYZE, which evaluates it and sends no row. Nothing is synced, and no process helps another. Each table has an index
on its first column.
"""
import collections
import functools
import glob
import itertools
import json
import os
import shutil
import subprocess
import sys
import tempfile
import time
from collections.abc import Iterable
from typing import Any

from viewd_bench.measure import processor_seconds
from viewd_bench.workloads import Request

KINDS = {"int": "bigint", "text": 'text collate "C"', "flag": "boolean"}
SETTINGS = [
    "listen_addresses=",
    "fsync=off",
    "synchronous_commit=off",
    "max_parallel_workers_per_gather=0",
    "work_mem=256MB",
    "shared_buffers=512MB",
]


def binaries() -> str | None:
    """The folder of the server's programs, if they and psql are there."""
    places = [os.path.dirname(shutil.which("initdb") or "")] + sorted(glob.glob("/usr/lib/postgresql/*/bin"), reverse=True)
    return next((it for it in places if it and shutil.which("psql")), None)


def literal(value: str | int) -> str:
    return "'" + value.replace("'", "''") + "'" if isinstance(value, str) else json.dumps(value)


def listed(words: Iterable[str]) -> str:
    return ", ".join(words)


class Sql:
    """The statements of requests, and the subscriptions that they leave."""

    def __init__(self) -> None:
        self.columns: dict[str, list[str]] = {}
        self.role_of: dict[int, str] = {}
        self.reads: dict[int, tuple[str, str] | None] = {}

    def of(self, it: Request) -> str:
        """The statement of a request; none for those of sessions."""
        return getattr(self, it["do"])(it) or ""

    def begin(self, it: Request) -> None:
        self.role_of[it["session"]] = it["role"]

    def subscribe(self, it: Request) -> None:
        self.reads[len(self.reads) + 1] = self.role_of[it["session"]], it["on"]

    def unsubscribe(self, it: Request) -> None:
        self.reads[it["sub"]] = None

    def create_role(self, it: Request) -> str:
        return f"create role {it['name']};"

    def create_table(self, it: Request) -> str:
        name, columns = it["name"], it["columns"]
        self.columns[name] = [column for column, _ in columns]
        kinds = listed(f"{column} {KINDS[kind]}" for column, kind in columns)
        return f"create table {name} ({kinds}); create index on {name} ({columns[0][0]});"

    def grant(self, it: Request) -> str:
        return f"grant {listed(it['privileges'])} on {it['on']} to {it['to']};"

    def row_security(self, it: Request) -> str:
        does = ["disable", "enable"][it["enable"]], ["no force", "force"][it["force"]]
        return " ".join(f"alter table {it['on']} {do} row level security;" for do in does)

    def create_policy(self, it: Request) -> str:
        kind = "restrictive" if it.get("restrictive") else "permissive"
        return f"create policy {it['name']} on {it['on']} as {kind} using ({it['using']});"

    def drop_policy(self, it: Request) -> str:
        return f"drop policy {it['name']} on {it['on']};"

    def create_view(self, it: Request) -> str:
        return f"create view {it['name']} with (security_invoker = true) as {it['query']};"

    def write(self, it: Request) -> str:
        """Entries of one kind that follow each other are one statement. A row is taken out wherever it is, so once is enough."""
        statements = []
        for (name, kind), entries in itertools.groupby(it["entries"], lambda entry: (entry["on"], "insert" if "insert" in entry else "delete")):
            rows = listed("(" + listed(map(literal, entry[kind])) + ")" for entry in entries)
            columns = self.columns[name]
            same = " and ".join(f"{name}.{column} = gone.{column}" for column in columns)
            taken = f"delete from {name} using (values {rows}) as gone ({listed(columns)}) where {same};"
            statements.append(f"insert into {name} values {rows};" if kind == "insert" else taken)
        return f"begin; {' '.join(statements)} commit;"

    def readers(self) -> list[tuple[str, str]]:
        """Each role with each relation that it is subscribed to, once."""
        return sorted({it for it in self.reads.values() if it})


class Server:
    """A server that ends with the block."""

    def __init__(self, settings: list[str] = SETTINGS) -> None:
        self.settings = settings
        # (another user than root has to come to it)
        self.room = tempfile.mkdtemp(prefix="bench-", dir="/tmp" if os.getuid() == 0 else None)
        self.how: dict[str, Any] = {"stdout": subprocess.DEVNULL, "stderr": subprocess.DEVNULL, "cwd": "/"}
        if os.getuid() == 0:
            # PostgreSQL does not run as root
            shutil.chown(self.room, "postgres")
            self.how["user"] = "postgres"

    def __enter__(self) -> "Server":
        data = os.path.join(self.room, "data")
        initdb, postgres = (os.path.join(binaries() or "", name) for name in ("initdb", "postgres"))
        subprocess.run([initdb, "-D", data, "-U", "admin", "--auth=trust", "--encoding=UTF8", "--locale=C"], check=True, **self.how)
        settings = [word for it in [*self.settings, f"unix_socket_directories={self.room}"] for word in ("-c", it)]
        self.server = subprocess.Popen([postgres, "-D", data, *settings], **self.how)
        while subprocess.run([*self.psql("postgres"), "-c", "select"], **self.how).returncode:
            time.sleep(0.1)
        return self

    def __exit__(self, *_: object) -> None:
        self.server.terminate()
        self.server.wait()
        shutil.rmtree(self.room)

    def psql(self, database: str) -> list[str]:
        return ["psql", "-X", "-q", "-A", "-t", "-v", "ON_ERROR_STOP=1", "-h", self.room, "-U", "admin", "-d", database]

    @functools.cached_property
    def version(self) -> str:
        asked = subprocess.run([*self.psql("postgres"), "-c", "show server_version"], stdout=subprocess.PIPE, text=True, check=True)
        return asked.stdout.split()[0]

    def seconds(self, before: list[Request], lines: list[Request], most: float = 2.0) -> tuple[float, int]:
        """The processor seconds of a line, and how many of the lines were measured: as many as take so long, two at least."""
        with Session(self) as session:
            session.tell(map(session.sql.of, before), ["analyze;"])
            count, began = 0, processor_seconds(session.backend)
            for one, other in zip(lines[::2], lines[1::2]):
                session.tell(session.evaluated(one), session.evaluated(other))
                count += 2
                if processor_seconds(session.backend) - began > most:
                    break
            return (processor_seconds(session.backend) - began) / count, count

    def shown(self, requests: list[Request]) -> dict[tuple[str, str], collections.Counter[str]]:
        """What each reader is shown after the requests: each row as a list of JSON, with its copies."""
        with Session(self) as session:
            session.tell(map(session.sql.of, requests))
            return {it: collections.Counter(map(session.values, session.rows(*it))) for it in session.sql.readers()}


class Session:
    """A session of psql in a new database, whose roles end with it."""

    def __init__(self, server: Server) -> None:
        self.server, self.sql = server, Sql()

    def __enter__(self) -> "Session":
        self.own("create database bench")
        words = [*self.server.psql("bench")]
        self.client = subprocess.Popen(words, stdin=subprocess.PIPE, stdout=subprocess.PIPE, text=True, bufsize=1)
        self.backend = int(self.ask("select pg_backend_pid();")[0])
        return self

    def __exit__(self, *_: object) -> None:
        assert self.client.stdin
        roles = self.ask("select rolname from pg_roles where rolname !~ '^(pg_|admin$)';")
        self.client.stdin.close()
        self.client.wait()
        self.own("drop database bench", *(f"drop role {role}" for role in roles))

    def own(self, *statements: str) -> None:
        """Statements outside the database of the session."""
        words = [word for it in statements for word in ("-c", it)]
        subprocess.run([*self.server.psql("postgres"), *words], check=True, stdout=subprocess.DEVNULL)

    def ask(self, *statements: str) -> list[str]:
        """The lines that the statements print."""
        assert self.client.stdin and self.client.stdout
        self.client.stdin.write("\n".join([*statements, "\\echo .", ""]))
        self.client.stdin.flush()
        lines: list[str] = []
        for line in self.client.stdout:
            if line == ".\n":
                return lines
            lines.append(line.rstrip("\n"))
        sys.exit("bench: psql has ended")

    def tell(self, *parts: Iterable[str]) -> None:
        self.ask(*itertools.chain(*parts))

    def evaluated(self, line: Request) -> list[str]:
        """The statement of a request, and then the evaluation of what is subscribed to."""
        statement = self.sql.of(line)
        explain = "explain (analyze, costs off, timing off, summary off) select * from"
        return [statement, *(f"set role {role}; {explain} {name}; reset role;" for role, name in self.sql.readers())]

    def rows(self, role: str, name: str) -> list[str]:
        return self.ask(f"set role {role};", f"select to_json(it) from {name} it;", "reset role;")

    @staticmethod
    def values(row: str) -> str:
        return json.dumps(list(json.loads(row).values()))
