"""What following a PostgreSQL takes: `viewd-postgresql follow` with a gateway that it starts, beside plain readers of the same changes, and beside
readers who ask again.

    bench/beside                                      all of it
    bench/beside 50:100 50:3000 --only lines          these readers, and transactions a second
    bench/beside --document                           puts what it printed into docs/POSTGRESQL.md

A transaction is one INSERT, by pgbench, of a row whose number is the time: so the time to the last reader's line has the statement and the sync
of its commit in it. Readers are those of bench/gateway. Rows a second are of transactions that wait, by a follower that was stopped while they
were made and by pg_recvlogical over the same log, which throws away what it reads; wal2json is measured if it is installed. PostgreSQL and
the journal sync. GATEWAY names another program than the one that is built.
"""
import argparse
import contextlib
import datetime
import glob
import os
import pathlib
import random
import re
import select
import shutil
import signal
import socket
import subprocess
import time
from collections.abc import Iterator

from viewd_bench import postgresql
from viewd_bench.crowd import Crowd, begin, came, frame, more_files
from viewd_bench.postgresql import Session
from viewd_bench.readers import BY_TOKEN, KEPT, PROGRAM, ROLES, TICK, TOP, Server, document, parts
from viewd_bench.report import number, table

FOLLOW = TOP / "viewd-postgresql"
DOCUMENT = TOP / "docs" / "POSTGRESQL.md"
BEGIN, END = "<!-- What bench/beside printed: -->\n", "<!-- The end of what bench/beside printed. -->\n"
PLAN = ["1:20", "1:100", "1:1000", "1:3000", "50:20", "50:100", "50:1000", "50:3000"]
PARTS = ("lines", "revokes", "rows", "asking")
SETTINGS = ["listen_addresses=", "wal_level=logical", "max_parallel_workers_per_gather=0", "shared_buffers=512MB", "max_wal_size=8GB", "wal_sender_timeout=0",
            "autovacuum=off"]
READERS = 50  # of revokes, and those who ask again
MANY = 300_000  # updates of a transaction
REVOKES = {"idle": None, f"right after a transaction of {MANY:,} updates": 0.0, "3 seconds after one": 3.0}
WAITING = [(20_000, 10), (100_000, 1_000), (200_000, 100_000)]  # rows, and how many of them a transaction has
MADE = [
    *(f"create role {it};" for it in ROLES), "create role viewd login replication bypassrls;", "grant pg_read_all_data to viewd;",
    "create table tickets (id bigint primary key, agent text not null, subject text not null, open boolean not null);",
    "alter table tickets owner to ann;", f"grant select on tickets to {', '.join(ROLES[1:])};", "alter table tickets enable row level security;",
    "create policy own on tickets to bob using (agent = current_user);", "create policy open on tickets to cid using (open);",
    "create policy late on tickets to dan using (id > 1000);", "create publication viewd for table tickets;"]
INSERT = "insert into tickets values ((extract(epoch from clock_timestamp()) * 1000000)::bigint * 16 + :client_id, 'bob', 'The quick brown fox', true);\n"
ASK = "set role dan;\nselect * from tickets;\n"
SUBSCRIBE = frame(b'{"do":"subscribe","on":"tickets"}')


def installed(name: str) -> str | None:
    """A program or a library of PostgreSQL."""
    return next((it for it in [shutil.which(name), *sorted(glob.glob(f"/usr/lib/postgresql/*/*/{name}"), reverse=True)] if it), None)


def of(pid: int, with_ended: bool = False) -> float:
    """Seconds of processor of a process, and of its children that have ended."""
    fields = pathlib.Path(f"/proc/{pid}/stat").read_text().rsplit(")", 1)[1].split()[11:15]
    return sum(map(int, fields if with_ended else fields[:2])) / TICK


def children(pid: int) -> list[int]:
    return [int(it) for it in pathlib.Path(f"/proc/{pid}/task/{pid}/children").read_text().split()]


class Following(Server):
    """The program that follows, and the gateway that it starts."""

    patience = 600.0  # it copies all rows

    def __init__(self, room: str, size: int) -> None:
        config = pathlib.Path(room) / "viewd.toml"
        config.write_text("[postgres]\n")
        dsn = f"host={room} user=viewd dbname=bench"
        super().__init__("follow", [FOLLOW, "follow", dsn, config, "--", PROGRAM, "--rows", "1048576"], size)

    def listens(self) -> bool:
        """Whether clients may come in."""
        with contextlib.suppress(OSError), socket.create_connection(("127.0.0.1", self.port), 1) as it:
            it.sendall(b"GET /readyz HTTP/1.1\r\nHost: localhost\r\n\r\n")
            return it.recv(99).startswith(b"HTTP/1.1 200")
        return False


class Beside:
    """A database, and what is measured of it."""

    def __init__(self, given: argparse.Namespace, server: postgresql.Server, session: Session) -> None:
        self.given, self.server, self.session = given, server, session
        self.tables: dict[str, list[dict[str, str]]] = {}
        session.ask(*MADE)
        self.fill(KEPT)

    def fill(self, last: int, first: int = 1, agent: str = "bob") -> None:
        self.session.ask(f"insert into tickets select g, '{agent}', 'The quick brown fox', true from generate_series({first}, {last}) g;")

    def anew(self) -> None:
        """The rows as they were at first."""
        self.session.ask("truncate tickets;")
        self.fill(KEPT)

    @contextlib.contextmanager
    def follows(self, size: int) -> Iterator[Following]:
        following = Following(self.server.room, size)
        try:
            yield following
        finally:
            for it in following.processes():
                os.kill(it, signal.SIGKILL)
            following.end()
            while self.session.ask("select pg_terminate_backend(active_pid) from pg_replication_slots where active;"):
                time.sleep(0.1)
            self.session.ask("select pg_drop_replication_slot(slot_name) from pg_replication_slots;")

    def postgresql(self) -> float:
        """Seconds of its processor."""
        used = of(self.server.server.pid, True)
        for it in children(self.server.server.pid):
            with contextlib.suppress(OSError):  # it has ended meanwhile
                used += of(it)
        return used

    def pgbench(self, script: str, clients: int, *words: str) -> tuple[int, float]:
        """How many transactions it made, and the mean time of one in milliseconds, without what it came too late by."""
        file = pathlib.Path(self.server.room) / "script"
        file.write_text(script)
        how = ["-n", "-h", self.server.room, "-U", "admin", "-c", str(clients), "-j", "2", "-T", f"{self.given.seconds:.0f}", "-f", str(file), *words]
        done = subprocess.run([installed("pgbench") or "pgbench", *how, "bench"], check=True, capture_output=True, text=True)
        count, mean, late = (re.search(it, done.stdout) for it in (r"processed: (\d+)", r"latency average = ([\d.]+)", r"schedule lag: avg ([\d.]+)"))
        assert count and mean, done.stdout
        return int(count[1]), float(mean[1]) - (float(late[1]) if late else 0.0)

    # ---- to the last client's line

    def lines(self, size: int, rates: list[int]) -> None:
        found = self.tables.setdefault("lines", [])
        with self.follows(size) as following:
            crowd = Crowd(following.port, following.seats, self.given.processes)
            crowd.subscribe()
            program, (gateway,) = following.process.pid, children(following.process.pid)
            for rate in rates:
                crowd.begin()
                before, began = (of(program), of(gateway), self.postgresql()), time.monotonic()
                count, commit = self.pgbench(INSERT, 16 if rate > 200 else 2, "-R", str(rate))
                wall = time.monotonic() - began
                told = crowd.told(count)
                used = [now - then for now, then in zip((of(program), of(gateway), self.postgresql()), before)]
                offset = time.time() - time.monotonic()
                times = [at + offset - (int(key) >> 4) / 1e6 for key, at in told.last.items()]
                short = count * size - sum(told.count.values())
                found.append({
                    "readers": str(size), "transactions a second": number(count / wall), "to the last line, ms": parts(times),
                    "of it the statement, mean": number(commit), "processor: follow, gateway, PostgreSQL": ", ".join(f"{it / wall:.0%}" for it in used),
                    "of a transaction, us": number(sum(used) / count * 1e6), "lost": str(short)})
                print(" | ".join(found[-1].values()), flush=True)
            crowd.end()

    # ---- rights that are taken

    def revokes(self) -> None:
        found = self.tables.setdefault("revokes", [])
        self.anew()
        self.fill(1_000_000 + MANY, 1_000_001, "zoe")
        with self.follows(2) as following:
            sockets = [came(begin(following.port, "bob 0")) for _ in range(READERS)]
            for name, wait in REVOKES.items():
                rounds = self.given.rounds if wait is None else max(3, self.given.rounds // 6)
                since_revoke, since_commit = list[float](), list[float]()
                for at in range(rounds):
                    for it in sockets:
                        it.sendall(SUBSCRIBE)
                        came(it)
                    time.sleep(random.random())
                    if wait is not None:
                        self.session.ask(f"update tickets set subject = 'as of {at}, {wait:g}' where agent = 'zoe';")
                    committed = time.monotonic()
                    time.sleep(wait or 0.0)
                    self.session.ask("revoke select on tickets from bob;")
                    revoked = time.monotonic()
                    last = heard(sockets, b'"ended":"privilege"')
                    since_revoke.append(last - revoked)
                    since_commit.append(last - committed)
                    self.session.ask("grant select on tickets to bob;")
                    heard(sockets, b'"granted"')
                found.append({"REVOKE, to the last line of 50": name, "rounds": str(rounds), "ms": parts(since_revoke),
                              "since the COMMIT before": parts(since_commit) if wait is not None else "", "most": number(max(since_revoke) * 1000)})
                print(" | ".join(found[-1].values()), flush=True)
            for it in sockets:
                it.close()

    # ---- rows that wait

    def rows(self) -> None:
        found, first = self.tables.setdefault("rows", []), 2_000_000
        self.anew()
        plugins = {"pgoutput": ["-o", "proto_version=1", "-o", "publication_names=viewd"], "wal2json": ["-o", "format-version=2"]}
        if not installed("wal2json.so"):
            del plugins["wal2json"]
        with self.follows(2) as following:
            reader = came(begin(following.port, "ann 0"))
            reader.sendall(SUBSCRIBE)
            came(reader)
            for count, each in WAITING:
                self.session.ask(*(f"select pg_create_logical_replication_slot('plain_{it}', '{it}');" for it in plugins))
                following.process.send_signal(signal.SIGSTOP)
                for at in range(first, first + count, each):
                    self.fill(at + each - 1, at)
                end = self.session.ask("select pg_current_wal_lsn();")[0]
                used, began = of(following.process.pid), time.monotonic()
                following.process.send_signal(signal.SIGCONT)
                took = heard([reader], b"[1,[%d," % (first + count - 1)) - began
                used = of(following.process.pid) - used
                row = {"rows": f"{count:,}, {each:,} a transaction", "follow, to a client": f"{count / took:,.0f} a second",
                       "its processor, us a row": number(used / count * 1e6)}
                for name, words in plugins.items():
                    row[f"pg_recvlogical, {name}"] = f"{count / self.plain(name, words, end):,.0f}"
                self.session.ask(*(f"select pg_drop_replication_slot('plain_{it}');" for it in plugins))
                first += count
                found.append(row)
                print(" | ".join(row.values()), flush=True)

    def plain(self, plugin: str, words: list[str], end: str) -> float:
        """Seconds until all up to there is read and thrown away."""
        how = ["-h", self.server.room, "-U", "admin", "-d", "bench", "-S", f"plain_{plugin}", "--start", "--endpos", end, "-n", "-f", "/dev/null"]
        began = time.monotonic()
        subprocess.run([installed("pg_recvlogical") or "pg_recvlogical", *how, *words], check=True, capture_output=True)
        return time.monotonic() - began

    # ---- readers who ask again

    def asking(self) -> None:
        self.anew()
        used = self.postgresql()
        count, mean = self.pgbench(ASK, READERS)
        each = (self.postgresql() - used) / count
        self.tables["asking"] = [{f"{READERS} readers who ask again for {KEPT} rows": "after each change",
                                  "PostgreSQL's processor, ms": number(each * READERS * 1000), "each has its rows after, mean, ms": number(mean)}]
        print(" | ".join(self.tables["asking"][0].values()), flush=True)


def heard(sockets: list[socket.socket], words: bytes) -> float:
    """When the last of them was told this, and then `settled`."""
    poll, tails = select.epoll(), {it.fileno(): b"" for it in sockets}
    of_number = {it.fileno(): it for it in sockets}
    for it in sockets:
        poll.register(it, select.EPOLLIN)
    while tails:
        for key, _ in poll.poll(600):
            got = of_number[key].recv(1 << 18)
            if not got:
                raise SystemExit("bench: a client was dropped")
            tail = tails[key] + got
            place = tail.find(words)
            if place >= 0 and b'{"settled":true}' in tail[place:]:
                poll.unregister(key)
                del tails[key]
            else:
                tails[key] = tail[place:] if place >= 0 else tail[-len(words):]
    return time.monotonic()


def main(words: list[str]) -> None:
    parser = argparse.ArgumentParser(prog="bench/beside", description=__doc__, formatter_class=argparse.RawDescriptionHelpFormatter)
    parser.add_argument("plan", nargs="*", default=PLAN, metavar="READERS:RATE")
    parser.add_argument("--only", nargs="+", choices=PARTS, default=PARTS)
    parser.add_argument("--seconds", type=float, default=10.0, help="for each rate (10)")
    parser.add_argument("--rounds", type=int, default=30, help="of a REVOKE (30)")
    parser.add_argument("--processes", type=int, default=2, help="of readers (2)")
    parser.add_argument("--document", action="store_true")
    given = parser.parse_intermixed_args(words)
    plan: dict[int, list[int]] = {}
    for it in given.plan:
        size, _, rate = it.partition(":")
        plan.setdefault(int(size), []).append(int(rate))
    if not postgresql.binaries() or not installed("pgbench") or b"--log" not in subprocess.run([PROGRAM, "--help"], capture_output=True).stdout:
        raise SystemExit(f"bench: it needs PostgreSQL, and {PROGRAM} with its door for logs")
    assert max(plan) <= 4 * BY_TOKEN
    more_files(max(plan))
    load = os.getloadavg()[0]
    with postgresql.Server(SETTINGS) as server, Session(server) as session:
        beside = Beside(given, server, session)
        for size, rates in plan.items() if "lines" in given.only else ():
            beside.lines(size, rates)
        for name in PARTS[1:]:
            if name in given.only:
                getattr(beside, name)()
        version = server.version
    cpu = next((it.partition(":")[2].strip() for it in pathlib.Path("/proc/cpuinfo").read_text().splitlines() if it.startswith("model name")), "?")
    now = datetime.datetime.now(datetime.timezone.utc).date()
    printed = (f"{now}, PostgreSQL {version}, {os.cpu_count()} processors ({cpu}), load {load:.1f} before and {os.getloadavg()[0]:.1f} at the end,"
               f" {given.seconds:g} seconds a rate, all on one machine. Of times those that 50, 95 and 99 % do not exceed.\n\n"
               + "\n".join(map(table, beside.tables.values())))
    print(f"\n{printed}")
    if given.document:
        document(printed, BEGIN, END, DOCUMENT)
