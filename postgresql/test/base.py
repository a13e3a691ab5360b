"""Tests with a server for all of them and a database for each."""
import contextlib
import os
import signal
import threading
import unittest
from collections.abc import Iterator

from desk import Desk, Shown, alike
from server import Server, is_installed

counts = {"expressions": 0, "said": 0, "relations": 0}


def go_on(senders: list[int]) -> None:
    for pid in senders:
        with contextlib.suppress(ProcessLookupError):
            os.kill(pid, signal.SIGCONT)


@unittest.skipUnless(is_installed(), "no PostgreSQL is installed")
class Base(unittest.TestCase):
    server: Server

    @classmethod
    def setUpClass(cls) -> None:
        cls.server = Server({"wal_level": "logical", "synchronous_commit": "local", "synchronous_standby_names": "nobody"})  # see `held`
        cls.addClassCleanup(cls.server.__exit__, None, None, None)
        cls.server.__enter__()

    def setUp(self) -> None:
        self.name = ("t_" + self._testMethodName)[:63]
        first = Desk(self.server.dsn())
        first.do(f"create database {self.name}")
        first.connection.close()
        self.desk = Desk(self.server.dsn(database=self.name))
        self.addCleanup(self.forget)

    def forget(self) -> None:
        """Roles are the whole server's."""
        self.desk.connection.close()
        last = Desk(self.server.dsn())
        last.do(f"drop database {self.name} with (force)")
        last.cursor.execute("select quote_ident(rolname) from pg_roles where rolname !~ '^pg_' and rolname <> 'postgres'")
        last.do(*(f"drop role {it}" for it, in last.cursor.fetchall()))
        last.connection.close()

    def stall(self) -> list[int]:
        """Nothing comes of the log, as while a large transaction is being sent, until these go on."""
        self.desk.cursor.execute("select pid from pg_stat_replication")
        found = [pid for pid, in self.desk.cursor.fetchall()]
        for pid in found:
            with contextlib.suppress(ProcessLookupError):
                os.kill(pid, signal.SIGSTOP)
        return found

    @contextlib.contextmanager
    def stalled(self) -> Iterator[None]:
        found = self.stall()
        self.assertEqual(len(found), 1)
        try:
            yield
        finally:
            go_on(found)

    def stall_for(self, seconds: float) -> None:
        threading.Timer(seconds, go_on, (self.stall(),)).start()

    def same(self, shown: Shown, roles: tuple[str, ...], before: dict[str, list[str]] | None = None) -> None:
        self.assertEqual(shown.refused, [])
        for role in roles:
            for name in shown.names:
                counts["relations"] += 1
                as_role, statements = ("app", before[role]) if before else (role, [])
                self.assertEqual(alike(shown.rows[role, name]), alike(self.desk.seen(as_role, name, *statements)), (role, name))
