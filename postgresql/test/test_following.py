"""A database that is followed while several writers write: what viewd shows to each role is what `SET ROLE; SELECT` shows, as bags."""
import contextlib
import itertools
import random
import threading
import time
import unittest.mock
from collections import Counter
from collections.abc import Iterator

import psycopg2
import psycopg2.errors

import beginning
import catalog
import cuts
import rows
import state
from base import Base
from beginning import NotReady
from catalog import Unsettled
from cuts import ALL
from desk import alike
from following import Anew, Following
from live import Live, parsed
from settings import Settings
from source import NAME
from stream import Lost, Stream
from writers import CHURN, DESK, FIXED, FORMED, SCENES, STRICT, TABLES, Writer

options = {"seconds": 20.0, "seed": 1, "writers": 3}
counts: Counter[str] = Counter()
ROWS = 2_048  # different ones of a table, beyond which it is left out
MOST = 1_048_576  # at each step of a view
PATIENCE = 600.0  # seconds for the stream to come: a slow machine fails no test
beginning.LOOKS = 3_000  # and for a slot to be free of a connection that has ended


class Follows(Base):
    def setUp(self) -> None:
        super().setUp()
        self.following: Following | None = None
        self.viewd: Live | None = None
        self.columns: dict[str, list[str]] = {}
        self.addCleanup(self.stop)
        self.desk.do("set lock_timeout = '300s'; set statement_timeout = '600s'", "create role viewd login replication bypassrls", "grant pg_read_all_data to viewd")

    def stop(self) -> None:
        if self.following:
            self.following.close()
            beginning.slot(self.settings(), drops=True)
        if self.viewd:
            self.viewd.close()
        self.following = self.viewd = None

    def settings(self) -> Settings:
        return Settings(self.server.dsn("viewd", self.name), columns=self.columns)

    def begin(self) -> None:
        self.stop()
        end = time.monotonic() + PATIENCE
        while self.following is None:
            try:
                self.following = Following.anew(self.settings(), ROWS)
            except (Unsettled, psycopg2.errors.LockNotAvailable):  # a writer holds its table, or changes it
                assert time.monotonic() < end
        self.viewd = Live(MOST)
        self.viewd.tell(map(parsed, self.following.first()))
        self.following.begun.steps.late = self.late
        counts["beginnings"] += 1

    def step(self) -> None:
        """One step, or a new beginning."""
        assert self.following and self.viewd
        try:
            requests = self.following.next(0.02)
        except (Anew, Lost, Unsettled) as why:
            self.why = str(why)
            self.begin()
            return
        if requests:
            self.viewd.tell(map(parsed, requests))
            self.following.kept()
            counts["steps"] += 1

    def late(self) -> None:
        assert self.following and self.viewd
        if requests := self.following.less():
            self.viewd.tell(map(parsed, requests))
            counts["steps of rights alone"] += 1

    def catch_up(self) -> None:
        """To where PostgreSQL is now: what sees a transaction that begins now sees all that was answered before it. (That the stream has come to
        where the log ends now is not enough: a transaction stands in the log before a snapshot sees it, and one of rights alone is not sent.)"""
        self.desk.cursor.execute("select pg_current_xact_id()::text from pg_logical_emit_message(true, 'test', '')")
        last = int((self.desk.cursor.fetchone() or ("",))[0]) % ALL
        end = time.monotonic() + PATIENCE
        while True:
            assert self.following
            if (told := self.following.begun.steps.told) and told.sees(last):
                return
            assert time.monotonic() < end, f"not caught up to {last}: {told}"
            self.step()

    @contextlib.contextmanager
    def held(self, statement: str) -> Iterator[None]:
        """What it does has committed meanwhile, and no snapshot sees it: it waits for a standby, and there is none."""
        connection = psycopg2.connect(self.desk.dsn)
        connection.autocommit = True
        cursor = connection.cursor()
        cursor.execute("set synchronous_commit = on")
        thread = threading.Thread(target=cursor.execute, args=(statement,))
        thread.start()
        try:
            waits = 0
            while not waits:
                self.assertTrue(thread.is_alive())
                self.desk.do(f"select from pg_stat_activity where pid = {connection.get_backend_pid()} and wait_event = 'SyncRep'")
                waits = self.desk.cursor.rowcount
            yield
        finally:
            self.desk.do(f"select pg_cancel_backend({connection.get_backend_pid()})")
            thread.join()
            connection.close()

    def compare(self, roles: tuple[str, ...] = FIXED + CHURN) -> None:
        """While no writer writes."""
        assert self.following and self.viewd
        for role in sorted(self.following.state.rights.readers & {*roles}):
            for name in self.viewd.names:
                self.viewd.shown(role, name)
            self.viewd.settle()
            for name in self.viewd.names:
                shown = alike(self.viewd.held.get((role, name)))
                columns = ", ".join(self.columns.get(name, "*"))
                self.assertEqual(shown, alike(self.desk.seen_at(role, f"public.{name}", columns=columns)), (role, name, options["seed"]))
                counts["denied by both" if shown is None else "equal and not empty" if shown else "equal and empty"] += 1

    def test_random_transactions(self) -> None:
        self.desk.do(DESK)
        self.begin()
        r = random.Random(options["seed"])
        writers = [Writer(self.desk.dsn, r.randrange(1 << 30), r.random() < 0.5) for _ in range(int(options["writers"]))]
        end = time.monotonic() + options["seconds"]
        while time.monotonic() < end:
            stop, most = threading.Event(), r.choice((1, 3, 10, 40))
            threads = [threading.Thread(target=it.run, args=(stop, most)) for it in writers]
            for one in threads:
                one.start()
            try:
                while any(one.is_alive() for one in threads):
                    if r.random() < 0.03:
                        self.stall_for(r.choice((0.25, 0.6)))
                    self.step()
            finally:
                stop.set()
                for one in threads:
                    one.join()
            self.catch_up()
            self.compare()
            counts["rounds"] += 1
        for it in writers:
            counts["transactions"] += it.counts["transactions"]
            it.connection.close()

    def test_no_step_shows_what_was_never_to_be_seen(self) -> None:
        """Rows that are there only while a role may not see them, put there as fast as PostgreSQL takes it."""
        self.desk.do(DESK, STRICT)
        self.begin()
        for scene, (role, text) in SCENES.items():
            stop = threading.Event()
            writer = Writer(self.desk.dsn, int(options["seed"]), False)
            thread = threading.Thread(target=writer.play, args=(text, stop))
            thread.start()
            try:
                end = time.monotonic() + options["seconds"] / 40
                while time.monotonic() < end or counts[f"steps of {scene}"] < 4:
                    before = counts["steps"]
                    if writer.r.random() < 0.03:
                        self.stall_for(0.3)
                    self.step()
                    assert self.viewd
                    for name in ("tickets", "teams", "agents", "workload"):
                        self.viewd.shown(role, name)
                    self.viewd.settle()
                    seen = [row for (one, _), held in self.viewd.held.items() for row in held if one == role and any(str(it).startswith("secret") for it in row)]
                    self.assertEqual(seen, [], scene)
                    counts[f"steps of {scene}"] += counts["steps"] > before
            finally:
                stop.set()
                thread.join()
                writer.connection.close()
            counts["transactions"] += writer.counts["transactions"]
            self.catch_up()
        self.compare()

    def test_what_has_committed_and_is_not_seen_yet(self) -> None:
        """It stands in the log, before the places of cuts, and is told when a cut sees it; nor is told before it what committed after it."""
        self.desk.do(DESK)
        self.begin()
        for statement, go_on in (("grant night to mia", self.catch_up), ("revoke night from mia", self.step)):  # the stream has nothing of these
            with self.held(statement):
                self.catch_up()
                self.compare(("mia", "olga"))
            go_on()
            self.compare(("mia", "olga"))
        with self.held("insert into teams values ('first', 'day')"):
            self.desk.do("insert into teams values ('second', 'day')")
            assert self.following
            while len(self.following.begun.steps.waiting) < 2:
                self.assertEqual(self.following.next(0.02), [])
            self.desk.do("revoke select on teams from public")  # what is taken waits for neither
            self.assertEqual(self.following.next(0.02), [])
            assert self.viewd
            self.viewd.settle()
            self.assertIsNone(self.viewd.shown("mia", "teams"))
            self.assertNotIn("second", str(self.viewd.held))
        self.catch_up()
        self.compare(("mia", "olga"))

    def test_rights_alone_show_nobody_more(self) -> None:
        """Random rights, told before a step: no table has a row for a role that it had not, nor one that PostgreSQL hides."""
        self.desk.do(DESK, STRICT)
        r = random.Random(options["seed"])
        writer = Writer(self.desk.dsn, r.randrange(1 << 30), False)
        end = time.monotonic() + options["seconds"] / 2
        with unittest.mock.patch.object(cuts, "LOOK", 0):
            self.begin()
            while time.monotonic() < end or not counts["rows that were taken"]:
                self.catch_up()
                self.compare(FIXED)
                before = self.tables()
                for _ in range(r.randint(2, 8)):
                    for _ in range(r.randint(1, 4)):
                        for statement in writer.right().split(";"):
                            with contextlib.suppress(psycopg2.Error):
                                writer.cursor.execute(statement)
                    self.late()
                    now = self.tables()
                    for (role, name), shown in now.items():
                        self.assertLessEqual(shown, before[role, name], (role, name, options["seed"]))
                        if shown:
                            self.assertLessEqual(shown, alike(self.desk.seen_at(role, f"public.{name}")) or Counter(), (role, name, options["seed"]))
                        counts["rows that were taken"] += (before[role, name] - shown).total()
                    before = now
        writer.connection.close()

    def tables(self) -> dict[tuple[str, str], Counter[tuple[str, ...]]]:
        """What viewd shows of tables."""
        assert self.viewd
        for role, name in itertools.product(FIXED, TABLES):
            self.viewd.shown(role, name)
        self.viewd.settle()
        return {(role, name): alike(self.viewd.held.get((role, name))) or Counter() for role, name in itertools.product(FIXED, TABLES)}

    def test_what_needs_a_new_beginning(self) -> None:
        self.desk.do(DESK)
        self.begin()
        for statement, words in FORMED:
            before = counts["beginnings"]
            self.desk.do(*statement.split(";"))
            self.catch_up()
            self.assertEqual(counts["beginnings"] > before, bool(words), statement)
            if words:
                self.assertRegex(self.why, words, statement)
            self.compare(("mia", "olga"))

    def test_rows_by_a_key(self) -> None:
        """Values that stand out of line and are not sent, keys of two columns, in another order, of an index; and columns that are not followed."""
        self.columns = {"long": ["body", "id"]}
        self.desk.do("create role mia", "create table long (body text, more text, id numeric primary key, rest text); alter table long alter body set storage external, alter more set storage external, alter rest set storage external",
                     "create table pairs (b int not null, x text, a varchar not null, unique (a, b))", "create table plain (x int, y text)", "alter table pairs replica identity using index pairs_a_b_key", "alter table plain replica identity full",
                     "create publication viewd for table long, pairs, plain", "grant select on long, pairs, plain to mia",
                     "insert into long select repeat('b', 1000), repeat('m', 1000), g, repeat('r', 1000) from generate_series(1, 4) g", "insert into pairs values (1, 'x', 'a'), (2, null, 'a')", "insert into plain values (1, 'x'), (1, 'x'), (null, null)")
        before = counts["beginnings"]
        self.begin()
        for statement in ("update long set rest = 'r' where id = 1", "update long set id = 1.00 where id = 1", "update long set id = id + 10", "update long set body = 'short' where id = 11", "delete from long where id = 12", "update long set more = null, rest = null",
                          "update pairs set x = 'y' where b = 2", "update pairs set b = 3 where b = 2", "update pairs set a = 'b', x = null", "delete from pairs where b = 1", "insert into pairs values (1, 'x', 'a')", "truncate pairs",
                          "update plain set y = 'y' where x = 1", "delete from plain where x is null", "insert into plain values (1, 'y'), (1, 'y')", "delete from plain where ctid = (select min(ctid) from plain)",
                          "begin; insert into long values ('new', null, 5); update long set body = 'newer' where id = 5; delete from long where id = 14; insert into long values ('again', null, 14); commit"):
            self.desk.do(*statement.split("; "))
            self.catch_up()
            self.compare(("mia",))
        self.assertEqual(counts["beginnings"], before + 1)

    def test_rows_that_come_while_it_begins(self) -> None:
        """One comes right after the slot, others while tables are read, and a table is written anew."""
        self.desk.do(DESK, "create table zebra (x text); alter table zebra replica identity full; insert into zebra values ('a'); grant select on zebra to public; alter publication viewd add table zebra")
        read, create, statements = rows.read, Stream.create, ["alter table zebra alter x type text using upper(x)", "revoke select on agents from public"]

        def changed(*words: object) -> Iterator[tuple[str | None, ...]]:
            self.desk.do("insert into zebra values ('late')", *statements[:1])
            del statements[:1]
            yield from read(*words)  # type: ignore[arg-type]

        def created(stream: Stream) -> tuple[int, str]:
            found = create(stream)
            self.desk.do("insert into zebra values ('first')")
            return found
        with unittest.mock.patch.object(rows, "read", changed), unittest.mock.patch.object(Stream, "create", created):
            self.begin()
        self.assertEqual(statements, [])
        self.catch_up()
        self.compare(("mia", "olga"))

    def test_a_name_that_changes_before_the_slot_is_there(self) -> None:
        """A relation has the name of the moment whose rows it has; so has one that is shown once."""
        self.desk.do(DESK)
        create, read, statements = Stream.create, catalog.read, ["alter table teams rename to crews"]

        def created(stream: Stream) -> tuple[int, str]:
            self.desk.do(*statements)
            statements.clear()
            return create(stream)

        def renamed(*words: object) -> catalog.Catalog:
            self.desk.do(*statements)
            statements.clear()
            return read(*words)  # type: ignore[arg-type]
        with unittest.mock.patch.object(Stream, "create", created):
            self.begin()
        assert self.viewd
        self.assertIn("crews", self.viewd.names)
        self.assertNotIn("teams", self.viewd.names)
        self.catch_up()
        self.compare(("mia", "olga"))
        statements.append("alter table crews rename to teams")
        with unittest.mock.patch.object(state, "read", renamed), contextlib.closing(catalog.connect(self.server.dsn("viewd", self.name))) as connection:
            names = {it.name for it in state.state(connection, self.settings(), ROWS).made.values()}
        self.assertEqual(({"teams", "crews"} & names, statements), ({"teams"}, []))

    def test_names_that_change_while_it_begins(self) -> None:
        """A policy is never told with names of another moment, not even up to the first step."""
        self.desk.do("create role mia", "create table zebra (x text, y text); alter table zebra replica identity full, enable row level security; insert into zebra values ('a', 'b'), ('b', 'a'); grant select on zebra to mia",
                     "create policy p on zebra using (x = 'a'); create publication viewd for table zebra")
        printed, statements = catalog.text, ["alter table zebra rename x to z; alter table zebra rename y to x; alter table zebra rename z to y"]

        def changed(*words: object) -> str | None:
            self.desk.do(*statements)
            statements.clear()
            return printed(*words)  # type: ignore[arg-type]
        with unittest.mock.patch.object(catalog, "text", changed):
            self.begin()
        self.assertEqual(statements, [])
        self.compare(("mia",))

    def test_what_cannot_be_followed(self) -> None:
        self.desk.do("create table t (id int)")
        with self.assertRaisesRegex(NotReady, "there is no publication viewd: viewd-postgresql check has the statements for it"):
            Following.anew(self.settings(), ROWS)
        self.desk.do("create publication viewd for table t", "alter role viewd noreplication")
        with self.assertRaisesRegex(NotReady, "the role viewd has no REPLICATION"):
            with unittest.mock.patch.object(beginning, "Stream"):
                Following.anew(self.settings(), ROWS)
        self.desk.do("alter role viewd replication", "select pg_create_logical_replication_slot('viewd', 'test_decoding')")
        with self.assertRaisesRegex(NotReady, "the slot viewd is there, and is of another database or plugin"):
            Following.anew(self.settings(), ROWS)
        self.desk.do("select pg_drop_replication_slot('viewd')")
        with self.assertRaisesRegex(Lost, "no name of a slot"):
            Following.anew(self.settings()._replace(slot="View d"), ROWS)
        self.begin()
        assert self.following
        self.assertEqual([it["do"] for it in map(parsed, self.following.first()) if it["do"] == "create_table" and it["name"] != NAME], [], "a table whose rows have no key")
        with unittest.mock.patch.object(beginning, "LOOKS", 2), self.assertRaisesRegex(NotReady, "the slot viewd is in use"):
            Following.anew(self.settings(), ROWS)
