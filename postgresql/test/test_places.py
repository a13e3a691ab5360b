"""From where the program that follows goes on, and what needs a new beginning."""
import contextlib
import io
import json
import re
import shutil
import time
import types
import unittest
import unittest.mock
import urllib.error
import urllib.request
from collections import Counter
from collections.abc import Callable
from typing import Any

import beginning
import door
import follow
from desk import alike
from followed import PATIENCE, Followed
from server import free_port
from settings import Settings
from source import NAME
from stream import Place
from writers import DESK, FIXED, STRICT, TABLES, TAKEN


class Pieces(unittest.TestCase):
    def test_a_first_copy_of_many_lines_is_many_steps(self) -> None:
        taken = io.BytesIO()
        one = follow.Follow(Settings(""), door.Gateway(io.BytesIO(b'{"door":1,"rows":5}\n'), taken))
        following: Any = types.SimpleNamespace(first=lambda: ({"do": f"x{at}"} for at in range(7)), source=types.SimpleNamespace(place=Place(0, 9)),
                                               begun=types.SimpleNamespace(steps=types.SimpleNamespace(certain=9)))
        with unittest.mock.patch.object(follow, "LINES", 3):
            one.first(following)
        entries = [f'{{"as":"admin","do":"x{at}"}}' for at in range(7)]
        self.assertEqual(taken.getvalue().decode().splitlines(), [*entries[:3], '{"from":0,"step":1}', *entries[3:6], '{"from":1,"step":2}', entries[6], '{"from":2,"step":3}'])
        self.assertEqual([(it.number, it.place.end) for it in one.waiting], [(3, 9)])

    def test_words_of_a_first_copy_are_few(self) -> None:
        """Of 3,000 rows a second: at each 10,000 rows there may be one, if there was none for five seconds."""
        with unittest.mock.patch.object(time, "monotonic") as clock, contextlib.redirect_stderr(io.StringIO()) as said:
            clock.return_value = 0.0
            for number, _ in enumerate(beginning.counted("tickets", ((),) * 65_000, follow.words())):
                clock.return_value = number / 3_000
        self.assertEqual(said.getvalue().splitlines(), [f"viewd-postgresql: tickets: {it}0,000 rows are read" for it in (2, 4, 6)])


class Places(Followed):
    def setUp(self) -> None:
        super().setUp()
        self.desk.do(DESK, "alter publication viewd add table clock", "grant select on clock to public")

    def away(self, *statements: str) -> None:
        """Said while the program is not there; then it is started again."""
        if self.keeper:
            self.kill(True)
        self.desk.do(*statements)

    def test_words_of_a_first_copy(self) -> None:
        self.desk.do("create table many (id int primary key)", "insert into many select generate_series(1, 35)", "alter publication viewd add table many")
        one = follow.Follow(Settings(self.server.dsn("viewd", self.name)), door.Gateway(io.BytesIO(b'{"door":1,"rows":99}\n'), io.BytesIO()))
        with unittest.mock.patch.multiple(follow, WORD=-1.0), unittest.mock.patch.multiple(beginning, EACH=10), contextlib.redirect_stderr(io.StringIO()) as said:
            one.begin()
        assert one.following
        one.following.close()
        self.assertEqual([it for it in said.getvalue().splitlines() if "many" in it], [f"viewd-postgresql: many: {it} rows are read" for it in (10, 20, 30)])

    def test_it_goes_on_where_it_was(self) -> None:
        self.settle()
        for statements in (("insert into tickets values (7, 'mia', 'same', true, 1), (7, 'mia', 'same', true, 1)",), ("update tickets set subject = 'late' where id = 7", "delete from tickets where ctid = (select max(ctid) from tickets)"),
                           ("revoke select on tickets from noah", "grant select on tickets to eve", "revoke night from olga", "grant org to mia"), ("alter policy own on tickets using (agent <> current_user)", "drop policy colleagues on agents"),
                           ("truncate tickets", "insert into tickets values (1, 'mia', 'x', true, 3)"), ("alter table teams force row level security", "alter table agents disable row level security", "create role x1", "grant night to x1"),
                           ("create policy hidden on tickets as restrictive to org using (id < 0)", "alter role olga noinherit", "drop role x1"), ("update notes set who = 'noah' where id = 1", "update notes set id = 12 where id = 2"),
                           ("create policy colleagues on agents for select to night using (true)", "grant night to olga", "alter role olga inherit", "alter table agents enable row level security")):
            self.desk.do(*statements)  # half of them while it is there
            self.settle()
            self.compare()
            self.away(*statements[:1] if "insert" in statements[0] else ("update tickets set points = points + 1",))
            self.settle()
            self.compare()
            self.away()
            self.settle()
            self.compare()
        self.assertEqual(self.beginnings, 1, self.told())

    def test_rights_that_are_taken_wait_for_no_rows(self) -> None:
        """The log stands still, as behind a large transaction: who loses a right sees less, nobody more, and nobody a new row."""
        self.desk.do(STRICT, "alter table agents disable row level security")
        for number, (statement, undo, role, name, is_exact) in enumerate(TAKEN):
            if statement.startswith("revoke org"):
                self.desk.do(undo)
            self.settle()
            self.compare()
            before = self.held()
            self.desk.do("begin", statement)
            wanted = alike(self.desk.seen_at(role, f"public.{name}")) if is_exact else Counter()
            self.assertNotEqual(before.get((role, name)), wanted, statement)
            with self.stalled():
                self.desk.do("begin", f"insert into tickets select 1, agent, 'late', true, {number} from agents", "insert into agents values ('late', 'late', null)", "insert into teams values ('late', 'night')", "commit", statement)
                self.until(lambda: self.held().get((role, name)) == wanted, statement)
                for key, rows in self.held().items():
                    if key[1] in TABLES and rows is not None:
                        self.assertLessEqual(rows, before[key] or Counter(), (statement, key))
            self.settle()
            self.compare()
            self.desk.do("delete from tickets where subject = 'late'", "delete from agents where agent = 'late'", "delete from teams where team = 'late'", undo)
        self.assertEqual(self.beginnings, 1, self.told())

    def test_what_was_taken_later_stays_taken(self) -> None:
        """A step whose rights are of an earlier moment gives nothing back, and the one behind it gives what is there."""
        self.settle()
        with self.stalled():
            self.desk.do("insert into tickets values (7, 'mia', 'late', true, 1)", "revoke select on tickets from noah", "grant select on tickets to eve")
            self.until(lambda: self.refused("noah", "tickets"))
            self.desk.do("revoke select on tickets from mia", "grant select on teams to eve")
            self.until(lambda: self.refused("mia", "tickets"))
        self.tick += 1
        self.desk.do(f"update clock set tick = {self.tick}")
        assert self.gateway
        while not self.shows_tick(self.gateway.live):
            self.turn()
            self.assertTrue(self.refused("mia", "tickets"))
            self.assertTrue(self.refused("noah", "tickets"))
        self.compare()
        self.desk.do("grant select on tickets to mia")
        self.settle()
        self.compare()

    def test_a_revoke_behind_a_large_transaction(self) -> None:
        self.settle()
        self.desk.do("insert into tickets select g, 'noah', g::text, true, 1 from generate_series(1, 60000) g", "revoke select on tickets from mia")
        self.settle()
        self.compare(("mia", "noah"))
        journal = self.journal()
        self.assertLess(journal.index(b'"do":"revoke","on":"tickets","privileges":["select"],"to":"mia"'), journal.index(b"[59999,"))

    def until(self, is_there: Callable[[], bool], of: str = "") -> None:
        end = time.monotonic() + PATIENCE
        while not is_there():
            self.assertLess(time.monotonic(), end, (of, self.told()))
            self.turn()

    def refused(self, role: str, name: str) -> bool:
        assert self.gateway
        return self.gateway.live.shown(role, name) is None

    def held(self) -> dict[tuple[str, str], Counter[tuple[str, ...]] | None]:
        """What readers have who have asked once, and not again."""
        assert self.gateway
        self.gateway.live.settle()
        return {(role, name): alike(self.gateway.live.held.get((role, name))) for role in FIXED for name in self.gateway.live.names}

    def test_nobody_is_let_in_before_it_knows_who_may_see_what(self) -> None:
        self.settle()
        assert self.gateway
        self.gateway.live.shown("mia", "tickets")
        for statement, seen in (("revoke select on tickets from mia", None), ("grant select on tickets to mia", 1), ("alter policy own on tickets using (false)", 0)):
            self.away(statement)
            self.assertFalse(self.gateway.is_open)
            end = time.monotonic() + PATIENCE
            while not self.gateway.is_open:
                self.assertLess(time.monotonic(), end, self.told())
                self.turn()
            shown = self.gateway.live.shown("mia", "tickets")
            self.gateway.live.settle()
            self.assertEqual(None if shown is None else min(len(shown), 1), seen, statement)
        self.assertEqual(self.beginnings, 1, self.told())

    def test_what_needs_a_new_beginning_behind_its_absence(self) -> None:
        self.settle()
        old = self.journal()
        for statements, words in ((("insert into teams values ('more', 'day')",), ""), (("alter table teams owner to mia",), "teams has another form"), (("alter publication viewd drop table agents", "alter publication viewd add table agents"), "agents left the publication, or came back"),
                                  (("vacuum full tickets",), "tickets was written anew"), (("drop view pairs",), "pairs is left out: there is no such relation"), (("alter table teams rename to crews",), "teams has another name"),
                                  (("alter table crews rename to teams", "select pg_drop_replication_slot('viewd')"), "the slot viewd is gone"), (("insert into tickets values (9, 'mia', 'x', true, 3)",), "")):
            before = self.beginnings
            self.free(*statements)
            self.settle()
            self.compare(("mia", "olga"))
            self.assertEqual(self.beginnings > before, bool(words), (statements, self.told()[-500:]))
            if words:
                self.assertIn(words, self.told())
        self.slot_goes_on()
        self.restored(old)
        self.settle()
        self.compare(("mia", "olga"))
        self.assertIn("has gone on beyond what is held", self.told())
        # (with users CURRENT_USER in a policy is refused)
        for config, names in (('[relations]\ntickets = "public.tickets"\nclock = "public.clock"\n', ["clock", "tickets"]),
                              ('[relations]\ntickets = "public.tickets"\nclock = "public.clock"\n[users]\nrole = "day"\ncalls = ["current_setting(\'app.user\')"]\nnames = ["zoe"]\n', ["clock"])):
            before = self.beginnings
            self.away()
            self.config.write_text(config)
            self.settle()
            self.assertEqual(self.beginnings, before + 1)
            assert self.gateway
            self.assertEqual(sorted(self.gateway.live.names), names)

    def free(self, *statements: str) -> None:
        """The same, and the slot is in use no more."""
        self.away()
        end = time.monotonic() + PATIENCE
        while time.monotonic() < end:
            self.desk.cursor.execute("select count(*) from pg_replication_slots where active")
            if self.desk.cursor.fetchone() == (0,):
                break
            time.sleep(0.05)
        self.desk.do(*statements)

    def journal(self) -> bytes:
        assert self.gateway
        return self.gateway.path.read_bytes()

    def slot_goes_on(self) -> None:
        """PostgreSQL has forgotten what an older journal would need: until then it would go on from that, too."""
        self.desk.do("insert into tickets values (9, 'mia', 'y', true, 3)")
        aim = self.one("select pg_current_wal_insert_lsn()::text")
        end = time.monotonic() + PATIENCE
        while self.one(f"select confirmed_flush_lsn >= '{aim}' from pg_replication_slots") is not True:
            self.assertLess(time.monotonic(), end, self.told())
            self.settle()

    def one(self, query: str) -> object:
        self.desk.cursor.execute(query)
        return (self.desk.cursor.fetchone() or (None,))[0]

    def restored(self, old: bytes) -> None:
        """The gateway has an older copy."""
        assert self.gateway
        self.away()
        self.gateway.close()
        self.gateway.path.write_bytes(old)
        self.gateway = None

    def test_rows_of_the_place_come_last(self) -> None:
        """So a first copy that was cut off says nowhere where it is from."""
        self.settle()
        first = self.journal().split(b'{"from":')[0].splitlines()[1:]
        self.assertIn(b'"name":"%s"' % NAME.encode(), first[0])
        self.assertEqual([b'"on":"%s"' % NAME.encode() in it for it in first].index(True), len(first) - 1)

    def test_an_older_journal_from_before_any_transaction(self) -> None:
        while not (self.gateway and self.gateway.position == 1):
            self.turn()
        old = self.journal()
        self.slot_goes_on()
        self.assertEqual(self.beginnings, 1)
        self.restored(old)
        self.settle()
        self.compare(("mia", "olga"))
        self.assertEqual(self.beginnings, 2, self.told())
        self.assertIn("has gone on beyond what is held", self.told())

    def test_a_database_that_was_put_back(self) -> None:
        """Its log is another one from some place on, with the slot as it was."""
        self.settle()
        for more in (0, 2_000):
            before = self.beginnings
            self.away()
            copy = self.room / "copy"
            self.server.stop("fast")
            shutil.copytree(self.server.room / "data", copy, copy_function=shutil.copy2)
            self.server.start()
            self.desk.again()
            self.desk.do("insert into tickets select g, 'mia', 'gone' || g, true, g from generate_series(1, 1000) g")
            self.settle()
            self.away()
            self.server.stop("fast")
            self.server.put_back(copy)
            self.server.start()
            self.desk.again()
            if more:
                self.desk.do(*(f"insert into tickets select g, 'mia', 'other' || g, true, g from generate_series(1, {more}) g" for _ in range(3)))
            self.settle()
            self.compare(("mia", "olga"))
            self.assertEqual(self.beginnings, before + 1, self.told())
        self.assertIn("PostgreSQL is not as far as what is held", self.told())
        self.assertIn("the last transaction that was told is not in the log", self.told())

    def test_what_it_tells_of_itself(self) -> None:
        port = free_port()
        self.words = ["--status", str(port)]
        self.desk.do("create table docs (id int primary key, doc json)")

        def asked(path: str) -> str:
            with urllib.request.urlopen(f"http://127.0.0.1:{port}{path}", timeout=PATIENCE) as answer:
                return str(answer.read().decode())
        self.start()
        end = time.monotonic() + PATIENCE
        while not (behind := self.behind(asked)):  # of what is said nobody hears anything
            self.assertLess(time.monotonic(), end)
            time.sleep(0.05)
        self.assertLess(behind, 1 << 20, "of the log from the beginning on, not of all that there is")
        self.settle()
        while (found := json.loads(asked("/state")))["behind_bytes"]:
            self.assertLess(time.monotonic(), end, found)
            self.turn()
        self.assertEqual((found["open"], found["away"], found["behind_seconds"], found["beginnings"]), (True, False, 0, 1))
        self.assertEqual(found["left_out"]["docs"], "column doc: viewd has no type json")
        self.assertGreater(found["steps"], 0)
        lines = asked("/metrics").splitlines()
        self.assertIn("viewd_postgresql_open 1", lines)
        self.assertIn('viewd_postgresql_left_out{name="docs",why="column doc: viewd has no type json"} 1', lines)
        for name, kind in (("behind_bytes", "gauge"), ("behind_seconds", "gauge"), ("steps_total", "counter"), ("beginnings_total", "counter")):
            self.assertIn(f"# TYPE viewd_postgresql_{name} {kind}", lines)
        steps = [int(it.split()[1]) for it in lines if it.startswith("viewd_postgresql_steps_total ")]
        self.assertGreaterEqual(steps, [found["steps"]])
        with self.assertRaisesRegex(urllib.error.HTTPError, "404"):
            asked("/")
        with self.stalled():
            self.desk.do("grant select on tickets to eve")
            while not (found := json.loads(asked("/state")))["behind_bytes"]:
                self.assertLess(time.monotonic(), end, found)
                self.turn()
            self.assertGreater(found["behind_seconds"], 0)
            before = dict(it.split(" ") for it in asked("/metrics").splitlines() if it.startswith("viewd_postgresql_behind"))
            self.assertGreater(float(before["viewd_postgresql_behind_bytes"]), 0)
            self.assertGreaterEqual(float(before["viewd_postgresql_behind_seconds"]), found["behind_seconds"])
        self.settle()
        self.server.stop("fast")
        while not (found := json.loads(asked("/state")))["away"]:
            self.assertLess(time.monotonic(), end, found)
            self.turn()
        self.assertFalse(found["open"])
        self.assertGreater(found["behind_seconds"], 0)
        self.server.start()
        self.desk.again()
        self.settle()
        self.assertFalse(json.loads(asked("/state"))["away"])

    def behind(self, asked: Callable[[str], str]) -> int:
        """Bytes; none before it answers."""
        try:
            return int(json.loads(asked("/state"))["behind_bytes"])
        except urllib.error.URLError:
            return 0

    def test_a_postgresql_that_is_away(self) -> None:
        self.settle()
        assert self.gateway and self.keeper
        process = self.keeper.process
        for how in ("fast", "immediate"):
            self.server.stop(how)
            end = time.monotonic() + PATIENCE
            while self.gateway.is_open:
                self.assertLess(time.monotonic(), end, self.told())
                self.turn()
            self.server.start()
            self.desk.again()
            self.desk.do("insert into tickets values (9, 'mia', 'x', true, 3)", "revoke select on tickets from noah")
            self.settle()
            self.compare()
        self.assertEqual(self.beginnings, 1, self.told())
        self.assertIs(self.keeper.process, process, self.told())

    def test_a_large_transaction(self) -> None:
        """It is one step, whatever its size."""
        self.settle()
        assert self.gateway
        self.desk.do("begin", "grant select on tickets to eve; create policy all_of_eve on tickets to eve using (true)", "insert into tickets select g, 'mia', g::text, true, g from generate_series(1, 30000) g", "commit")
        self.settle()
        self.compare(("mia", "eve", "noah"))
        steps = self.journal().split(b',"step":')
        self.assertEqual(sum(b'"insert":[29999,' in it for it in steps), 1)
        self.assertEqual(sum(b'"on":"tickets"' in it for it in steps), 2, "the first copy and one more")

    def test_the_servers_log_is_let_go(self) -> None:
        """Also what others write, of which nothing is followed."""
        self.settle()
        self.desk.do("create table other (x text)")

        def kept() -> int:
            self.desk.cursor.execute("select (pg_current_wal_insert_lsn() - confirmed_flush_lsn)::bigint from pg_replication_slots")
            return int((self.desk.cursor.fetchone() or (0,))[0])
        self.desk.do("insert into other select repeat('x', 1000) from generate_series(1, 40000)")
        self.assertGreater(kept(), 1 << 25)
        end = time.monotonic() + PATIENCE
        while kept() > 1 << 24:
            self.assertLess(time.monotonic(), end)
            self.turn(0.1)

    def test_what_is_not_on_disk_is_not_told_to_be_kept(self) -> None:
        """The gateway dies in each part of a step, and PostgreSQL has all of it still."""
        self.settle()
        for number, dies in enumerate((0, 1, 40, 90, 10, 200)):
            assert self.gateway
            self.gateway.dies_after = dies
            self.desk.do(f"insert into tickets values ({100 + number}, 'mia', 'x', true, 3), ({100 + number}, 'mia', 'x', true, 3)")
            end = time.monotonic() + PATIENCE
            while self.gateway:
                self.assertLess(time.monotonic(), end, self.told())
                self.turn()
            self.settle()
            self.compare(("mia",))
        self.assertEqual(self.beginnings, 1, self.told())
        self.assertLessEqual(set(self.statuses), {3, 4}, self.told())

    def test_another_log(self) -> None:
        self.settle()
        assert self.gateway
        journal = self.journal()
        self.restored(re.sub(rb"postgresql [0-9]+/", b"postgresql 1/", journal, count=1))
        end = time.monotonic() + PATIENCE
        while not self.statuses[3]:
            self.assertLess(time.monotonic(), end, self.told())
            self.turn()
        self.assertIn("give it another journal", self.told())
        self.assertTrue(self.journal().startswith(b'{"begin":"postgresql 1/'))
