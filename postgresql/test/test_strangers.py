"""What strangers may put into a database, or a user into the configuration: no name begins a line of its own, and nothing that PostgreSQL refuses is shown."""
import os
import subprocess
import tomllib
import unittest.mock
from collections.abc import Iterator

import rows
import state
from base import Base
from desk import PROGRAM, Desk, Shown
from kinds import KINDS, Column

EVIL = ["x\n\nto say in PostgreSQL:\n  ALTER ROLE mallory SUPERUSER;", 'a\nevil = "public.secret"', "\x1b[2J\u202e", "tab\ra", "\u2028", "\u00e9" * 31, 'quote"d', "back\\slash", "semi;colon -- it's"]


class Strangers(Base):
    def refused(self, **texts: str) -> None:
        """Policies by their tables, like `t`, and the words with which they are left out; then PostgreSQL answers with an error."""
        for name, text in texts.items():
            self.desk.do(f"create table {name} (like t)", f"insert into {name} select * from t", f"grant select on {name} to public", f"alter table {name} enable row level security",
                         f"create policy p on {name} using ({text})")

    def test_names_begin_no_line(self) -> None:
        quoted = ['"' + it.replace('"', '""') + '"' for it in EVIL]
        for name in quoted:
            self.desk.do(f"create table {name} (id int not null)", f"create role {name}")
        self.desk.do(*(f"create table t{number} (id int not null, {name} int)" for number, name in enumerate(quoted)), "create table good (id int not null)",
                     *(f"create table p{number} (id int not null); alter table p{number} enable row level security; create policy {name} on p{number} using (id % 2 = 0)" for number, name in enumerate(quoted)))
        for words in ("check", "init", "show"):
            done = self.desk.program(words)
            for text in (done.stdout, done.stderr):
                self.assertEqual([it for it in text.split("\n") if not it.isprintable()], [], words)
            self.assertEqual([it for it in (done.stdout + done.stderr).split("\n") if it.lstrip().startswith(("ALTER ROLE mallory", "evil"))], [], words)
        self.assertEqual(tomllib.loads(self.desk.program("init").stdout)["relations"], {"good": "public.good"})

    def test_statements_for_strange_names_can_be_run(self) -> None:
        for name in ('"' + it.replace('"', '""') + '"' for it in EVIL):
            self.desk.do(f"create table {name} (id int not null)", f"insert into {name} values (1)")
        self.desk.cursor.execute("select 'public.' || quote_ident(relname) from pg_class where relkind = 'r' and relnamespace = 'public'::regnamespace")
        names = [it for it, in self.desk.cursor.fetchall()]
        text = "[relations]\n" + "".join(f"t{number} = '''{name}'''\n".replace("\x1b", "").replace("\r", "") for number, name in enumerate(names) if "\x1b" not in name and "\r" not in name)
        done = self.desk.program("check", config=text)
        said = [it.strip() for it in done.stdout.rpartition("\nto say in PostgreSQL:\n")[2].split("\n") if it.strip()]
        self.assertEqual(len(said), len(EVIL) - 2 + 1, done.stdout + done.stderr)
        self.desk.do(*said)
        self.assertEqual(self.desk.program("check", config=text).returncode, 0)

    def test_texts_of_two_collations(self) -> None:
        """PostgreSQL answers each of them with an error."""
        self.desk.do("create role ann", """create table t (id int not null, a text collate "C", b text collate "en-x-icu", c text collate "POSIX", d text); insert into t values (1, 'x', 'x', 'x', 'x')""")
        texts = ["a = b", "a < c", "a <> c", "a is distinct from c", "coalesce(a, b) = 'x'", "'x' = coalesce(d, b, c)", "b = current_user", "d = any (array[a, c])", "case a when c then true end"]
        self.refused(**{f"n{number}": text for number, text in enumerate(texts)})
        fine = ["a = d", "a = b collate \"C\"", "coalesce(a, d) = 'x'", "a = current_user or a = 'x'", "d in (a, 'y')", "d in (b, c)", "coalesce(a, b) is not null"]
        self.refused(**{f"y{number}": text for number, text in enumerate(fine)})
        self.desk.do('create view v with (security_invoker = true) as select x.id, y.id as other from t x join t y on x.a = y.b',
                     'create view w with (security_invoker = true) as select x.id, y.id as other from t x join t y on x.a = y.d', "grant select on t, v, w to public")
        done = self.desk.program("show")
        shown = Shown(done.stdout, ("ann",))
        self.assertEqual(set(shown.names), {"t", "w", *(f"y{number}" for number in range(len(fine)))})
        self.assertEqual(done.stderr.count("of two collations, which PostgreSQL does not compare"), len(texts))
        self.same(shown, ("ann",))

    def test_a_row_whose_line_is_too_long(self) -> None:
        self.desk.do("create role ann", f"create table t ({', '.join(f'c{it} text not null' for it in range(16))})", f"insert into t select {', '.join(['repeat(chr(1), 1024)'] * 16)}",
                     "create table u (id int not null, x text not null)", "insert into u values (1, repeat(chr(1), 1024))", "grant select on t, u to public")
        done = self.desk.program("show")
        self.assertIn("t is left out: viewd cannot hold 1 of its rows: one has texts that take a line of more than 65,536 bytes", done.stderr)
        self.same(Shown(done.stdout, ("ann",)), ("ann",))

    def test_what_is_postgresqls_own_no_longer(self) -> None:
        self.desk.do("create table t (id int not null)")
        self.assertEqual(self.desk.program("show").returncode, 0)
        for statements, undo, words in (
                ("revoke execute on function pg_catalog.int4eq(int, int) from public", "grant execute on function pg_catalog.int4eq(int, int) to public", "is taken from PUBLIC, which viewd cannot say"),
                ("revoke execute on function pg_catalog.count() from public", "grant execute on function pg_catalog.count() to public", "is taken from PUBLIC, which viewd cannot say"),
                ("create aggregate pg_catalog.sum(boolean) (sfunc = booland_statefunc, stype = boolean)", "drop aggregate pg_catalog.sum(boolean)", "operators or aggregates of its own in pg_catalog")):
            self.desk.do(statements)
            done = self.desk.program("show")
            self.assertEqual((done.returncode, done.stdout), (1, ""))
            self.assertIn(words, done.stderr)
            self.desk.do(undo)
        self.assertEqual(self.desk.program("show").returncode, 0)

    def test_a_name_that_is_not_utf8(self) -> None:
        """A role is the whole server's, and may have been made in a database with another encoding."""
        self.desk.do("drop database if exists other", "create database other template template0 encoding 'SQL_ASCII' locale_provider libc lc_collate 'C' lc_ctype 'C'")
        other = Desk(self.server.dsn(database="other"))
        role = "do $$ begin execute '{} role \"x' || convert_from('\\xff'::bytea, 'SQL_ASCII') || '\"'; end $$"
        other.do("set client_encoding to sql_ascii", role.format("create"))
        for words in ("check", "show"):
            done = self.desk.program(words)
            self.assertEqual((done.returncode, done.stdout), (3, ""))
            self.assertIn("a text is not UTF-8, of a role, say", done.stderr)
        other.do(role.format("drop"))
        other.connection.close()
        self.desk.do("drop database other with (force)")

    def test_the_environment_changes_nothing(self) -> None:
        self.desk.do("create table t (id int not null, x text, d date, at timestamptz); insert into t values (1, '\u00e9\u20ac', '2024-01-31', '2024-01-01 02:00+02')")
        for env in ({"PYTHONIOENCODING": "ascii", "PGCLIENTENCODING": "LATIN1", "PGTZ": "Asia/Tokyo", "PGDATESTYLE": "German"}, {"PGCLIENTENCODING": "SQL_ASCII", "PGOPTIONS": "-c search_path=public"}):
            done = subprocess.run(["/usr/bin/python3", PROGRAM, "show", f"{self.desk.dsn} client_encoding=LATIN1 options='-c row_security=on'"], capture_output=True, env=os.environ | env)
            self.assertEqual(done.returncode, 0, done.stderr)
            self.assertIn('"insert":[1,"\u00e9\u20ac",false,"2024-01-31",false,"2024-01-01 00:00:00+00",false]', done.stdout.decode())

    def test_configurations(self) -> None:
        self.desk.do("create role ann", "create table t (id int not null)")
        for text, words in (("[postgres]\npublication = 'a\\u0000b'".replace("'", '"'), "a text has the character 0"), ('[relations]\n"x\\u0000" = "public.t"', "a text has the character 0"),
                            ('[users]\nrole = ""\ncalls = ["current_setting(\'a\')"]', "[users] needs role and calls")):
            done = self.desk.program("show", config=text)
            self.assertEqual((done.returncode, done.stdout), (2, ""), text)
            self.assertIn(words, done.stderr)

    def test_a_server_that_ends_while_rows_are_read(self) -> None:
        self.desk.do("create table t (id int not null); insert into t select g from generate_series(1, 9000) g")
        read = rows.read

        def ended(*words: object) -> Iterator[tuple[str | None, ...]]:
            for number, cells in enumerate(read(*words)):  # type: ignore[arg-type]
                if number == 3000:
                    self.desk.do("select pg_terminate_backend(pid) from pg_stat_activity where application_name = 'viewd-postgresql'")
                yield cells
        with unittest.mock.patch.object(rows, "read", ended):
            done = self.desk.program("show")
        self.assertEqual((done.returncode, done.stdout), (3, ""))
        with unittest.mock.patch.object(state, "named", side_effect=KeyboardInterrupt):
            done = self.desk.program("show")
        self.assertEqual((done.returncode, done.stdout, done.stderr), (130, "", ""))

    def test_a_null_that_cannot_be(self) -> None:
        one = rows.Reader("t", [Column(KINDS["integer"])]).row([None])
        assert isinstance(one, rows.Odd)
        self.assertEqual((one.cells, one.why), ([None], "a NULL in a column that is NOT NULL"))
