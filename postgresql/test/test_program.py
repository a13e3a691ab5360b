"""The program as a user has it: what check, init and show say, their statuses; roles, grants and users beside PostgreSQL; what is left out, by its words."""
import random
import re
import unittest.mock

import catalog
from base import Base, counts
from desk import ROLES, Desk, Shown, alike
from users import role_of

NAMES = ["ann", "bob", "eve", "team", "lead", "boss"]
USERS = """[users]
role = "app"
calls = ["current_setting('app.user')", "current_setting('app.user', true)", "own.me()"]
names = ["mia", "noah", "ann"]
"""
STRANGE = {  # what is made, its name in viewd, the words
    "create table plain (id int not null, doc jsonb)": ("plain", "column doc: viewd has no type jsonb"),
    "create table real_one (id int not null, x real, y char(3))": ("real_one", "column x: viewd has no type real; column y: viewd has no type character"),
    "create domain public.text as text; create table domained (t public.text not null)": ("domained", "column t: viewd has no type public.text"),
    'create table kept ("order" int not null)': ("kept", "column order: no name of viewd's"),
    "create table taken (x int, x_null boolean)": ("taken", "column x: it may be NULL, and x_null is no name that is free; say ALTER TABLE .. ALTER COLUMN x SET NOT NULL"),
    "create collation public.loose (provider = icu, locale = 'und-u-ks-level2', deterministic = false); create table loose (t text collate public.loose not null)":
        ("loose", "column t: its collation public.loose takes different texts for equal"),
    "create table made (id int not null, twice int not null generated always as (id * 2) stored)": ("made", "column twice: it is generated, and is not replicated"),
    "create unlogged table fast (id int not null)": ("fast", "it is temporary or unlogged, and is not replicated"),
    "create table parted (id int not null) partition by range (id)": ("parted", "a partitioned table"),
    "create table mother (id int not null); create table child () inherits (mother)": ("mother", "it has parts or is one (inheritance, partitions): a SELECT of it shows rows of others"),
    "create materialized view stored as select 1 as one": ("stored", "a materialized view"),
    f"create table wide ({', '.join(f'c{it} int not null' for it in range(17))})": ("wide", "17 columns, of which viewd can hold 16"),
    f"create table broad ({', '.join(f'c{it} int' for it in range(9))})": ("broad", "18 columns, of which viewd can hold 16 (one that may be NULL is two)"),
    "create table none ()": ("none", "0 columns, of which viewd can hold 16"),
    'create table "Odd" (id int not null)': ("Odd", "Odd is no name of viewd's"),
    "create table viewd_source (id int not null)": ("viewd_source", "viewd_source is no name of viewd's"),
    "create view owned as select 1 as one": ("owned", "it reads with the rights of its owner: say ALTER VIEW .. SET (security_invoker = true)"),
    "create view over with (security_invoker = true) as select one from owned": ("over", "its query cannot be said in viewd's words: public.owned is not followed, or is left out"),
    "create table long (t text not null); insert into long values (repeat('x', 1025)), ('a')": ("long", "viewd cannot hold 1 of its rows: one has a text of more than 1,024 bytes"),
    "create table old (d date); insert into old values ('0044-03-15 BC'), ('12000-01-01'), ('2024-01-01')":
        ("old", "viewd cannot hold 2 of its rows: one has the date 0044-03-15 BC: viewd can hold those of the years 1 to 9999"),
    "create table many (id int not null); insert into many select g from generate_series(1, 1025) g": ("many", "viewd cannot hold its rows: there are more than 1,024 different ones"),
    "create table closed (t text not null); create policy p on closed using (t like 'a'); alter table closed enable row level security": ("closed", "its policy p cannot be said in viewd's words: the operator ~~"),
    "create view above with (security_invoker = true) as select t from closed": ("above", "its query cannot be said in viewd's words: public.closed is not followed, or is left out"),
    "create table ruled (id int not null); alter table ruled enable row level security; do $$ begin for i in 0..32 loop execute 'create policy p' || i || ' on ruled using (true)'; end loop; end $$":
        ("ruled", "33 policies, of which viewd can have 32")}
CHANGES = ["create role newcomer", "alter role newcomer noinherit", "grant newcomer to zed", "revoke newcomer from zed", "create policy p on marked using (id = 1)", "alter policy p on marked using (id = 2)",
           "alter table marked enable row level security", "alter table marked force row level security", "grant select on marked to zed", "grant usage on schema public to zed", "alter table marked alter column id drop not null",
           "alter type public.feeling rename value 'sad' to 'blue'", "alter table marked replica identity full", "create publication viewd for table marked", "alter publication viewd drop table marked",
           "alter role newcomer bypassrls", "drop policy p on marked", "alter table marked owner to zed"]
UUID = "0a000000-0000-4000-8000-00000000000b"
NEEDED = """[relations]
notes = "public.notes"
kept = "public.kept"
inner_one = '"In ner".inner_one'
"""


def statements(report: str) -> list[str]:
    """Those that `check` prints."""
    return re.findall(r"^  ([A-Z].*;)(?:  --.*)?$", report.partition("to say in PostgreSQL:")[2], re.M)


class Program(Base):
    def test_all_is_well_once_its_statements_are_run(self) -> None:
        self.desk.do("""create role bridge login; create table notes (id int not null, who text); create view mine with (security_invoker = true) as select who from notes;
            create view plain as select id from notes; alter table notes enable row level security; create policy p on notes using (who < 'b' collate "C"); insert into notes values (1, 'a')""")
        bridge = self.desk.dsn.replace("user=postgres", "user=bridge")
        for _ in range(6):
            done = self.desk.program("check", dsn=bridge)
            if done.returncode == 0:
                break
            self.assertEqual(done.returncode, 1, done.stderr)
            self.desk.do(*statements(done.stdout))
        self.assertEqual((done.returncode, done.stderr), (0, ""), done.stdout)
        self.assertIn("  notes: a table of 1 rows; may be NULL, and is two: who\n  mine: a view; may be NULL, and is two: who\n  plain: a view\n", done.stdout)
        self.assertNotIn("to say", done.stdout)
        self.assertEqual(self.desk.program("show", dsn=bridge).returncode, 0)

    def test_what_is_left_out_is_told_by_its_words(self) -> None:
        self.desk.do(*STRANGE, 'create role "Strange"', "create role admin", "create table good (id int not null)")
        done = self.desk.program("show", "--rows", "1024")
        self.assertEqual(done.returncode, 1)
        for name, words in STRANGE.values():
            self.assertIn(f"viewd-postgresql: {name} is left out: {words}\n", done.stderr)
        self.assertIn("role Strange is left out: its name is none of viewd's: nobody can be it; its members have what it has", done.stderr)
        self.assertIn("role admin is left out: its name is none of viewd's", done.stderr)
        self.assertEqual(list(Shown(done.stdout, ()).names), ["good"])
        report = self.desk.program("check", "--rows", "1024")
        self.assertEqual(report.returncode, 1)
        for name, words in STRANGE.values():
            self.assertIn(f"  {name}: {words}", report.stdout)
        for words in ('ALTER VIEW public.owned SET (security_invoker = true);', "good: its deleted rows are not replicated whole, nor by a key that is followed: say ALTER TABLE public.good REPLICA IDENTITY FULL",
                      "good: the publication has it not, or not whole (a row filter, a list of columns, not all of insert, update, delete, truncate)",
                      "CREATE PUBLICATION viewd FOR TABLE public.good;", 'ALTER TABLE public.loose ALTER COLUMN t TYPE text COLLATE "C";  -- policies and views that name it have to be dropped before, and made again'):
            self.assertIn(words, report.stdout)

    def test_a_role_that_policies_bind_reads_nothing(self) -> None:
        self.desk.do("create role bridge login; create table notes (id int not null); alter table notes enable row level security; grant select on notes to bridge; create policy p on notes using (false)")
        done = self.desk.program("check", dsn=self.desk.dsn.replace("user=postgres", "user=bridge"))
        self.assertIn("notes: policies bind the role bridge, so it cannot see all rows: say ALTER ROLE .. BYPASSRLS", done.stdout)
        self.assertIn("ALTER ROLE bridge REPLICATION BYPASSRLS;", done.stdout)

    def test_a_role_that_is_not_there(self) -> None:
        """An administrator asks. What is printed makes the role, and nothing is missing then; it gives no more than is needed."""
        self.desk.do(f"""create table notes (id int primary key, who text); alter table notes enable row level security; create policy p on notes using (who = current_user); insert into notes values (1, 'a');
            create table kept (id int primary key); create schema "In ner"; create table "In ner".inner_one (id int primary key); create table more (id int primary key); revoke connect on database {self.name} from public""")
        for role, written in (("viewd", "viewd"), ('The "odd"\nBridge', 'U&"The ""odd""\\+00000aBridge"'), ("user", '"user"')):
            own = self.desk.dsn.replace("user=postgres", f"user='{role}'")
            done = self.desk.program("check", "--role", role, config=NEEDED)
            self.assertEqual(done.returncode, 1, done.stderr)
            self.assertRegex(done.stdout, "^PostgreSQL [0-9]+, as postgres, for [^\n]+\n")
            self.assertIn("Bridge: there is no such role\n" if "odd" in role else f"  role {role}: there is no such role\n", done.stdout)
            self.assertEqual([it for it in statements(done.stdout) if "PUBLICATION" not in it], [
                f"CREATE ROLE {written} LOGIN REPLICATION BYPASSRLS;", f"GRANT CONNECT ON DATABASE {self.name} TO {written};",
                f'GRANT USAGE ON SCHEMA "In ner" TO {written};', f'GRANT SELECT ON public.notes, public.kept, "In ner".inner_one TO {written};'])
            refused = self.desk.program("check", dsn=own, config=NEEDED)
            self.assertEqual((refused.returncode, refused.stdout), (3, ""))
            self.assertRegex(refused.stderr, "does not exist; by the DSN of an administrator, --role NAME prints what makes a role that is not there\n$")
            self.desk.do(*statements(done.stdout))
            for words, dsn in ((("check", "--role", role), None), (("check",), own), (("show",), own)):
                done = self.desk.program(*words, config=NEEDED, dsn=dsn)
                self.assertEqual(done.returncode, 0, done.stdout + done.stderr)
        done = self.desk.program("check", "--role", "viewd")
        self.assertEqual([it for it in statements(done.stdout) if "PUBLICATION" not in it], ["GRANT SELECT ON public.more TO viewd;"])
        for role in ("pg_more", "public", ""):
            self.assertEqual(self.desk.program("check", "--role", role).returncode, 2)

    def test_a_role_that_lacks_something(self) -> None:
        """Each of what it needs, for the role of the configuration; its owner is bound by policies if they are forced."""
        self.desk.do("create role viewd login replication; create role team; create table notes (id int primary key, who text); create publication viewd for table notes; grant select on notes to team; grant team to viewd")
        config = '[postgres]\ndsn = "dbname=x user=viewd"\n'
        for statement, words, sql in (
                ("select 1", "", ""), ("alter role viewd nologin", "it may not log in", "ALTER ROLE viewd LOGIN;"), ("alter role viewd noreplication", "it has no REPLICATION", "ALTER ROLE viewd REPLICATION;"),
                (f"revoke connect on database {self.name} from public", f"it may not connect to the database {self.name}", f"GRANT CONNECT ON DATABASE {self.name} TO viewd;"),
                ("revoke usage on schema public from public", "it may not use the schema public", "GRANT USAGE ON SCHEMA public TO viewd;"),
                ("revoke select on notes from team", "it may not read public.notes", "GRANT SELECT ON public.notes TO viewd;"),
                ("alter table notes owner to team; alter table notes enable row level security", "", ""),
                ("alter table notes force row level security", "policies bind it, so it cannot see all rows of public.notes", "ALTER ROLE viewd BYPASSRLS;"),
                ("alter role viewd noinherit nobypassrls; alter table notes no force row level security", "policies bind it, so it cannot see all rows of public.notes", "ALTER ROLE viewd BYPASSRLS;"),
                ("alter role viewd nologin nobypassrls superuser noreplication", "it may not log in", "ALTER ROLE viewd LOGIN;")):
            self.desk.do(statement)
            done = self.desk.program("check", config=config)
            self.assertEqual((done.returncode, statements(done.stdout)), (1, [sql]) if sql else (0, []), statement)
            self.assertEqual("  role viewd: " in done.stdout, bool(sql), statement)
            self.assertIn(f"  role viewd: {words}\n" if sql else "as postgres, for viewd\n", done.stdout)
            self.desk.do(*statements(done.stdout))

    def test_statements_name_things_as_sql_does(self) -> None:
        self.desk.do('create role "The Bridge" login; create table texts ("user" varchar(5) not null, "user_null" int); alter table texts enable row level security',
                     "create policy p on texts using (\"user\" < 'b')", 'create table "Mixed Case" (id int not null)', 'grant select on texts to "The Bridge"')
        done = self.desk.program("check", dsn=self.desk.dsn.replace("user=postgres", "user='The Bridge'"), config='[postgres]\npublication = "select"\n[relations]\ntexts = "public.texts"\nmixed = "public.\\"Mixed Case\\""')
        self.assertIn('GRANT SELECT ON public."Mixed Case" TO "The Bridge";', done.stdout)
        self.assertIn('ALTER ROLE "The Bridge" REPLICATION BYPASSRLS;', done.stdout)
        self.desk.do(*statements(done.stdout))
        done = self.desk.program("check", config='[postgres]\npublication = "select"\n[relations]\ntexts = "public.texts"\nmixed = "public.\\"Mixed Case\\""')
        self.assertIn('ALTER TABLE public.texts ALTER COLUMN "user" TYPE character varying(5) COLLATE "C";', done.stdout)
        self.assertIn('CREATE PUBLICATION "select" FOR TABLE public."Mixed Case";', done.stdout)

    def test_a_configuration(self) -> None:
        self.desk.do("create schema own; create function own.id() returns uuid language sql as $$ select null::uuid $$; create function own.either() returns uuid language sql as $$ select null::uuid $$",
                     "create function own.either(int) returns text language sql as $$ select 'x' $$")
        self.desk.do("create table notes (id int not null, who text, doc jsonb); create schema other; create table other.notes (id int not null); insert into notes values (1, 'a'), (2, null), (2, null); create role ann")
        path = self.desk.room() / "made.toml"
        path.unlink(missing_ok=True)
        done = self.desk.program("init", str(path))
        self.assertEqual((done.returncode, done.stderr), (1, "viewd-postgresql: left out: public_notes; check says why\n"))
        self.assertEqual(path.stat().st_mode & 0o777, 0o600)
        self.assertIn('other_notes = "other.notes"\n# public_notes = "public.notes": column doc: viewd has no type jsonb\n', path.read_text())
        again = self.desk.program("init", str(path))
        self.assertEqual((again.returncode, again.stderr), (2, f"viewd-postgresql: {path} is there already\n"))
        self.assertIn('{"session":1,"do":"create_table","name":"other_notes"', self.desk.program("show", config=path.read_text(), dsn="").stdout)
        shown = Shown(self.desk.program("show", config='[relations]\nnotes = "public.notes"\n[columns]\nnotes = ["who"]').stdout, ())
        self.assertEqual([it for it in shown.told if it["do"] == "write"], [{"session": 1, "do": "write", "entries": [
            {"on": "notes", "insert": ["a", False]}, {"on": "notes", "insert": ["", True], "copies": 2}]}])
        for text, words in (("[postgres]\nhost = 'x'", "host is no key of [postgres]"), ("[more]", "[more] is no part of it"), ("[relations]\nx = 'public.nothing'", "[relations] x: there is no relation public.nothing"),
                            ("x", "config.toml"), ("[relations]\nx = 'public.notes'\ny = 'public.notes'", "two relations have one oid: name them in [relations]"), ("[columns]\nx = ['y']", "[columns] x: there is no such relation"),
                            ("[users]\nrole = 'x'", "[users] needs role and calls"), ("[users]\nrole = 'x'\ncalls = ['now() + 1']", "is no call with constants alone"),
                            ("[users]\nrole = 'x'\ncalls = ['gen_random_uuid()']", "answers uuid; viewd's users are texts"), ("[users]\nrole = 'x'\ncalls = ['own.f()']", "there is no such function"),
                            ("[users]\nrole = 'x'\ncalls = ['current_setting()']\nnames = ['Ann']", "Ann is no name of viewd's"),
                            ("[users]\nrole = 'x'\ncalls = ['own.id()']\nnames = ['ann']", "own.id() answers a uuid, and ann is none as PostgreSQL prints it"),
                            *((f"[users]\nrole = 'x'\ncalls = ['own.id()']\nnames = ['{it}']", f"{it} is no name of viewd's, nor a uuid as PostgreSQL prints it")
                              for it in (UUID.upper(), f"{{{UUID}}}", UUID.replace("-", ""), UUID[:-1])),
                            ("[users]\nrole = 'x'\ncalls = ['own.either()']", "own.either() answers text, uuid; viewd's users are texts, or uuids of a function of the database's own"),
                            (f"[users]\nrole = 'x'\ncalls = ['own.id()']\nnames = ['{UUID}', 'u_{UUID.replace('-', '_')}']", "names: two of them are one")):
            done = self.desk.program("show", config=text)
            self.assertEqual((done.returncode, done.stdout), (2, ""), text)
            self.assertIn(words, done.stderr)

    def test_statuses(self) -> None:
        self.assertEqual(self.desk.program("show", dsn="host=127.0.0.1 port=1").returncode, 3)
        self.assertEqual(self.desk.program("nothing").returncode, 2)
        self.assertEqual(self.desk.program("show", "--rows", "5").returncode, 2)
        self.assertIn("nothing would be followed", self.desk.program("check").stdout)
        for words, status, text in ((("show", "--help"), 0, "DSN"), (("check",), 1, "nothing would be followed"), (("show", "--rows", "5"), 2, "--rows is 1,024")):
            done = self.desk.started(*words)
            self.assertEqual(done.returncode, status)
            self.assertIn(text, done.stdout + done.stderr)

    def test_roles_and_grants_at_random(self) -> None:
        r = random.Random(3)
        self.desk.do("create schema inner_one", *(f"create role {it} {r.choice(('inherit', 'inherit', 'noinherit'))}" for it in NAMES),
                     *(f"grant {a} to {b}" for a, b in (("team", "ann"), ("team", "lead"), ("lead", "bob"), ("boss", "eve"), ("pg_read_all_data", "boss"))))
        for _ in range(5):
            for number in range(20):
                where = r.choice(("public", "public", "inner_one"))
                self.desk.do(f"create table {where}.t{number} (id int not null, who text)", f"insert into {where}.t{number} select g, (array['ann', 'bob', 'team', null])[1 + g % 4] from generate_series(1, 12) g",
                             f"alter table {where}.t{number} owner to {r.choice(NAMES + ['postgres'])}",
                             *(f"grant select on {where}.t{number} to {r.choice(NAMES + ['public', 'pg_database_owner', 'pg_monitor'])}" for _ in range(r.randrange(3))),
                             *([f"revoke all on {where}.t{number} from {r.choice(NAMES)}"] if r.random() < 0.3 else []),
                             *([f"alter table {where}.t{number} enable row level security", f"create policy p on {where}.t{number} to {r.choice(NAMES + ['public', 'pg_monitor', 'pg_database_owner'])} using (who = current_user or id < 3)"] if r.random() < 0.6 else []),
                             *([f"alter table {where}.t{number} force row level security"] if r.random() < 0.4 else []),
                             *([f"create policy q on {where}.t{number} as restrictive to {', '.join(r.sample(NAMES, 2))} using (who <> 'bob')"] if r.random() < 0.4 else []))
            self.desk.do(*(f"{r.choice(('grant usage on schema inner_one to', 'revoke usage on schema inner_one from'))} {r.choice(NAMES)}" for _ in range(3)),
                         f"alter role {r.choice(NAMES)} {r.choice(('inherit', 'noinherit'))}", f"alter database {self.name} owner to {r.choice(NAMES)}")
            done = self.desk.program("show")
            self.assertEqual(done.returncode, 0, done.stderr)
            shown = Shown(done.stdout, tuple(NAMES))
            self.desk.cursor.execute("select relname from pg_class where relnamespace = 'inner_one'::regnamespace")
            inner = {it for it, in self.desk.cursor.fetchall()}
            self.assertEqual(shown.refused, [])
            for role in NAMES:
                for name in shown.names:
                    counts["relations"] += 1
                    at = f"inner_one.{name}" if name in inner else f"public.{name}"
                    self.assertEqual(alike(shown.rows[role, name]), alike(self.desk.seen_at(role, at)), (role, at))
            self.desk.do(*(f"drop table if exists public.t{it}, inner_one.t{it}" for it in range(20)))

    def test_users_by_a_setting(self) -> None:
        self.desk.do("""create role ann; create role team; create role app login; grant team to app; create schema own; grant usage on schema own to public;
            create function own.me() returns text language sql stable as $$ select current_setting('app.user', true) $$;
            create table notes (id int not null, who text, mate text not null); insert into notes select g, (array['mia', 'noah', 'ann', 'app', null])[1 + g % 5], (array['noah', 'x', 'mia'])[1 + g % 3] from generate_series(1, 40) g;
            grant select on notes to app; alter table notes enable row level security; create policy p on notes using (who = current_setting('app.user'));
            create policy q on notes to team using (mate = own.me() and who is distinct from current_setting('app.user', true)); create policy r on notes to ann using (true);
            create table me (who text not null); insert into me values ('app'); grant select on me to public; alter table me enable row level security; create policy p on me using (who = current_user);
            create table key (who uuid); alter table key enable row level security; create policy p on key using (who = current_setting('app.user')::uuid)""")
        done = self.desk.program("show", config=USERS)
        self.assertEqual(done.returncode, 1)
        for words in ("user ann is left out: a role of PostgreSQL has this name: nobody can be it", "me is left out: its policy p cannot be said in viewd's words: CURRENT_USER",
                      "role app is left out: nobody can be it: with [users] sessions are those of users", "key is left out: its policy p cannot be said in viewd's words: a uuid is asked for, and the user mia is none as PostgreSQL prints it"):
            self.assertIn(words, done.stderr)
        shown = Shown(done.stdout, ("mia", "noah"))
        self.assertEqual(set(shown.names), {"notes"})
        self.same(shown, ("mia", "noah"), {it: [f"select set_config('app.user', '{it}', true)"] for it in ("mia", "noah")})
        self.assertTrue(shown.rows["mia", "notes"])

    def test_many_users_who_are_uuids(self) -> None:
        """A policy is several then. A restrictive one is so for who is none of the users too, whatever the name."""
        users = [f"{it:08x}-0000-4000-8000-00000000000a" for it in range(0, 16_000, 80)]
        self.desk.do("""create role app; create role zoe; grant app to zoe; create role "u_0"; grant app to "u_0"; create schema auth; grant usage on schema auth to public;
            create function auth.uid() returns uuid language sql stable as $$ select nullif(current_setting('app.user', true), '')::uuid $$;
            create table notes (key uuid, who text); insert into notes select null, 'all'; grant select on notes to app; alter table notes enable row level security;
            create policy own on notes using (true); create policy strict on notes as restrictive using (key = (select auth.uid()) or who = auth.uid()::text)""",
                     *(f"insert into notes values ('{it}', 'x'), (null, '{it}')" for it in users[::3]))
        config = f'[users]\nrole = "app"\ncalls = ["auth.uid()"]\nnames = {users}'
        done = self.desk.program("show", config=config)
        self.assertIn('"name":"strict","restrictive":true', done.stdout)
        self.assertRegex(done.stdout, '"name":"viewd_policy_[0-9]+_0_1","restrictive":true')
        some = {role_of(it): it for it in (users[0], *users[33:90], users[-1])}
        shown = Shown(done.stdout, (*some, "app", "zoe", "u_0"))
        self.same(shown, tuple(some), {role: [f"select set_config('app.user', '{it}', true)"] for role, it in some.items()})
        self.assertEqual(shown.rows[role_of(users[0]), "notes"], {(users[0], "x"): 1, (None, users[0]): 1})
        for stranger in ("app", "zoe", "u_0"):
            self.assertEqual(shown.rows[stranger, "notes"], {})

    def test_operators_and_casts_of_the_database(self) -> None:
        """Where PostgreSQL prints no operator, one of the database's own may be meant: all such forms are refused then."""
        self.desk.do("""create type public.mood as enum ('sad', 'ok'); create function public.other(public.mood, public.mood) returns boolean language sql immutable as $$ select true $$;
            create function public.told(public.mood) returns text language sql immutable as $$ select 'x' $$; create table kept (m public.mood not null, id int not null); insert into kept values ('sad', 1)""",
                     *(f"create table t{number} (like kept); alter table t{number} enable row level security" for number in range(5)),
                     "create view pairs with (security_invoker = true) as select a.id from kept a join kept b using (m)", "create view ids with (security_invoker = true) as select distinct id from kept",
                     "create view groups with (security_invoker = true) as select id, count(*) as n from kept group by id", "create view either with (security_invoker = true) as select id from kept union select id from kept")
        texts = ["m is distinct from 'ok'", "case m when 'ok' then true else false end", "m::text = 'ok'", "m = 'ok'", "case when m = 'ok' then true end"]
        self.desk.do(*(f"create policy p on t{number} using ({text})" for number, text in enumerate(texts)))
        self.assertEqual(self.desk.program("show").returncode, 0)
        self.desk.do("create operator public.= (leftarg = public.mood, rightarg = public.mood, function = public.other)", "create cast (public.mood as text) with function public.told(public.mood)",
                     "drop policy p on t3", "create policy p on t3 using (m = 'ok')")
        done = self.desk.program("show")
        for name, words in (("t0", "IS DISTINCT FROM: the database has an operator = of its own, which may be meant"), ("t1", "CASE .. WHEN a value: the database"), ("t2", "a cast to text"), ("t3", "the operator public.="),
                            ("pairs", "USING: the database"), ("ids", "DISTINCT: the database"), ("groups", "GROUP BY: the database"), ("either", "UNION: the database")):
            self.assertRegex(done.stderr, rf"{name} is left out: .*{re.escape(words)}")
        self.assertNotIn("t4 is left out", done.stderr)
        self.assertIn('"insert":["sad",1]', done.stdout)
        self.desk.do("create operator pg_catalog.= (leftarg = public.mood, rightarg = public.mood, function = public.other)")
        done = self.desk.program("show")
        self.assertEqual((done.returncode, done.stdout), (1, ""))
        self.assertIn("the database has operators or aggregates of its own in pg_catalog, which are printed as PostgreSQL's", done.stderr)

    def test_a_locked_table_and_too_many_roles(self) -> None:
        self.desk.do("create table notes (id int not null); alter table notes enable row level security; create policy p on notes using (id = 1)", "create table free (id int not null)")
        other = Desk(self.desk.dsn)
        self.addCleanup(other.connection.close)
        other.do("begin", "lock table notes in access exclusive mode")
        done = self.desk.program("show")
        self.assertIn("notes is left out: the text of its policy p cannot be read now\n", done.stderr)
        self.assertIn('"name":"free"', done.stdout)
        other.do("rollback", "create table open (id int not null)", "begin", "lock table open in access exclusive mode")
        self.assertEqual(self.desk.program("show").returncode, 3)
        other.do("rollback", "do $$ begin for i in 1..260 loop execute 'create role r' || i; end loop; end $$")
        done = self.desk.program("show")
        self.assertEqual((done.returncode, done.stdout), (1, ""))
        self.assertRegex(done.stderr, "^viewd-postgresql: [0-9]+ roles: viewd can have 255\n$")

    def test_what_is_nested_deep(self) -> None:
        texts = {"t0": "not " * 1500 + "(done is not null)", "t1": "(done = " * 12 + "true" + ")" * 12, "t2": "coalesce(done, " * 40 + "true" + ")" * 40, "t3": " and ".join(["done"] * 3000)}
        for name, text in texts.items():
            self.desk.do(f"create table {name} (done boolean); alter table {name} enable row level security; create policy p on {name} using ({text})")
        done = self.desk.program("show")
        self.assertEqual(Shown(done.stdout, ()).refused, [])
        self.assertIn("t0 is left out: its policy p cannot be said in viewd's words: it is nested too deep", done.stderr)

    def test_many_rows_and_lines(self) -> None:
        self.desk.do("""create role ann; create role bob; create role eve; create table texts (id int not null, t text not null); insert into texts select g, repeat('é', 512) from generate_series(1, 1500) g;
            insert into texts select 1, repeat('é', 512) from generate_series(1, 5); create table ids (id bigint); insert into ids select g from generate_series(1, 2500) g; insert into ids values (null), (null),
            (9223372036854775807), (-9223372036854775808); grant select on texts, ids to public""")
        done = self.desk.program("show")
        self.assertEqual(done.returncode, 0)
        self.assertLessEqual(max(len(it.encode()) for it in done.stdout.splitlines()), 65_536)
        self.same(Shown(done.stdout, ROLES), ROLES)

    def test_the_mark_is_another_one_behind_each_change(self) -> None:
        self.desk.do("create role zed", "create type public.feeling as enum ('sad', 'ok')", "create table marked (id int not null, f public.feeling)")
        connection = catalog.connect(self.desk.dsn)
        self.addCleanup(connection.close)
        self.desk.cursor.execute("select 'marked'::regclass::oid::bigint")
        oids = [row[0] for row in self.desk.cursor.fetchall()]
        before = catalog.mark(connection, oids, "viewd")
        for statement in CHANGES:
            connection.rollback()
            self.desk.do(statement)
            after = catalog.mark(connection, oids, "viewd")
            self.assertNotEqual(after, before, statement)
            before = after
        connection.rollback()
        self.desk.do("insert into marked values (1, 'ok')", "create table beside (id int)")
        self.assertEqual(catalog.mark(connection, oids, "viewd"), before)
        read = catalog.read(connection, oids, "viewd")
        self.assertEqual(read.relations[oids[0]].columns[1].labels, ["blue", "ok"])

    def test_a_policy_that_changes_is_printed_meanwhile(self) -> None:
        """A catalog is never answered with texts of another moment."""
        self.desk.do("create table notes (id int not null)", "create policy p on notes using (id = 1)")
        connection = catalog.connect(self.desk.dsn)
        self.addCleanup(connection.close)
        self.desk.cursor.execute("select 'notes'::regclass::oid::bigint")
        oid = (self.desk.cursor.fetchone() or (0,))[0]
        statements = ["alter policy p on notes using (id = 2)", "alter table notes enable row level security"]
        printed = catalog.text

        def changed(*words: object) -> str | None:
            """Two changes, one behind each printed text."""
            found = printed(*words)  # type: ignore[arg-type]
            self.desk.do(*statements[:1])
            del statements[:1]
            return found
        with unittest.mock.patch.object(catalog, "text", changed):
            found = catalog.read(connection, [oid], "viewd").relations[oid]
        self.assertEqual((found.policies[0].text, found.enable), ("(id = 2)", True))

    def test_statements_for_later_servers_can_be_written(self) -> None:
        self.assertIn("m.inherit_option", catalog.statement(160_001))
        self.assertIn("datlocale", catalog.statement(170_000))
        self.assertNotIn("inherit_option", catalog.statement(150_018))
