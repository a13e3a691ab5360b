"""Policies and views beside PostgreSQL's own answers: what viewd shows to each role is what `SET ROLE; SELECT` shows, as bags."""
import random
import unittest

from base import counts
from desk import ROLES, TABLES, Desk, Shown, alike
from expressions import (
    ATOMS,
    ATOMS_KINDS,
    ATOMS_OF_USERS,
    KINDS,
    OF_USERS,
    PEOPLE,
    REFUSED,
    REFUSED_KINDS,
    REFUSED_OF_USERS,
    REFUSED_VIEWS,
    THINGS,
    VIEWS,
    nested,
)
from server import Server, is_installed
from users import role_of

BATCH = 45  # tables at once: viewd can have 64
LIKELY = ("its text has more than", "too long", "parentheses open at once")
USERS = f"""[users]
role = "app"
calls = ["auth.uid()", "current_setting('request.sub')"]
names = {list(PEOPLE)}
"""
options = {"random": 45, "seed": 1}


@unittest.skipUnless(is_installed(), "no PostgreSQL is installed")
class Expressions(unittest.TestCase):
    server: Server
    desk: Desk

    @classmethod
    def setUpClass(cls) -> None:
        cls.server = Server()
        cls.addClassCleanup(cls.server.__exit__, None, None, None)
        cls.server.__enter__()
        cls.desk = Desk(cls.server.dsn())
        cls.addClassCleanup(cls.desk.connection.close)
        cls.desk.do(TABLES)

    def tearDown(self) -> None:
        self.desk.do("""do $$ declare it text; begin for it in select oid::regclass from pg_class where relname ~ '^[pv][0-9]+$' order by relname desc loop
                     execute 'drop ' || case left(it, 1) when 'p' then 'table ' else 'view ' end || it; end loop; end $$""")

    def compare(self, names: dict[str, str], users: tuple[str, ...] = ()) -> dict[str, str]:
        """Compares what is shown of relations to roles, or to users; answers why others are left out. `names` says of each what it was made from."""
        done = self.desk.program("show", config=USERS if users else None)
        left = dict(line.removeprefix("viewd-postgresql: ").split(" is left out: ", 1) for line in done.stderr.splitlines())
        readers: dict[str, tuple[str, ...]] = {it: (it,) for it in ROLES}
        if users:
            readers = {role_of(it): ("app", f"set local request.sub = '{it}'") for it in users}
        shown = Shown(done.stdout, tuple(readers))
        self.assertEqual(shown.refused, [], "viewd refused what show said")
        for name, text in names.items():
            counts["expressions"] += 1
            if name in left:
                continue
            counts["said"] += 1
            for reader, (role, *before) in readers.items():
                counts["relations"] += 1
                self.assertEqual(alike(shown.rows[reader, name]), alike(self.desk.seen(role, name, *before)), (reader, text))
        return {name: why for name, why in left.items() if name in names}

    def policies(self, table: str, texts: list[str], users: tuple[str, ...] = ()) -> dict[str, str]:
        """Why those that are refused are."""
        why: dict[str, str] = {}
        for start in range(0, len(texts), BATCH):
            names = {f"p{number}": text for number, text in enumerate(texts[start:start + BATCH])}
            for name, text in names.items():
                self.desk.do(f"""create table {name} (like {table}); insert into {name} select * from {table}; grant select on {name} to public;
                                 alter table {name} enable row level security; create policy p on {name} using ({text})""")
            why |= {names[name]: fault for name, fault in self.compare(names, users).items()}
            self.tearDown()
        return why

    def views(self, texts: list[str]) -> dict[str, str]:
        names = {f"v{number}": text for number, text in enumerate(texts)}
        for name, text in names.items():
            self.desk.do(f"create view {name} with (security_invoker = true) as {text}; grant select on {name} to ann, bob")
        return {names[name]: fault for name, fault in self.compare(names).items()}

    def test_policies_that_can_be_said(self) -> None:
        self.assertEqual(self.policies("things", THINGS) | self.policies("kinds", KINDS), {})

    def test_policies_that_are_refused(self) -> None:
        for table, refused in (("things", REFUSED), ("kinds", REFUSED_KINDS)):
            why = self.policies(table, [text for text, _ in refused])
            for text, words in refused:
                self.assertIn(words, why.get(text, "said"), text)

    def test_policies_of_users_who_are_uuids(self) -> None:
        self.desk.do("""create role app; create schema auth; grant usage on schema auth to public; create function auth.uid() returns uuid language sql stable as $$ select current_setting('request.sub')::uuid $$;
            create function auth.other() returns uuid language sql stable as $$ select null::uuid $$""")
        self.addCleanup(self.desk.do, "drop schema auth cascade", "drop role app")
        self.assertEqual(self.policies("kinds", OF_USERS, PEOPLE), {})
        why = self.policies("kinds", [text for text, _ in REFUSED_OF_USERS], PEOPLE)
        for text, words in REFUSED_OF_USERS:
            self.assertIn(words, why.get(text, "said"), text)
        r = random.Random(options["seed"] + 3)
        texts = list({nested(r, ATOMS_OF_USERS, 2): None for _ in range(options["random"])})
        why = self.policies("kinds", texts, PEOPLE)
        self.assertEqual({text: fault for text, fault in why.items() if not any(it in fault for it in LIKELY)}, {})
        self.assertLess(len(why), len(texts) // 2 + 1)

    def test_policies_nested_at_random(self) -> None:
        r = random.Random(options["seed"])
        for table, atoms in (("things", ATOMS), ("kinds", ATOMS_KINDS)):
            texts = list({nested(r, atoms, 3): None for _ in range(options["random"])})
            why = self.policies(table, texts)
            self.assertEqual({text: fault for text, fault in why.items() if not any(it in fault for it in LIKELY)}, {})
            self.assertLess(len(why), len(texts) // 2 + 1)

    def test_restrictive_policies_for_roles(self) -> None:
        """Also if a restrictive policy is unknown: then it lets nothing through."""
        texts = []
        r = random.Random(options["seed"] + 7)
        for number in range(BATCH):
            name, one, two, three = f"p{number}", *(nested(r, ATOMS, 1) for _ in range(3))
            self.desk.do(f"""create table {name} (like things); insert into {name} select * from things; grant select on {name} to public; alter table {name} owner to {r.choice(ROLES)};
                alter table {name} {r.choice(('enable', 'disable'))} row level security, {r.choice(('force', 'no force'))} row level security;
                create policy one on {name} for select to {r.choice(('public', 'team', 'ann, bob', 'lead'))} using ({one});
                create policy two on {name} as {r.choice(('restrictive', 'permissive'))} to {r.choice(('public', 'team', 'lead'))} using ({two});
                create policy three on {name} for {r.choice(('update', 'all'))} using ({three}); create policy four on {name} for insert with check (true)""")
            texts.append(f"{one} | {two} | {three}")
        self.assertEqual(self.compare({f"p{number}": text for number, text in enumerate(texts)}), {})

    def test_views(self) -> None:
        self.assertEqual(self.views(VIEWS), {})

    def test_views_nested_at_random(self) -> None:
        r = random.Random(options["seed"] + 13)
        atoms = [it for it in ATOMS if "user" not in it and "role" not in it]
        forms = ["select n, note, done, id from things where {}", "select distinct code, done from things where {}", "select n, done, count(*) as many, sum(id) as total from things where {} group by n, done",
                 "select note from things where {} union select code from things where {}", "select n, note from things where {} union all select n, code from things where {}", "select n from things where {} except select n from things where {}"]
        texts = [it.format(*(nested(r, atoms, 2) for _ in range(it.count("{}")))) for it in forms for _ in range(7)]
        why = self.views(texts)
        self.assertEqual({text: fault for text, fault in why.items() if not any(it in fault for it in LIKELY)}, {})
        self.assertLess(len(why), len(texts) // 3)

    def test_views_that_are_refused(self) -> None:
        why = self.views([text for text, _ in REFUSED_VIEWS])
        for text, words in REFUSED_VIEWS:
            self.assertIn(words, why.get(text, "said"), text)

    def test_views_over_views(self) -> None:
        texts = ["select n, note, id from things where n is not null or done", "select a.n, b.n as other from v0 a join v0 b on a.note = b.note", "select n, other, count(*) as many from v1 group by n, other",
                 "select many from v2 where n is null and other <> 1", "select sum(many) as total, n from v2 group by n", "select total from v4 where n = 1"]
        self.assertEqual(self.views(texts), {})
