"""Policies and views to translate: written ones, those that are refused with the words, and random ones."""
import random

THINGS = """true
false
null
null::boolean
not null::boolean
id = 3
id <> 3
n = 1
n <> 1
n < 1
n >= 1
not n = 1
not (n > 0 and id > 10)
not (n > 0 or id > 10)
n = 1 or n is null
n is null
n is not null
not n is null
n is null and note is null
n = null
n <> null
n in (1, 2)
n not in (1, 2)
n in (1, null)
n not in (1, null)
not (n in (1, 2))
not (n in (1, null))
not (n not in (1, null))
(n in (1, null)) is false
n = any (array[]::integer[])
n <> all (array[]::integer[])
n between 0 and 2
n not between 0 and 2
n between symmetric 2 and 0
id between 3 and n
n = id
n < id
n <> id
n = -1
n > -2147483648
id < 9223372036854775807
n = 1::smallint
n::bigint = id
n is distinct from 1
n is distinct from null
n is not distinct from null
n is not distinct from id
not (n is distinct from id)
n is distinct from id
owner = current_user
owner <> current_user
current_user = owner
owner = current_role
owner = user
current_user = 'ann'
current_user in ('ann', 'bob')
note = current_user
note <> current_user
owner = note
owner <> note
note is distinct from owner
note is distinct from code
note is not distinct from code
not note is distinct from code
note is not distinct from owner
note = 'x''y'
note = 'größe'
note = E'gr\\u00f6\\u00dfe'
note = ''
note <> ''
note in ('a', '')
note not in ('a', '')
code < 'b'
code <= 'B'
code > 'a'
code >= 'b'
not code < 'b'
code < note
code < current_user
owner < current_user
note < 'b' collate "C"
note collate "C" >= 'B'
owner collate "C" < note
note = 'a' collate "C"
code between 'B' and 'a'
open
not open
open = true
open <> true
open > false
open is true
open is not true
open is unknown
open is not unknown
open is null
open is not distinct from true
done
not done
done is true
done is not true
done is false
done is not false
done is unknown
done is not unknown
done is null
done is not null
done = open
done <> open
done < open
done <= open
done > open
done >= open
not done < open
done = done
done is distinct from open
done is not distinct from open
done is not distinct from null
done = (n = 1)
(n = 1) = (note = 'a')
(n = 1) <> (note = 'a')
(n = 1) < (note = 'a')
((n = 1) is null) = done
(n = 1) is null
(n = 1) is not null
(n = 1) is unknown
(n = 1) is not true
not ((n = 1) is not false)
(n = 1 or done) is distinct from (id < 20)
(n = 1 or done) is not distinct from (note = 'a' and done)
(owner, open) = ('ann', true)
(n, note) = (1, 'a')
(n, note) <> (1, 'a')
(n, note) is distinct from (1, 'a')
open in (true, null)
done in (true, null)
done not in (false)
day = '2024-01-31'
day <> '2024-01-31'
day < '2024-02-01'
day >= '2024-01-31'
day > '0999-12-31'
day = 'infinity'
day < 'infinity'
day > '-infinity'
day is null
day in ('2024-01-31', 'infinity', null)
amount = 1
amount = 1.0
amount = 1.500
amount <> 1.5
amount = '-2.5'
amount = 'NaN'
amount = 10
amount in (1, 9, null)
amount is null
amount = 0
amount = 12345678901234567890.1
amount is distinct from 1.50
case when n = 1 then true when n is null then done else false end
case when n = 1 then done end
case n when 1 then open when 2 then done else note = 'a' end
case when done then n = 1 else n = 2 end
not case when n = 1 then done end
(case when n = 1 then done end) is null
owner = any (array[current_user, 'bob'])
(open, n) in ((true, 1), (false, 2))
1::numeric = 1.0
'a'::text <> 'b'
coalesce(done, open)
coalesce(done, false)
not coalesce(done, true)
coalesce(done, n = 1, false)
coalesce(n, 0) = 0
coalesce(n, 2) > 1
not coalesce(n, 2) > 1
coalesce(note, owner) = 'a'
coalesce(note, code) = 'a'
'a' = coalesce(note, owner)
coalesce(n, null) is null
coalesce(note, code) is null
coalesce(note, current_user::text) = owner""".split("\n")
KINDS = """key = '10000000-0000-4000-8000-00000000000A'
key <> '10000000-0000-4000-8000-00000000000a'
key < 'a0000000-0000-4000-8000-000000000001'
key >= 'a0000000-0000-4000-8000-000000000001'
key is null
key::text = 'a0000000-0000-4000-8000-000000000001'
key in ('a0000000-0000-4000-8000-000000000001', null)
at = '2024-01-01'
at < '2024-01-01 00:00:00.5'
at > '2024-01-01 00:00:00'
at >= '2024-01-01 00:00:00.25'
at < 'infinity'
at is distinct from 'infinity'
seen = '2024-01-01 00:00:00.5+00'
seen < '2024-01-01 00:00:00+00'
seen <= '2023-12-31 23:00:00-03'
seen > '-infinity'
not seen > '2024-01-01 00:00:00.25+00'
mood = 'sad'
mood <> 'sad'
mood in ('sad', 'ok')
mood is null
mood::text = 'happy'
mood is distinct from 'ok'
level < 'b mid'
level >= 'b mid'
level = 'c high'
not level > 'a low'
small = 1
small < id
small::integer = id
small in (0, 1)
small is null or level is null
short = 'ann'
short = owner
short in ('ann', 'B')
short not in ('ann', null)
short = any (array['B', owner])
short = current_user
short <> owner
short::text = 'B'
short is not distinct from owner""".split("\n")
PEOPLE = ("10000000-0000-4000-8000-00000000000a", "a0000000-0000-4000-8000-000000000001", "a0000000-0000-4000-8000-000000000002")  # users, of whom the last has no row
OF_USERS = """key = auth.uid()
auth.uid() = key
(select auth.uid()) = key
key <> auth.uid()
not key = auth.uid()
key is distinct from auth.uid()
key is not distinct from (select auth.uid() as uid)
(key = auth.uid()) is not true
(key = auth.uid()) is unknown
key < auth.uid()
key >= auth.uid()
key in (auth.uid(), 'a0000000-0000-4000-8000-000000000001')
auth.uid() not in (key, null)
auth.uid() = 'A0000000-0000-4000-8000-000000000001'
auth.uid() is not null
coalesce(key, auth.uid()) = auth.uid()
case when key = auth.uid() then owner = 'ann' else small = 1 end
key::text = auth.uid()::text
key = current_setting('request.sub')::uuid
key = current_setting('request.sub')::text::uuid
key::text = current_setting('request.sub')
owner <> current_setting('request.sub')
current_setting('request.sub') in (key::text, owner)
mood = 'sad' and (key = auth.uid() or owner = 'bob')
small = 1""".split("\n")
REFUSED_OF_USERS = [("exists (select auth.uid())", "a subquery"), ("key = (select auth.uid() limit 1)", "a subquery"), ("key = (select auth.uid() where small = 1)", "a subquery"), ("key in (select auth.uid())", "a subquery"),
                    ("key = auth.other()", "the function auth.other"), ("owner = current_user", "CURRENT_USER"), ("owner = auth.uid()::varchar(5)", "a cast to varchar with a length"), ("small = current_setting('request.sub')::smallint", "a cast of the user's name to int2"),
                    ("key::text < auth.uid()::text", "viewd orders texts by their bytes")]
REFUSED = [  # a policy, and words of the refusal
    ("note like 'a%'", "the operator ~~"), ("n + 1 = 2", "the operator +"), ("length(note) = 1", "the function length"),
    ("exists (select from people p where p.name = owner)", "a subquery"), ("owner in (select name from people)", "a subquery"),
    ("owner = session_user", "SESSION_USER"), ("owner = current_setting('app.user')", "the function current_setting"), ("pg_has_role('team', 'member')", "the function pg_has_role"),
    ("note < 'b'", "viewd orders texts by their bytes; say COLLATE \"C\""), ("owner > note", "viewd orders texts by their bytes"), ("'a' < 'B'", "viewd orders texts by their bytes"),
    ("note < 'b' collate public.\"C\"", "COLLATE public.C"), ("coalesce(note, 'z') < 'b'", "viewd orders texts by their bytes"),
    ("amount > 1", "viewd orders numeric by the bytes of its texts"), ("amount = n", "a cast to numeric"), ("day < current_date", "CURRENT_DATE"), ("day > '10000-01-01'", "viewd can hold those of the years 1 to 9999"),
    ("day = '0044-03-15 BC'", "viewd can hold those of the years 1 to 9999"), ("day < timestamp '2024-01-01'", "of two kinds"), ("now() > '2024-01-01'", "the function now"), ("n = any (array[n, 1] || 2)", "the operator ||"),
    ("n = any ('{1,2}'::integer[])", "an array that is not written out"), ("nullif(n, 1) = 2", "NULLIF"), ("case when open then n else 1 end = 1", "CASE"), ("id = 1.5", "a cast to numeric"), ("(n, id) < (1, 2)", "RowExpr"),
    ("note similar to 'a'", "the operator ~"), ("note = repeat('a', 3)", "the function repeat"),
    (" or ".join(f"(n = {it} or note = '{'x' * 40}{it}')" for it in range(100)), "more than 4,096 bytes"), ("owner::varchar(2) = 'an'", "a cast to varchar with a length"),
    ("n::text = '1'", "a cast to text"), ("day::text = 'x'", "a cast to text"), ("amount::text = '1'", "a cast to text"), ("n::numeric(3,1) = amount", "a cast to numeric with a length")]
REFUSED_KINDS = [("mood < 'ok'", "viewd orders public.mood by the bytes of its texts"), ("mood >= 'sad'", "viewd orders public.mood"), ("at = seen", "of two kinds"), ("at > '2024-01-01'::date", "of two kinds"),
                 ("at::date = '2024-01-01'", "a cast to date"), ("seen::text = 'x'", "a cast to text"), ("id::smallint = small", "a cast to int2"), ("key::text < 'b'", "viewd orders texts by their bytes"),
                 ("short < 'b'", "viewd orders texts by their bytes"), ("at > '12024-01-01'", "viewd can hold those of the years 1 to 9999"), ("key = owner::uuid", "a cast to uuid")]
VIEWS = """select * from things
select id, n, note from things where n = 1
select n from things where not n > 1
select distinct n from things
select distinct note, done from things
select n, count(*) as many from things group by n
select note, done, count(*) as many from things group by note, done
select n, sum(id) as total from things group by n
select owner, sum(id) as total, count(id) as many from things group by owner
select owner from things group by owner
select note from things group by note
select n from things union select n from things where id > 3
select n, note from things union all select n, code from things
select note from things except select code from things
select n from things except select n from things where n is not null
select amount from things union select amount from things
select distinct amount from things
select amount, count(*) as many from things group by amount
select a.id, b.id as other from things a join things b on a.n = b.n where a.id < 4
select a.id, b.rank from things a join people b on a.owner = b.name
select a.id, b.rank from things a, people b where a.note = b.name and b.boss is not null
select a.name, b.name as top from people a join people b on a.boss = b.name
select a.name, b.name as top from people a join people b on a.boss = b.boss
select a.name, b.name as top from people a join people b on a.boss = b.boss where a.boss is distinct from 'zoe'
select t.id, k.key from things t join kinds k using (id)
select t.id, k.mood, k.at, k.seen, k.level from things t join kinds k on t.id = k.id where k.mood <> 'sad' or t.done
select id from things where done is not true and (note is null or code < 'b')
select mood::text as mood, key from kinds
select a.id from things a join kinds b on a.id = b.id join people c on b.owner = c.name where c.boss is null
select a.id from kinds a join kinds b on a.key = b.key and a.mood = b.mood where a.small = 1
select a.id from kinds a join kinds b on a.short = b.owner
select day, at from things join kinds using (id) where day is not null and at is null
select id as a, id as b from things
select * from people where name = 'ann' and boss = 'eve'
select boss from people where boss is not null union all select note from things
select name from people union select owner from things
select n from things where coalesce(n, 0) = 0
select id from things order by id
select done from things where done = any (array[true, null])
select boss, count(*) as many from people group by boss
select distinct boss, rank from people
select boss from people except select note from things
select small from kinds union select n from things
select small, n from kinds join things using (id)
select a.day from things a join things b on a.day = b.day where a.id < 3
select a.amount from things a join things b on a.amount = b.amount where b.id < 3
select a.id, b.id as other from things a join things b on a.done = b.done and a.n = b.n where a.id < 9
select a.id, b.id as other from things a join things b using (done, note) where b.id < 9
select a.id from things a join things b on a.done = b.open and a.owner = b.note
select a.id from things a join kinds b on a.open = a.done and a.id = b.id""".split("\n")
REFUSED_VIEWS = [
    ("select name, boss, rank from people natural join (people p(x, y, z) cross join things)", "new names of columns in FROM"),
    ("select id, case when open then 1 else 2 end as x from things", "CASE"), ("select count(*) as many from things", "sum or count without GROUP BY"),
    ("select id, owner, count(*) as many from keyed group by id", "keyed.owner is shown and not in GROUP BY"),
    ("select id from things limit 3", "LIMIT"), ("select n, sum(n) as total from things group by n", "sum of things.n, which may be NULL"), ("select owner, count(n) as many from things group by owner", "count of things.n, which may be NULL"),
    ("select t.id, p.boss from things t left join people p on t.owner = p.name", "LEFT JOIN"), ("select owner, max(id) as most from things group by owner", "the function max"), ("select 1 as one from things", "1 in the list of columns"),
    ("select name from people union select note from things", "may be NULL on one side alone"), ("select current_user::text as me from things", "CURRENT_USER"), ("select owner, count(*) as many from things group by owner having count(*) > 1", "HAVING"),
    ("with x as (select id from things) select id from x", "WITH"), ("select id from (select id from things) s", "a subquery in FROM"), ("select id as count from things", "its column count has no name of viewd's"), ("select id, boss from things, people", "is joined without a column"),
    ("select note from things intersect select boss from people", "INTERSECT"), ("select n, note as n_null from things", "its column n_null twice"), ("select owner, avg(id) as it from things group by owner", "the function avg"),
    ("select id, row_number() over () as r from things", "the function row_number"), ("select distinct on (owner) id from things", "DISTINCT ON"), ("select day from things union select at::date from kinds", "a cast to date"),
    ("select day from things where note < 'b'", "viewd orders texts by their bytes"), ("select amount from things union select id from things", "is of two kinds"), ("select sum(amount) as it, owner from things group by owner", "sum of things.amount, which may be NULL")]
ATOMS = [it for it in THINGS if it != "null" and "(" not in it and " or " not in it and " and " not in it and "array" not in it]
ATOMS_OF_USERS = [it for it in OF_USERS if " or " not in it and "case" not in it and "coalesce" not in it]
ATOMS_KINDS = [it for it in KINDS if "(" not in it and " or " not in it]
SHAPES = ["({} and {})", "({} or {})", "not ({})", "({} or not {})", "({}) is true", "({}) is not true", "({}) is not false", "({}) is unknown", "(({}) = ({}))", "(({}) <> ({}))", "(({}) < ({}))",
          "(({}) is distinct from ({}))", "(({}) is not distinct from ({}))", "coalesce({}, {})", "case when {} then {} else {} end", "case when {} then {} end", "({}) is null"]


def nested(r: random.Random, atoms: list[str], depth: int) -> str:
    if depth == 0 or r.random() < 0.15:
        return f"({r.choice(atoms)})"
    shape = r.choice(SHAPES)
    return shape.format(*(nested(r, atoms, depth - 1) for _ in range(shape.count("{}"))))
