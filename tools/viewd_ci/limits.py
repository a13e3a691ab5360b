"""Runs inputs at each limit, one step beyond it, and of each size below some, through the built program and compares every answer.

The inputs are long and regular, so they are made here and not kept as files. If a request asks for more rows than may be, it
has to be refused before they are formed: those inputs run in 256 MB and 10 seconds of processor time, and take a fortieth of it.
VIEWD names another program to run.
"""
import json
import os
import resource
import subprocess
import sys
from collections.abc import Callable, Iterable
from typing import Any

from viewd_ci import common

# requests and lines are data, or texts as they are sent; a step is a request with the lines that it is answered
Data = dict[str, Any]
Line = Data | str
Steps = list[tuple[Line, Line | list[Line]]]
Row = list[Any]
PROGRAM = os.environ.get("VIEWD", common.PROGRAM)
# of an input on a slow host: only one that hangs comes to it
SECONDS = 1800


def begin(session: int, role: str = "admin") -> Data:
    return {"do": "begin", "role": role, "session": session}


def create_role(name: str) -> Data:
    return {"do": "create_role", "name": name, "session": 1}


def create_table(name: str, columns: list[list[str]]) -> Data:
    return {"do": "create_table", "name": name, "owner": "admin", "columns": columns, "session": 1}


def create_view(name: str, query: str) -> Data:
    return {"do": "create_view", "name": name, "owner": "admin", "query": query, "session": 1}


def grant(name: str, privilege: str = "select") -> Data:
    return {"do": "grant", "on": name, "privileges": [privilege], "to": "public", "session": 1}


def create_policy(name: str, policy: str, predicate: str, **more: Any) -> Data:
    return {"do": "create_policy", "on": name, "name": policy, "using": predicate, "session": 1, **more}


def subscribe(name: str, session: int = 1) -> Data:
    return {"do": "subscribe", "on": name, "session": session}


def insert(name: str, rows: list[Row]) -> Data:
    return {"do": "write", "entries": [{"on": name, "insert": row} for row in rows], "session": 1}


def ok(session: int = 1, **more: Any) -> Data:
    return {"ok": True, "session": session, **more}


def refused(number: int, session: int = 1, **more: Any) -> Data:
    return {"error": number, "session": session, **more}


BAD_REQUEST: Data = {"error": 2}
NOTES = create_table("notes", [["id", "int"], ["who", "text"]])


def sessions() -> Steps:
    """256 sessions are open at most."""
    steps: Steps = [(begin(n), ok(n)) for n in range(1, 257)]
    return steps + [(begin(257), refused(20, 257)), (begin(256), refused(4, 256)), (create_role("ann"), ok())]


def roles() -> Steps:
    """There are 256 roles at most, `admin` among them."""
    steps: Steps = [(begin(1), ok())]
    steps += [(create_role(f"r{n}"), ok()) for n in range(2, 257)]
    return steps + [
        (create_role("r257"), refused(20)),
        (create_role("r256"), refused(6)),
        (begin(2, "r257"), refused(5, 2)),
        (begin(2, "r256"), ok(2)),
    ]


def memberships() -> Steps:
    """Each of 255 roles is a member of the next: the first has what the last was granted, until a link in the middle ends."""

    def member(do: str, role: int, to: int) -> Data:
        return {"do": do, "role": f"r{role}", "to": f"r{to}", "session": 1}

    steps: Steps = [(begin(1), ok()), (NOTES, ok())]
    steps += [(create_role(f"r{n}"), ok()) for n in range(1, 256)]
    steps += [(grant("notes") | {"to": "r255"}, ok()), (begin(2, "r1"), ok(2)), (subscribe("notes", 2), refused(13, 2, on="notes", privilege="select"))]
    steps += [(member("grant_role", n + 1, n), ok()) for n in [*range(2, 255, 2), *range(1, 255, 2)]]
    shown = {"changes": [[1, [1, "ann"]]], "session": 2, "sub": 1}
    taken = {"changes": [[-1, [1, "ann"]]], "ended": "privilege", "session": 2, "sub": 1}
    return steps + [
        (subscribe("notes", 2), ok(2, sub=1)),
        (insert("notes", [[1, "ann"]]), [ok(), shown]),
        (member("grant_role", 1, 255), refused(23)),
        (member("revoke_role", 128, 127), [ok(), taken]),
        (subscribe("notes", 2), refused(13, 2, on="notes", privilege="select")),
        (member("grant_role", 1, 255), ok()),
        (member("grant_role", 128, 127), refused(23)),
        (member("revoke_role", 1, 255), ok()),
        (member("grant_role", 128, 127), ok()),
        (subscribe("notes", 2), [ok(2, sub=2), shown | {"sub": 2}]),
    ]


def tables() -> Steps:
    """There are 64 tables at most."""
    column = [["id", "int"]]
    steps: Steps = [(begin(1), ok())]
    steps += [(create_table(f"t{n}", column), ok()) for n in range(1, 65)]
    return steps + [
        (create_table("t65", column), refused(20)),
        (create_table("t64", column), refused(6)),
        (subscribe("t65"), refused(7)),
        (subscribe("t64"), ok(sub=1)),
    ]


def views() -> Steps:
    """There are 64 views at most, whatever number of tables there is."""
    steps: Steps = [(begin(1), ok()), (NOTES, ok())]
    steps += [(create_view(f"v{n}", "select id from notes"), ok()) for n in range(1, 65)]
    return steps + [
        (create_view("v65", "select id from notes"), refused(20)),
        (create_view("v65", "select id from"), refused(10, place=14, why="unexpected")),
        (create_view("v64", "select id from notes"), refused(6)),
        (create_table("t", [["id", "int"]]), ok()),
        (subscribe("v65"), refused(7)),
        (subscribe("v64"), ok(sub=1)),
    ]


def subscriptions() -> Steps:
    """A session has 16 open subscriptions at most; a refused one takes no number."""
    steps: Steps = [(begin(1), ok()), (begin(2), ok(2)), (NOTES, ok())]
    steps += [(subscribe("notes"), ok(sub=n)) for n in range(1, 17)]
    return steps + [(subscribe("notes"), refused(20)), (subscribe("notes", 2), ok(2, sub=17))]


def policies() -> Steps:
    """A table has 32 policies at most, and a refused one is not there."""
    steps: Steps = [(begin(1), ok()), (NOTES, ok())]
    steps += [(create_policy("notes", f"p{n}", f"id = {n}"), ok()) for n in range(1, 33)]
    return steps + [
        (create_policy("notes", "p33", "id = 33"), refused(20)),
        (create_policy("notes", "p33", "id ="), refused(10, place=4, why="unexpected")),
        (create_policy("notes", "p32", "id = 33"), refused(6)),
        ({"do": "drop_policy", "on": "notes", "name": "p33", "session": 1}, refused(18)),
        ({"do": "drop_policy", "on": "notes", "name": "p32", "session": 1}, ok()),
        (create_policy("notes", "p33", "id = 33"), ok()),
    ]


def nodes() -> Steps:
    """A plan has 256 nodes at most, and 64 scans of a table among them show each row 64 times."""
    steps: Steps = [(begin(1), ok()), (NOTES, ok())]
    below = "notes"
    # twice the nodes of what is below and two projections over it, and one: 5, 13, 29, 61, 125, 253
    for n in range(1, 7):
        steps.append((create_view(f"v{n}", f"select id from {below} union all select id from {below}"), ok()))
        below = f"v{n}"
    for name in ("w254", "w255", "w256"):
        steps.append((create_view(name, f"select id from {below}"), ok()))
        below = name
    changes = {"changes": [[64, [7]]], "session": 1, "sub": 1}
    return steps + [
        (create_view("w257", "select id from w256"), refused(10, place=0, why="too many nodes")),
        (subscribe("w257"), refused(7)),
        (subscribe("w256"), ok(sub=1)),
        (insert("notes", [[7, "x"]]), [ok(), changes]),
    ]


def sources() -> Steps:
    """A text has eight sources at most: the ninth is named by its place."""
    eight = "select id from notes" + " union all select id from notes" * 7
    nine = refused(10, place=len(eight) + len(" union all select id from "), why="too long")
    return [
        (begin(1), ok()),
        (NOTES, ok()),
        (create_view("v", eight + " union all select id from notes"), nine),
        (create_view("v", eight), ok()),
    ]


def texts() -> Steps:
    """A query and a predicate have 4,096 bytes at most, and a text in them 1,024."""
    query, predicate = "select id from notes", "who = 'x'"
    beyond = refused(10, place=4096, why="too long")
    return [
        (begin(1), ok()),
        (NOTES, ok()),
        (create_view("v", query.ljust(4097)), beyond),
        (create_view("v", "?" * 4097), beyond),
        (create_view("v", query.ljust(4096)), ok()),
        (create_policy("notes", "p", predicate.rjust(4097)), beyond),
        (create_policy("notes", "p", predicate.rjust(4096)), ok()),
        (create_policy("notes", "q", " " * 4096), refused(10, place=4096, why="unexpected")),
        (create_policy("notes", "q", "who = '" + "''" * 1025 + "'"), refused(10, place=6, why="token")),
        (create_policy("notes", "q", "who = '" + "''" * 1024 + "'"), ok()),
    ]


def columns() -> Steps:
    """A table has 16 columns at most, and a name 63 characters."""
    sixteen = [[f"c{n}", "int"] for n in range(16)]
    return [
        (begin(1), ok()),
        (create_table("t", sixteen), ok()),
        (create_table("u", sixteen + [["more", "int"]]), BAD_REQUEST),
        (create_role("r" * 63), ok()),
        (create_role("r" * 64), BAD_REQUEST),
        (insert("t", [list(range(16))]), ok()),
        (insert("t", [list(range(15))]), refused(9, entry=1)),
        (insert("t", [list(range(17))]), refused(9, entry=1)),
    ]


def values() -> Steps:
    """Numbers are those of 64 bits, and texts have 1,024 bytes at most."""
    return [
        (begin(1), ok()),
        (NOTES, ok()),
        (insert("notes", [[-(2**63), "x"]]), ok()),
        (insert("notes", [[2**63 - 1, "x"]]), ok()),
        (insert("notes", [[2**63, "x"]]), BAD_REQUEST),
        (insert("notes", [[-(2**63) - 1, "x"]]), BAD_REQUEST),
        (insert("notes", [[1, "x" * 1024]]), ok()),
        (insert("notes", [[1, "x" * 1025]]), BAD_REQUEST),
        (insert("notes", [[1, "\u00e9" * 512]]), ok()),
        (insert("notes", [[1, "\u00e9" * 512 + "x"]]), BAD_REQUEST),
        (insert("notes", [[1, "\0"]]), BAD_REQUEST),
    ]


def entries() -> Steps:
    """A write has 1,000 entries at most."""
    return [
        (begin(1), ok()),
        (NOTES, ok()),
        (insert("notes", [[1, "x"]] * 1001), BAD_REQUEST),
        (insert("notes", [[1, "x"]] * 1000), ok()),
        (subscribe("notes"), [ok(sub=1), {"changes": [[1000, [1, "x"]]], "session": 1, "sub": 1}]),
    ]


def listed(items: Iterable[Any]) -> str:
    return ",".join(text(item)[:-1] for item in items)


def each_write() -> Steps:
    """A write of each number of entries is accepted if memory is there: inserts, updates and deletes."""
    rows = [([n, "x"], [n, "y"]) for n in range(1000)]
    kinds = [
        [(listed([{"on": "notes", "insert": old}]), listed([[1, old]])) for old, _ in rows],
        [(listed([{"on": "notes", "update": row}]), listed(zip((-1, 1), row))) for row in rows],
        [(listed([{"on": "notes", "delete": new}]), listed([[-1, new]])) for _, new in rows],
    ]
    steps: Steps = [(begin(1), ok()), (NOTES, ok()), (subscribe("notes"), ok(sub=1))]
    for many in range(1, 1001):
        for kind in kinds:
            entries, changes = (",".join(texts) for texts in zip(*kind[:many]))
            line = f'{{"changes":[{changes}],"session":1,"sub":1}}\n'
            steps.append((f'{{"do":"write","entries":[{entries}],"session":1}}\n', [ok(), line]))
    return steps


def each_row() -> Steps:
    """Rows come one by one to a table and to a view of it, and go again: no number of rows is refused."""
    rows = [[n, "x"] for n in range(20000)]
    steps: Steps = [(begin(1), ok()), (NOTES, ok()), (create_view("v", "select id, who from notes where id >= 0"), ok())]

    def sent(weight: int, row: Row) -> Data:
        return {"changes": [[weight, row]], "session": 1, "sub": 1}

    steps += [(subscribe("v"), ok(sub=1))] + [(insert("notes", [row]), [ok(), sent(1, row)]) for row in rows]
    deletes = [{"do": "write", "entries": [{"on": "notes", "delete": row}], "session": 1} for row in rows]
    return steps + [(delete, [ok(), sent(-1, row)]) for delete, row in zip(deletes, rows)]


def each_length() -> Steps:
    """Names, texts, queries and predicates of each length, and tables and rows of each number of columns, are accepted."""
    query, predicate = "select id from notes", "who = 'x'"
    steps: Steps = [(begin(1), ok()), (NOTES, ok())]
    steps += [(create_role("r" * n), ok()) for n in range(1, 64)]
    steps += [(insert("notes", [[1, "x" * n]]), ok()) for n in range(1025)]
    for n in range(1, 17):
        steps += [(create_table(f"t{n}", [[f"c{k}", "int"] for k in range(n)]), ok()), (insert(f"t{n}", [list(range(n))]), ok())]
    # a text is read before its name is looked up (6)
    steps += [(create_view("v", query), ok()), (create_policy("notes", "p", predicate), ok())]
    steps += [(create_view("v", query.ljust(n)), refused(6)) for n in range(len(query), 4097)]
    return steps + [(create_policy("notes", "p", predicate.rjust(n)), refused(6)) for n in range(len(predicate), 4097)]


def rows() -> Steps:
    """A table has 65,536 different rows at most, if no other number is asked for; more copies of them may come."""
    steps: Steps = [(begin(1), ok()), (NOTES, ok())]
    for start in range(0, 65536, 1000):
        steps.append((insert("notes", [[n, "x"] for n in range(start, min(start + 1000, 65536))]), ok()))
    return steps + [
        (insert("notes", [[65536, "x"]]), refused(17)),
        (insert("notes", [[0, "x"], [65536, "x"]]), refused(17)),
        (insert("notes", [[0, "x"]]), ok()),
        (subscribe("notes"), [ok(sub=1), {"changes": [[1 + (n == 0), [n, "x"]] for n in range(65536)], "session": 1, "sub": 1}]),
    ]


def pairs(weight: int, side: int = 256) -> list[Row]:
    """The rows of a join of 256 rows with 256 rows, which are as many as there may be, or of so many on each side."""
    return [[weight, [x, y]] for x in range(1, side + 1) for y in range(1, side + 1)]


def join(rows: int, side: int = 256) -> Steps:
    """ann may read a join of two tables, of which the first has so many rows of the one key, and the second 256 or as many as are told."""
    steps: Steps = [(begin(1), ok()), (create_role("ann"), ok()), (begin(2, "ann"), ok(2))]
    steps += [(create_table("a", [["k", "int"], ["x", "int"]]), ok()), (create_table("b", [["k", "int"], ["y", "int"]]), ok())]
    steps += [(create_view("j", "select a.x, b.y from a join b on a.k = b.k"), ok())]
    steps += [(grant(name), ok()) for name in ("a", "b", "j")]
    steps += [(insert("a", [[1, n] for n in range(1, rows + 1)]), ok()), (insert("b", [[1, n] for n in range(1, side + 1)]), ok())]
    return steps


def shown(side: int = 256) -> tuple[Line, list[Line]]:
    """The join of so many rows on each side is read."""
    return (subscribe("j", 2), [ok(2, sub=1), {"changes": pairs(1, side), "session": 2, "sub": 1}])


def node_rows() -> Steps:
    """A view has 65,536 different rows at most, if no other number is asked for: a write beyond that is refused."""
    return join(256) + [shown(), (insert("a", [[1, 257]]), refused(17)), (insert("a", [[2, 257]]), ok())]


def ended_by_limit() -> Steps:
    """A policy that is dropped is not refused: the subscription that is beyond the limit then takes all back and ends."""
    return beyond_a_join(256)


def beyond_a_join(side: int) -> Steps:
    """A policy hides one row more than the limit allows, until it is dropped."""
    ended = {"changes": pairs(-1, side), "ended": "limit", "session": 2, "sub": 1}
    return join(side + 1, side) + [
        (subscribe("j", 2), refused(17, 2)),
        ({"do": "row_security", "on": "a", "enable": True, "force": False, "session": 1}, ok()),
        (create_policy("a", "every", "true"), ok()),
        (create_policy("a", "most", f"x <= {side}", restrictive=True), ok()),
        shown(side),
        ({"do": "drop_policy", "on": "a", "name": "most", "session": 1}, [ok(), ended]),
        (subscribe("j", 2), refused(17, 2)),
        (insert("a", [[1, side + 2]]), ok()),
    ]


def least_rows() -> Steps:
    """With `--rows 1024` a table has 1,024 different rows at most, and so has a join."""
    steps: Steps = [(begin(1), ok()), (NOTES, ok())] + load("notes", [[n, "x"] for n in range(1024)])
    steps += [(insert("notes", [[1024, "x"]]), refused(17)), (insert("notes", [[0, "x"]]), ok())]
    return steps + join(32, 32)[1:] + [shown(32), (insert("a", [[1, 33]]), refused(17)), (insert("a", [[2, 33]]), ok())]


def ended_by_the_least() -> Steps:
    """A subscription to a join that outgrows 1,024 rows ends."""
    return beyond_a_join(32)


def most_rows() -> Steps:
    """With `--rows 1048576` a table and a view have so many rows, which are sent, change and are taken back; one more is refused."""
    most = 1048576
    steps: Steps = [(begin(1), ok()), (create_role("ann"), ok()), (begin(2, "ann"), ok(2)), (create_table("t", [["n", "int"]]), ok())]
    steps += load("t", [[n] for n in range(most)])
    steps += [(create_view("v", "select n from t where n >= 0"), ok()), (grant("t"), ok()), (grant("v"), ok())]
    steps += [(insert("t", [[most]]), refused(17)), (insert("t", [[-1]]), refused(17))]
    shows = {"changes": [[1, [n]] for n in range(most)], "session": 2, "sub": 1}
    steps += [(subscribe("v", 2), [ok(2, sub=1), shows]), (insert("t", [[most]]), refused(17))]
    turn = {"do": "write", "entries": [{"on": "t", "update": [[0], [most]]}], "session": 1}
    steps += [(turn, [ok(), {"changes": [[-1, [0]], [1, [most]]], "session": 2, "sub": 1}])]
    back = {"changes": [[-1, [n]] for n in range(1, most + 1)], "ended": "privilege", "session": 2, "sub": 1}
    revoke = {"do": "revoke", "on": "v", "privileges": ["select"], "to": "public", "session": 1}
    return steps + [(revoke, [ok(), back]), (insert("t", [[0]]), refused(17))]


# further words of the inputs that need another row limit
WORDS = {least_rows: ["--rows", "1024"], ended_by_the_least: ["--rows", "1024"], most_rows: ["--rows", "1048576"]}


def answers() -> Steps:
    """An answer has no limit of its own: this one has over three million bytes."""
    steps: Steps = [(begin(1), ok()), (NOTES, ok())]
    for start in range(0, 3000, 60):
        steps.append((insert("notes", [[n, "x" * 1024] for n in range(start, start + 60)]), ok()))
    shown = [[1, [n, "x" * 1024]] for n in range(3000)]
    return steps + [(subscribe("notes"), [ok(sub=1), {"changes": shown, "session": 1, "sub": 1}])]


def load(name: str, rows: list[Row]) -> Steps:
    """The rows, written in batches."""
    return [(insert(name, rows[at : at + 1000]), ok()) for at in range(0, len(rows), 1000)]


NUMBERS = [["k", "int"], ["n", "int"]]


def self_join() -> Steps:
    """A view of 65,536 rows of one key, each joined with all of them, is refused, and the session goes on."""
    steps: Steps = [(begin(1), ok()), (create_table("t", NUMBERS), ok())] + load("t", [[1, n] for n in range(65536)])
    return steps + [
        (create_view("v", "select a.n as x, b.n as y from t a join t b on a.k = b.k"), ok()),
        (subscribe("v"), refused(17)),
        (insert("t", [[1, 65536]]), refused(17)),
        (create_view("w", "select k, count(*) as n from t group by k"), ok()),
        (subscribe("w"), [ok(sub=1), {"changes": [[1, [1, 65536]]], "session": 1, "sub": 1}]),
    ]


def batches_beyond() -> Steps:
    """Batches that make a join too large are refused, and change nothing: the rows that fit come in afterwards."""
    steps: Steps = [(begin(1), ok()), (create_table("a", NUMBERS), ok()), (create_table("b", NUMBERS), ok())]
    steps += load("b", [[1, n] for n in range(60000)])
    steps += [(create_view("v", "select a.n as x, b.n as y from a join b on a.k = b.k"), ok()), (subscribe("v"), ok(sub=1))]
    for rows in (2, 20, 100, 1000):
        steps += [(insert("a", [[1, n] for n in range(rows)]), refused(17)), (insert("a", [[2, rows]]), ok())]
    joined = {"changes": [[1, [7, n]] for n in range(60000)], "session": 1, "sub": 1}
    return steps + [(insert("a", [[1, 7]]), [ok(), joined]), (insert("a", [[1, 8]]), refused(17))]


def chain() -> Steps:
    """Of eight sources in a row the third join is too large: it is refused, and a chain of two joins is not."""
    steps: Steps = [(begin(1), ok())]
    for name in "abcdefgh":
        steps += [(create_table(name, NUMBERS), ok()), (insert(name, [[1, n] for n in range(40)]), ok())]
    joins = "".join(f" join {name} on a.k = {name}.k" for name in "bcdefgh")
    steps += [(create_view("eight", f"select a.n as x from a{joins}"), ok()), (subscribe("eight"), refused(17))]
    three = "select a.k from a join b on a.k = b.k join c on a.k = c.k"
    shown = {"changes": [[64000, [1]]], "session": 1, "sub": 1}
    return steps + [(create_view("three", three), ok()), (subscribe("three"), [ok(sub=1), shown])]


def sides_change() -> Steps:
    """Rows of a key go on the right while as many come on the left: no pair is there before or afterwards, and none is formed."""
    side = [["side", "int"], ["k", "int"], ["n", "int"]]
    steps: Steps = [(begin(1), ok()), (create_table("t", side), ok()), (insert("t", [[2, 1, n] for n in range(1000)]), ok())]
    steps += [(create_view("l", "select k, n from t where side = 1"), ok()), (create_view("r", "select k, n from t where side = 2"), ok())]
    steps += [(create_view("v", "select l.n as x, r.n as y from l join r on l.k = r.k"), ok()), (subscribe("v"), ok(sub=1))]
    moves = [{"on": "t", "update": [[2, 1, n], [1, 1, n]]} for n in range(1000)]
    back = [{"on": "t", "update": [[1, 1, n], [2, 1, n]]} for n in range(1000)]
    steps += [({"do": "write", "entries": moves, "session": 1}, ok()), ({"do": "write", "entries": back, "session": 1}, ok())]
    joined = {"changes": [[1, [5, n]] for n in range(1000) if n != 5], "session": 1, "sub": 1}
    return steps + [({"do": "write", "entries": [moves[5]], "session": 1}, [ok(), joined])]


def text(value: Any) -> str:
    if isinstance(value, str):
        return value
    return json.dumps(value, sort_keys=True, separators=(",", ":"), ensure_ascii=False) + "\n"


def little() -> None:
    """What a request may take that has to be refused before its rows are formed."""
    resource.setrlimit(resource.RLIMIT_AS, (256 << 20, 256 << 20))
    resource.setrlimit(resource.RLIMIT_CPU, (10, 10))


def passes(limit: Callable[[], Steps], allow: Callable[[], None] | None = None) -> bool:
    steps = limit()
    requests = "".join(text(request) for request, _ in steps)
    wanted = "".join(text(line) for _, answer in steps for line in (answer if isinstance(answer, list) else [answer]))
    words = ["replay", *WORDS.get(limit, [])]
    done = subprocess.run([PROGRAM, *words], input=requests.encode(), stdout=subprocess.PIPE, timeout=SECONDS, preexec_fn=allow)
    if (done.returncode, done.stdout) == (0, wanted.encode()):
        return True
    found, lines = done.stdout.decode().splitlines(), wanted.splitlines()
    place = next((n for n, pair in enumerate(zip(found, lines)) if pair[0] != pair[1]), min(len(found), len(lines)))
    print(f"limits: {limit.__name__}, status {done.returncode}, answer {place + 1}", file=sys.stderr)
    print(f"  wanted {lines[place:place + 1]!r:.500}\n  found  {found[place:place + 1]!r:.500}", file=sys.stderr)
    return False


def is_out_of_range(rows: int) -> bool:
    """Whether the program says that this is no row limit, and ends with status 1."""
    done = subprocess.run([PROGRAM, "replay", "--rows", str(rows)], stdin=subprocess.DEVNULL, capture_output=True, timeout=SECONDS)
    if (done.returncode, done.stdout) == (1, b"") and f"invalid value '{rows}'".encode() in done.stderr:
        return True
    print(f"limits: --rows {rows}, status {done.returncode}, {done.stderr!r:.500}", file=sys.stderr)
    return False


LIMITS = [sessions, roles, memberships, tables, views, subscriptions, policies, nodes, sources, texts, columns]
LIMITS += [values, entries, rows, node_rows, ended_by_limit, answers]
LIMITS += [each_write, each_row, each_length]
LIMITS += [least_rows, ended_by_the_least, most_rows]
OUT_OF_RANGE = [0, 1023, 1048577, 4294967296]
BEYOND = [self_join, batches_beyond, chain, sides_change]


def main(_: list[str]) -> int:
    failed = sum(not passes(limit) for limit in LIMITS) + sum(not passes(limit, little) for limit in BEYOND)
    failed += sum(not is_out_of_range(rows) for rows in OUT_OF_RANGE)
    print(f"limits: {len(LIMITS) + len(BEYOND) + len(OUT_OF_RANGE)} inputs, {failed} failed")
    return 1 if failed else 0
