"""The request files of bench/run: for each workload the requests before its measured lines, and these lines.

A table's rows are [id, who, amount]: the id is the row's number, `who` goes round 16 readers, and the amount round 1,000
numbers. A measured batch takes a row out or puts it back, in turn, so a table has its size again after two; the rows are taken
from all over the table.
"""
import dataclasses
import json
from collections.abc import Callable, Iterable, Iterator
from typing import Any

# a request as it is written, the values of a row, and what makes the requests of a size
Request = dict[str, Any]
Row = list[Any]
Made = Callable[[int], Iterable[Request]]

READERS = [f"r{n}" for n in range(16)]
SIZES = (1_000, 8_192, 65_536)
# with --largest: more than 65,536 rows need another row limit
LARGEST = (1_000, 65_536, 1_000_000)
SUBSCRIPTIONS = (256, 1_024, 3_840)
# rows of the largest write
WRITE = 1_000
# subscriptions of a session
MOST = 16


def request(do: str, session: int = 1, **keys: Any) -> Request:
    return {"do": do, "session": session, **keys}


def text_of(requests: Iterable[Request]) -> bytes:
    return "".join(json.dumps(line) + "\n" for line in requests).encode()


def row(n: int) -> Row:
    return [n, READERS[n % len(READERS)], n % 1_000]


def write(name: str, kind: str, rows: Iterable[Row]) -> Request:
    return request("write", entries=[{"on": name, kind: values} for values in rows])


def roles(names: Iterable[str]) -> list[Request]:
    return [request("create_role", name=name) for name in names]


def table(name: str, size: int, first: int = 0) -> list[Request]:
    """A table of so many rows."""
    numbers = range(first, first + size)
    columns = [["id", "int"], ["who", "text"], ["amount", "int"]]
    loads = [write(name, "insert", map(row, numbers[at : at + WRITE])) for at in range(0, size, WRITE)]
    return [request("create_table", name=name, owner="admin", columns=columns)] + loads


def readable(*names: str) -> list[Request]:
    """Lets all roles read."""
    return [request("grant", on=name, to="public", privileges=["select"]) for name in names]


def own_rows(name: str) -> list[Request]:
    """Lets each role read its own rows alone."""
    return [
        request("row_security", on=name, enable=True, force=False),
        request("create_policy", on=name, name="own", using="who = current_user"),
    ]


def restricted(**keys: Any) -> Request:
    return request("create_policy", on="a", name="few", restrictive=True, **keys)


def view(query: str) -> list[Request]:
    return [request("create_view", name="shown", owner="admin", query=query)] + readable("shown")


def subscribed(name: str, readers: Iterable[str] = ("admin",), times: int = 1) -> list[Request]:
    """A session for each reader, and so many subscriptions in each."""
    lines = []
    for session, role in enumerate(readers, 2):
        lines += [request("begin", session, role=role)] + [request("subscribe", session, on=name)] * times
    return lines


def begun(*parts: Iterable[Request]) -> list[Request]:
    """The requests of all parts, by the administrator if they name no session."""
    return [request("begin", role="admin")] + [line for part in parts for line in part]


def batches(count: int, rows: int = 1, name: str = "a") -> Made:
    """So many batches for a size: in turn they take rows out of the table and put them back."""

    def lines(size: int) -> Iterator[Request]:
        for n in range(count // 2):
            numbers = range(n, n + 1) if rows == 1 else range(n * rows, (n + 1) * rows)
            # 7,919 is a prime, so `rows` numbers in turn give rows that differ
            taken = [row(number * 7_919 % size) for number in numbers]
            yield write(name, "delete", taken)
            yield write(name, "insert", taken)

    return lines


def over_sums(size: int) -> list[Request]:
    sums = "select amount, sum(id) as total, count(*) as n from a group by amount"
    return begun(roles(READERS), table("a", size), readable("a"), own_rows("a"), view(sums), subscribed("shown", READERS))


def over_join(size: int) -> list[Request]:
    joined = "select a.id, b.who, b.amount from a join b on a.id = b.id"
    return begun(table("a", size), table("b", size), view(joined), subscribed("shown"))


def over_sets(size: int) -> list[Request]:
    """Half of the one table's rows are in the other."""
    query = "select id from a except select id from b union select distinct amount from b"
    return begun(table("a", size), table("b", size, size // 2), view(query), subscribed("shown"))


def over_policies(size: int) -> list[Request]:
    policies = own_rows("a") + [restricted(using="id >= 0")]
    return begun(roles(READERS), table("a", size), readable("a"), policies, subscribed("a", READERS))


def over_roles(size: int) -> list[Request]:
    names = [f"s{n}" for n in range(64)]
    return begun(roles(names), table("a", size), readable("a"), subscribed("a", names))


def over_own_rows(size: int) -> list[Request]:
    return begun(roles(READERS), table("a", size), readable("a"), own_rows("a"), subscribed("a", READERS))


def over_others(subscriptions: int) -> list[Request]:
    """Roles of 16 subscriptions each, to 16 tables of ten rows; and a table of 1,000 rows that nobody reads."""
    names = [f"s{n}" for n in range(subscriptions // MOST)]
    others = [f"t{n}" for n in range(MOST)]
    lines = begun(roles(names), table("a", 1_000), *(table(it, 10) for it in others), readable(*others))
    for session, name in enumerate(names, 2):
        lines += [request("begin", session, role=name)] + [request("subscribe", session, on=it) for it in others]
    return lines


def over_one_of_many(subscriptions: int) -> list[Request]:
    """The same, and one reader of the table."""
    return over_others(subscriptions) + readable("a") + [request("begin", 1_000, role="s0"), request("subscribe", 1_000, on="a")]


def changes_of_policies(size: int) -> Iterator[Request]:
    """A policy that hides one row of a thousand comes, and is dropped again."""
    for _ in range(max(10, 400_000 // size) // 2):
        yield restricted(using="amount <> 7")
        yield request("drop_policy", on="a", name="few")


def first_lines(size: int) -> Iterator[Request]:
    for n in range(max(10, 400_000 // size)):
        yield request("subscribe", 2, on="a")
        yield request("unsubscribe", 2, sub=n + 1)


@dataclasses.dataclass(frozen=True)
class Workload:
    """What is measured: `lines`, after the requests `before`, each by a size."""

    name: str
    says: str
    before: Made
    lines: Made
    # what the sizes count, and by what of it the cost of a line is divided
    counts: str = "rows"
    sizes: tuple[int, ...] = SIZES
    cost_of: str = "a line"
    shares: Callable[[int], float] = lambda size: 1
    # whether PostgreSQL is asked for the same
    is_evaluated: bool = True


FILTER = "select id, amount from a where amount < 500"
HALF = "half of a table's rows, `where amount < 500`; a batch of one row"
SUMS = "sums and counts by amount, for 16 readers of whom each sees its own rows by a policy; a batch of one row"
FAN_OUT = "subscriptions to one table, 16 a session; a batch of one row, so a line of changes for each"
APART = "a batch of one row into a table that nobody reads, while so many subscriptions of roles of 16 each watch 16 others"
ONE_OF_MANY = "the same, where one reader more watches that table"
POLICIES = "a restrictive policy that hides a row of a thousand from 16 readers comes, or goes"

WORKLOADS = [
    Workload(
        "filter",
        HALF,
        lambda size: begun(table("a", size), view(FILTER), subscribed("shown")),
        batches(40_000),
    ),
    Workload("sums", SUMS, over_sums, batches(20_000)),
    Workload("join", "two tables of so many rows, joined by their ids; a batch of one row", over_join, batches(20_000)),
    Workload("sets", "`except` of two tables, `union distinct`; a batch of one row", over_sets, batches(20_000)),
    Workload("readers", "16 readers of a table under a permissive and a restrictive policy; a batch of one row", over_policies, batches(20_000)),
    Workload("roles", "64 roles that read one table without row security; a batch of one row", over_roles, batches(2_000)),
    Workload(
        "fan-out",
        FAN_OUT,
        lambda count: begun(table("a", 0), subscribed("a", ["admin"] * (count // MOST), MOST)),
        lambda count: [write("a", kind, [row(0)]) for _ in range(400_000 // count) for kind in ("insert", "delete")],
        counts="subscriptions",
        sizes=SUBSCRIPTIONS,
        cost_of="a subscription's line",
        shares=lambda count: count,
        is_evaluated=False,
    ),
    Workload(
        "apart",
        APART,
        over_others,
        lambda count: batches(20_000)(1_000),
        counts="subscriptions",
        sizes=SUBSCRIPTIONS,
        is_evaluated=False,
    ),
    Workload(
        "one-of-many",
        ONE_OF_MANY,
        over_one_of_many,
        lambda count: batches(20_000)(1_000),
        counts="subscriptions",
        sizes=SUBSCRIPTIONS,
        is_evaluated=False,
    ),
    Workload(
        "batches",
        "1,000 rows out of a table with 16 subscriptions, or back",
        lambda size: begun(table("a", size), subscribed("a", times=MOST)),
        batches(60, WRITE),
        cost_of="a row of a batch",
        shares=lambda size: WRITE,
    ),
    Workload("policies", POLICIES, over_own_rows, changes_of_policies),
    Workload(
        "first-lines",
        "a table's only reader subscribes and unsubscribes, in turn",
        lambda size: begun(table("a", size), [request("begin", 2, role="admin")]),
        first_lines,
        cost_of="a row that is sent",
        # every other line sends all rows
        shares=lambda size: size / 2,
        is_evaluated=False,
    ),
    Workload(
        "inserts",
        "rows into an empty table that nobody reads, one a line",
        lambda size: begun(table("a", 0)),
        lambda size: [write("a", "insert", [row(n)]) for n in range(size)],
        is_evaluated=False,
    ),
]
