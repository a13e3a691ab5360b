"""The bytes of memory that a row takes: in a table, in the circuit of a reader, in the steps of views and in the indexes of a join.

Rows are those of viewd_bench.workloads, of a number, a text of two or three letters and a number. Each figure is of the memory that
the program has at the end (the resident set), divided by the rows, less that of the line which it names: what the one has and the
other has not. The least and the greatest of sizes tell how the space of maps, which doubles, makes it differ. VIEWD names another
program to run.

    bench/run memory [ROWS ..]          65,536 and 1,000,000 if none is said
"""
from collections.abc import Iterable

from viewd_bench.measure import Run, own_program, part_of
from viewd_bench.workloads import Made, Request, begun, subscribed, table, view

ALL = "select id, who, amount from a"
NONE = "select id, who, amount from a where amount < 0"


def joined(on: str) -> str:
    """A join without rows, as the other table is empty."""
    return f"select a.id, b.amount from a join b on a.{on} = b.{on}"


def shown(query: str) -> Made:
    return lambda rows: begun(table("a", rows), table("b", 0), view(query), subscribed("shown"))


# what is measured, its requests, and what is taken off
CASES: list[tuple[str, Made, str | None]] = [
    ("a table that nobody reads", lambda rows: begun(table("a", rows), table("b", 0)), None),
    ("a table's reader: the circuit's rows", lambda rows: begun(table("a", rows), table("b", 0), subscribed("a")), "a table that nobody reads"),
    ("a scan below a filter that lets nothing through", shown(NONE), "a table that nobody reads"),
    ("a projection that shows all", shown(ALL), "a scan below a filter that lets nothing through"),
    ("an index, one row a key", shown(joined("id")), "a scan below a filter that lets nothing through"),
    ("an index, 16 keys", shown(joined("who")), "a scan below a filter that lets nothing through"),
    ("groups of one row, with a sum", shown("select id, sum(amount) as total from a group by id"), "a scan below a filter that lets nothing through"),
]


def resident(program: str, requests: Iterable[Request]) -> int:
    run = Run(program, ["--rows", "1048576"])
    run.tell(part_of(requests))
    with open(f"/proc/{run.child.pid}/status", encoding="ascii") as file:
        size = next(int(line.split()[1]) * 1024 for line in file if line.startswith("VmRSS"))
    run.end()
    return size


def main(words: list[str]) -> int | str | None:
    if not all(word.isdigit() for word in words):
        return __doc__
    program, sizes = own_program(), [int(word) for word in words] or [65_536, 1_000_000]
    print("| bytes a row, of " + " | ".join(f"{rows:,} rows" for rows in sizes) + " |")
    print("| --- " * (len(sizes) + 1) + "|")
    empty = resident(program, begun(table("a", 0), table("b", 0)))
    found: dict[str, list[int]] = {}
    for name, requests, less in CASES:
        found[name] = [resident(program, list(requests(rows))) for rows in sizes]
        rest = found[less] if less else [empty] * len(sizes)
        print(f"| {name} | " + " | ".join(f"{(size - other) / rows:,.0f}" for rows, size, other in zip(sizes, found[name], rest)) + " |", flush=True)

    return 0
