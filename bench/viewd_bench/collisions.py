"""The processor time of inserting rows that fall together under the kit's hasher without a seed, beside rows of random numbers.

The numbers of a colliding row are chosen so that the hasher's state after them is the same whatever the first of them is. They
come as rows of a table that nobody reads, as the groups of a view that is subscribed, and as the keys of both sides of a join that is
subscribed. Each line has the size, the microseconds of a row of either kind, and their ratio, which has to stay under 1.3; below
each kind is the slope of the cost over the size on a log-log scale: near 1 if each row costs the same, near 2 if each
row is compared with all others. A time is the least of the rounds, in which the two take turns, since other work on the machine
only adds. VIEWD names another program.
"""
import argparse
import random
import sys

from viewd_bench.measure import Run, own_program, part_of, slope
from viewd_bench.workloads import Request, Row, begun, request, subscribed, view, write

SIZES = (1_000, 4_000, 16_000, 60_000)
MOST = 1.3
# rows of a write: a line has at most 65,536 bytes
WRITE = 500
# the kit's FoldHasher: its first state, and the multiplier of a write of 8 bytes
START, MULTIPLIER = 0x243F6A8885A308D3, 0x9E3779B97F4A7C15 ^ 16
# the length of a row of two, and the place of an int among the kinds of values
LENGTH, INT = 2, 0


def fed(state: int, word: int) -> int:
    product = (state ^ word) * MULTIPLIER
    return (product ^ product >> 64) & (1 << 64) - 1


def colliding(first: int) -> Row:
    """The row whose second number is the state that it meets, so that the state after it is 0."""
    state = START
    for word in (LENGTH, INT, first, INT):
        state = fed(state, word)
    return [first, state - (state >> 63 << 64)]


def rows_of(size: int, collide: bool) -> list[Row]:
    numbers = random.Random(size)
    firsts = numbers.sample(range(1 << 62), size)
    return [colliding(it) if collide else [it, numbers.randrange(-1 << 63, 1 << 63)] for it in firsts]


def table(name: str) -> list[Request]:
    return [request("create_table", name=name, owner="admin", columns=[["a", "int"], ["b", "int"]])]


def loads(rows: list[Row], *names: str) -> list[Request]:
    return [write(name, "insert", rows[at : at + WRITE]) for at in range(0, len(rows), WRITE) for name in names]


GROUPED = "select a, b, count(*) as n from t group by a, b"
JOINED = "select t.a, u.b from t join u on t.a = u.a and t.b = u.b"
KINDS = {
    "rows of a table": (begun(table("t")), ["t"]),
    "groups": (begun(table("t"), view(GROUPED), subscribed("shown")), ["t"]),
    "keys of a join": (begun(table("t"), table("u"), view(JOINED), subscribed("shown")), ["t", "u"]),
}


def seconds(program: str, before: list[Request], lines: list[Request]) -> float:
    run = Run(program)
    told = [run.tell(part_of(before)), run.tell(part_of(lines))]
    run.end()
    if [it.ok for it in told] != [len(before), len(lines)]:
        sys.exit(f"bench: {told[0].ok} and {told[1].ok} of {len(before)} and {len(lines)} requests were answered by ok")
    return told[1].seconds


def main(words: list[str]) -> int | str:
    parser = argparse.ArgumentParser(prog="bench/run collisions", description=__doc__, formatter_class=argparse.RawDescriptionHelpFormatter)
    parser.add_argument("--rounds", metavar="N", type=int, default=3)
    parser.add_argument("--sizes", metavar="N", type=int, nargs="+", default=SIZES)
    options = parser.parse_args(words)
    program, worst = own_program(), 0.0
    for kind, (before, names) in KINDS.items():
        print(f"{kind}: size, microseconds of a row that collides, of another, ratio")
        costs: tuple[list[float], list[float]] = ([], [])
        for size in options.sizes:
            pair = [loads(rows_of(size, collide), *names) for collide in (True, False)]
            rounds = [[seconds(program, before, lines) for lines in pair] for _ in range(options.rounds)]
            both = [min(found) for found in zip(*rounds)]
            for found, cost in zip(costs, both):
                found.append(cost)
            worst = max(worst, both[0] / both[1])
            print(f"{size:7} {both[0] / size * 1e6:9.2f} {both[1] / size * 1e6:9.2f} {both[0] / both[1]:7.2f}", flush=True)
        if len(options.sizes) > 1:
            print(f"  slope {slope(options.sizes, costs[0]):9.2f} {slope(options.sizes, costs[1]):9.2f}")
    return 0 if worst <= MOST else f"bench: a colliding row costs {worst:.2f} times what another does"
