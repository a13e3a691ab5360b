"""The processor time and the peak memory of batches that a limit refuses, beside accepted batches of the same size.

A table b has 60,000 rows of one key, and an open view joins a table a with it. A batch of 2, 20, 100 or 1,000 rows of that key
into a makes the view too large and is refused; a batch of as many rows of another key is accepted, and so is the one that takes
them out again. Each is sent many times, and a time is the median of three runs without the lines before the batches.
The subscribes at the end are to a table of 65,536 rows of one key joined with itself by that key, which is refused, and by another
column, which is accepted. VIEWD names another program to run.
"""
import sys

from viewd_bench.measure import Run, own_program, part_of
from viewd_bench.workloads import WRITE, Request, begun, request, write

BATCHES = {2: 5_000, 20: 1_000, 100: 200, 1_000: 40}
MOST = 3.0


def table(name: str, rows: int) -> list[Request]:
    """A table in which all rows have one key, and a number each."""
    loads = [write(name, "insert", [[1, n] for n in range(at, min(at + WRITE, rows))]) for at in range(0, rows, WRITE)]
    return [request("create_table", name=name, owner="admin", columns=[["k", "int"], ["n", "int"]])] + loads


def view(name: str, query: str) -> Request:
    return request("create_view", name=name, owner="admin", query=query)


def cost(program: str, before: list[Request], lines: list[Request], is_refused: bool) -> tuple[float, int]:
    """Processor seconds of a line, the median of three runs, and the peak memory; a limit refuses each line, or none."""
    seconds, peaks = [], []
    for _ in range(3):
        run = Run(program)
        run.tell(part_of(before))
        told = run.tell(part_of(lines))
        if (told.limits, told.ok) != ((len(lines), 0) if is_refused else (0, len(lines))):
            sys.exit(f"refused: of {len(lines)} lines {told.ok} were accepted and {told.limits} refused by a limit")
        seconds.append(told.seconds / len(lines))
        peaks.append(run.peak())
        run.end()
    return sorted(seconds)[1], max(peaks)


def compared(program: str, title: str, before: list[Request], refused: list[Request], accepted: list[Request]) -> float:
    """How many times the cost of the accepted lines the refused ones take, in time or memory."""
    (time, memory), (usual, room) = cost(program, before, refused, True), cost(program, before, accepted, False)
    told = [f"{name} {seconds * 1e6:,.1f} us and {peak / 1e6:.1f} MB" for name, seconds, peak in (("refused", time, memory), ("accepted", usual, room))]
    print(f"{title}: {', '.join(told)}: {time / usual:.2f} times", flush=True)
    return max(time / usual, memory / room)


def main(words: list[str]) -> int | str | None:
    if words:
        return __doc__
    program = own_program()
    joined = view("v", "select a.n as x, b.n as y from a join b on a.k = b.k")
    before = begun(table("a", 0), table("b", 60_000), [joined, request("subscribe", on="v")])
    worst = []
    for rows, batches in BATCHES.items():
        same, other = ([[key, n] for n in range(rows)] for key in (1, 2))
        accepted = [write("a", kind, other) for _ in range(batches // 2) for kind in ("insert", "delete")]
        worst.append(compared(program, f"{rows:5} rows", before, [write("a", "insert", same)] * batches, accepted))
    query = "select a.n as x, b.n as y from t a join t b on a.{0} = b.{0}"
    alone = begun(table("t", 65_536), [view("v", query.format("k")), view("w", query.format("n"))])
    worst.append(compared(program, "self-join", alone, [request("subscribe", on="v")], [request("subscribe", on="w")]))
    print(f"refused: at most {max(worst):.2f} times, {MOST} asked")
    return 0 if max(worst) <= MOST else 1
