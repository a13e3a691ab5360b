"""What bench/run measured, as tables and a plot."""
import dataclasses
import os
from collections.abc import Iterable

from viewd_bench.measure import TOP, slope
from viewd_bench.plot import Panel, svg
from viewd_bench.workloads import Workload

OWN, OTHER, POSTGRESQL = "viewd", "the other", "PostgreSQL"
BEGIN, END = "<!-- What bench/run printed: -->\n", "<!-- The end of what it printed. -->\n"


@dataclasses.dataclass
class Result:
    """What a line of a workload took at a size: microseconds, megabytes at most, and requests for memory, by the program's name."""

    workload: Workload
    size: int
    micros: dict[str, float]
    peaks: dict[str, float]
    requests: dict[str, float]

    def cells(self, names: list[str]) -> dict[str, str]:
        """The columns of the table of costs, by their heads; names are those of all programs."""
        cells = {"workload": self.workload.name, "size": f"{self.size:,} {self.workload.counts}"}
        cells.update({f"{name}, us": number(self.micros.get(name)) for name in names})
        for name in names[1:]:
            cells[f"{name} / viewd"] = number(self.micros[name] / self.micros[OWN]) if name in self.micros else ""
        cells.update({f"{name}, MB": number(peak) for name, peak in self.peaks.items()})
        cells.update({f"{name}, requests for memory": number(count) for name, count in self.requests.items()})
        return cells


def number(value: float | None) -> str:
    if value is None:
        return ""
    return f"{value:,.0f}" if value >= 100 else f"{value:.1f}" if value >= 10 else f"{value:.2f}"


def table(rows: list[dict[str, str]]) -> str:
    """Rows of cells by their heads, as Markdown."""
    lines = [list(rows[0]), ["---"] * len(rows[0]), *(row.values() for row in rows)]
    return "".join(f"| {' | '.join(line)} |\n" for line in lines)


def by_workload(results: Iterable[Result]) -> dict[Workload, list[Result]]:
    """The results of each workload, in their order."""
    lists: dict[Workload, list[Result]] = {}
    for it in results:
        lists.setdefault(it.workload, []).append(it)
    return lists


def slope_of(name: str, results: list[Result]) -> str:
    """The slope of log cost over log size, if the program was measured."""
    if any(name not in it.micros for it in results):
        return ""
    return f"{slope([it.size for it in results], [it.micros[name] for it in results]):.2f}"


def tables(results: list[Result], names: list[str]) -> str:
    """What is measured, what it took, and how that grows."""
    lists = by_workload(results)
    what = [{"workload": it.name, "what is measured": it.says, "microseconds and requests are of": it.cost_of} for it in lists]
    slopes = [{"workload": it.name, "slope over": it.counts, **{name: slope_of(name, ones) for name in names}} for it, ones in lists.items()]
    return "\n".join(map(table, [what, [it.cells(names) for it in results], slopes]))


def plot(results: list[Result], names: list[str]) -> str:
    panels: list[Panel] = []
    for it, ones in by_workload(results).items():
        series = {name: [(float(one.size), one.micros[name]) for one in ones] for name in names if all(name in one.micros for one in ones)}
        panels.append((it.name, it.cost_of, it.counts, series))
    return svg(names, panels)


def document(printed: str, drawn: str) -> None:
    """Puts the tables and the plot into docs."""
    path = os.path.join(TOP, "docs", "PERFORMANCE.md")
    with open(path, encoding="utf-8") as file:
        head, _, rest = file.read().partition(BEGIN)
    with open(path, "w", encoding="utf-8") as file:
        file.write(f"{head}{BEGIN}\n{printed}\n{END}{rest.partition(END)[2]}")
    with open(os.path.join(TOP, "docs", "performance.svg"), "w", encoding="utf-8") as file:
        file.write(drawn)
