"""A plot of small panels, each with lines over two logarithmic axes, as the text of an SVG."""
import html
import math
from collections.abc import Iterable

# a title, what its y and its x are of, and points by name
Point = tuple[float, float]
Panel = tuple[str, str, str, dict[str, list[Point]]]
WIDE, HIGH = 250, 190
LEFT, RIGHT, ABOVE, BELOW = 48, 22, 34, 34
ACROSS = 4
COLOURS = ["#0b5cad", "#c2570c", "#4d7d2f"]
DASHES = ["", "6 3", "2 3"]
INK, PALE = "#222222", "#dddddd"


def text(x: float, y: float, words: str, anchor: str = "middle", size: int = 11, colour: str = INK, weight: str = "normal") -> str:
    style = f'font-size="{size}" text-anchor="{anchor}" fill="{colour}" font-weight="{weight}"'
    return f'<text x="{x:.1f}" y="{y:.1f}" {style}>{html.escape(words)}</text>'


def line(points: Iterable[Point], colour: str, width: float = 1.0, dashes: str = "") -> str:
    places = " ".join(f"{x:.1f},{y:.1f}" for x, y in points)
    return f'<polyline points="{places}" fill="none" stroke="{colour}" stroke-width="{width}" stroke-dasharray="{dashes}"/>'


def short(number: float) -> str:
    return next((f"{number / size:g}{sign}" for size, sign in ((1e6, "M"), (1e3, "k")) if number >= size), f"{number:g}")


class Axis:
    """Logarithms of numbers, brought to a stretch of the panel."""

    def __init__(self, numbers: list[float], begin: float, end: float) -> None:
        logs = [math.log10(it) for it in numbers]
        self.low, self.high = math.floor(min(logs)), math.ceil(max(logs))
        self.high = max(self.high, self.low + 1)
        self.begin, self.end = begin, end

    def place(self, number: float) -> float:
        share = (math.log10(number) - self.low) / (self.high - self.low)
        return self.begin + share * (self.end - self.begin)

    def decades(self) -> list[float]:
        return [10.0**it for it in range(self.low, self.high + 1)]


def panel(given: Panel, left: float, top: float) -> tuple[list[str], list[list[Point]]]:
    """One panel without its lines, and these as points of the drawing."""
    title, cost, counts, series = given
    points = [point for one in series.values() for point in one]
    xs = Axis([x for x, _ in points], left + LEFT, left + WIDE - RIGHT)
    ys = Axis([y for _, y in points], top + HIGH - BELOW, top + ABOVE)
    parts = [text(xs.begin, top + 24, title, "start", 13, weight="bold"), text(xs.end, top + 24, cost, "end", 10)]
    for y in ys.decades():
        parts += [line([(xs.begin, ys.place(y)), (xs.end, ys.place(y))], PALE), text(xs.begin - 6, ys.place(y) + 4, short(y), "end", 10)]
    for x in xs.decades():
        parts += [line([(xs.place(x), ys.begin), (xs.place(x), ys.end)], PALE), text(xs.place(x), ys.begin + 14, short(x), size=10)]
    parts.append(text((xs.begin + xs.end) / 2, ys.begin + 28, counts, size=10))
    return parts, [[(xs.place(x), ys.place(y)) for x, y in one] for one in series.values()]


def svg(names: list[str], panels: list[Panel]) -> str:
    """The panels in rows, below the names of their series."""
    rows = math.ceil(len(panels) / ACROSS)
    wide, high = ACROSS * WIDE, rows * HIGH + 44
    parts = [f'<rect width="{wide}" height="{high}" fill="white"/>']
    for place, name in enumerate(names):
        x = LEFT + place * 220
        parts += [line([(x, 20), (x + 30, 20)], COLOURS[place], 2, DASHES[place]), text(x + 38, 24, name, "start", 12)]
    parts.append(text(wide - RIGHT, 24, "microseconds of processor time, over the size", "end", 12))
    for place, it in enumerate(panels):
        drawn, lines = panel(it, place % ACROSS * WIDE, 44 + place // ACROSS * HIGH)
        parts += drawn
        for name, points in zip(it[-1], lines):
            colour, dashes = (kind[names.index(name)] for kind in (COLOURS, DASHES))
            parts.append(line(points, colour, 2, dashes))
            parts += [f'<circle cx="{x:.1f}" cy="{y:.1f}" r="3" fill="{colour}"/>' for x, y in points]
    head = f'<svg xmlns="http://www.w3.org/2000/svg" viewBox="0 0 {wide} {high}" font-family="sans-serif">'
    return "\n".join([head, *parts, "</svg>", ""])
