"""Counts the lines that a reader has to believe, and compares docs/DEFINITIONS.md with what it counts.

usage: .ci/definitions             fails if they differ
       .ci/definitions --write     puts the right numbers in their places, and writes the tables of files and of questions

Under the headline are the files of specs/ that `answer` (iv_lines) and `AddsUpToView` (iv_machine) are made of: those that these two
files import, and so on. Two numbers are told: all lines of these files, and those that are neither blank nor imports nor comments.
Each file of specs/ is in a table once, with its number of lines: those under the headline, those that say what a crate promises by itself, and
those that nobody has to believe. docs/definitions.toml says which of the latter two a file is, and what public source it has. What a table
says of a file is the first sentence at its head, and the names are those that it gives to others.

For the gateway definitions are counted one by one: those that `HoldAlways` (iv_gate) names, that these name, and so on, but for those in
files under the headline. `next` is what the code does, so its own definition is left out, and what it alone names. `asked` is left out too,
and the law that says what it is comes in its place. The lines of a definition are those that are neither blank nor comments.

docs/definitions.toml has questions, too, each with its answer and the definitions that answer it, CRATE.FILE.NAME or CRATE.FILE.NAME.FIELD: the page
leads to the lines at which these are.
"""
import glob
import os
import re
import sys
import tomllib
from collections.abc import Iterable, Mapping
from typing import Any

from viewd_ci.common import TOP, contents, first_sentence, write

PAGE = "docs/DEFINITIONS.md"
CLASSES = "docs/definitions.toml"
HEADLINE = [("iv_lines", "Answer"), ("iv_machine", "Reached")]
BEGIN, END = "<!-- By .ci/definitions: -->\n", "<!-- The end of what .ci/definitions wrote. -->"
ASKED, ANSWERED = "<!-- By .ci/definitions, of docs/definitions.toml: -->\n", "<!-- The end of the questions. -->"
SUMS = re.compile(r"rests on \*\*([\d,]+) lines\*\*, ([\d,]+) of them")
# a file of specs/ with its crate; a definition that is imported from one, or the whole file
Place = tuple[str, str]
Import = tuple[str, str, str | None]
Named = tuple[str, str, str]
GATEWAY: Named = ("iv_gate", "Laws", "HoldAlways")
# what is left out, and what is believed in its place
IN_PLACE: dict[Named, Named | None] = {("iv_gate", "Events", "next"): None, ("iv_message", "Message", "asked"): ("iv_message", "Meaning", "OneMeaning")}
GATEWAY_SUMS = re.compile(r"rest on \*\*([\d,]+) lines\*\* of definitions, and with all of `next` and `asked` on ([\d,]+)")
USE = re.compile(r"(?:pub )?use Rattle\.(\w+)\.specs\.(\w+)(?:\.\{(.*)\})?(?: as (\w+))?$")
HEAD = re.compile(r"(?:(?:abbrev|unfoldable|pub|mutual) )*(record |data )?(?:pub )?([^\s:]+)")
WORD = re.compile(r"[^\s(){},;\[\]]+")


def spec(crate: str, name: str) -> str:
    return os.path.join("crates", crate, "specs", f"{name}.antt")


def lines(crate: str, name: str) -> list[str]:
    return contents(spec(crate, name)).removesuffix("\n").split("\n")


def is_there(crate: str, name: str) -> bool:
    return os.path.exists(os.path.join(TOP, spec(crate, name)))


def has_meaning(line: str) -> bool:
    return bool(line.strip()) and not re.match(r"\s*--|(pub )?use ", line)


def imported(crate: str, name: str) -> set[Place]:
    """The files of specs/ that a file imports."""
    found = re.findall(r"^(?:pub )?use Rattle\.(\w+)\.specs\.(\w+)", contents(spec(crate, name)), re.MULTILINE)
    return {it for it in found if is_there(*it)}


def needed() -> set[Place]:
    """The headline's files, and all that they import."""
    found: set[Place] = set()
    ahead = list(HEADLINE)
    while ahead:
        it = ahead.pop()
        if it not in found:
            found.add(it)
            ahead += imported(*it)
    return found


class Definition:
    """A definition of a file of specs/: its lines that are neither blank nor comments, and the names that it gives."""

    def __init__(self, place: Place, line: str) -> None:
        self.crate, self.file = place
        self.kind, self.name = HEAD.findall(line)[0]
        self.lines: list[str] = []
        self.names = {self.name}

    def add(self, line: str) -> None:
        self.lines.append(line)
        case = re.match(r"\s+(\S+) :", line)
        if self.kind == "data " and case:
            self.names.add(case[1])


def is_head(line: str, last: Definition | None) -> bool:
    """Whether a line at the margin begins a definition, and is no clause of the last one, nor its closing brace."""
    return not line.startswith((" ", "}")) and not (last and line.split()[0] == last.name)


def definitions_in(place: Place, text: list[str]) -> tuple[dict[str, Definition], dict[str, Import]]:
    """The definitions of a file's lines by the names that they give, and the names that it imports, by what it calls them."""
    names: dict[str, Definition] = {}
    imports: dict[str, Import] = {}
    last: Definition | None = None
    for line in filter(has_meaning, text):
        if is_head(line, last):
            last = Definition(place, line)
        assert last
        last.add(line)
        names |= dict.fromkeys(last.names, last)
    for line in text:
        found = USE.match(line)
        if not found:
            continue
        for it in found[3].split(", ") if found[3] else []:
            imports[it.split(" as ")[-1]] = (found[1], found[2], it.split(" as ")[0])
        if not found[3]:
            imports[found[4] or found[2]] = (found[1], found[2], None)
    return names, imports


def line_of(text: list[str], name: str, field: str = "") -> int | None:
    """The line, counted from 1, at which a definition begins, or one of its fields or cases."""
    heads = [number for number, line in enumerate(text, 1) if line.strip() and not line.startswith((" ", "}", "--"))]
    first = next((it for it in heads if HEAD.findall(text[it - 1])[0][1] == name), None)
    if not first or not field:
        return first
    end = next((it for it in heads if it > first), len(text) + 1)
    return next((it for it in range(first + 1, end) if re.match(rf"\s+(pub )?{field} :", text[it - 1])), None)


def table(rows: Iterable[Iterable[str]]) -> str:
    return "".join(f"| {' | '.join(row)} |\n" for row in rows)


class Reading:
    """What is read of the files of specs/, and what is wrong with them or with docs/definitions.toml."""

    def __init__(self, kept: dict[str, Any]) -> None:
        self.questions: list[dict[str, Any]] = kept.get("question", [])
        self.classes, self.headline = {crate: it for crate, it in kept.items() if crate != "question"}, needed()
        found = glob.glob("crates/*/specs/*.antt", root_dir=TOP)
        self.there = {(it.split(os.sep)[1], os.path.basename(it)[:-5]) for it in found if not it.endswith("/Lib.antt")}
        self.files: dict[Place, tuple[dict[str, Definition], dict[str, Import]]] = {}
        self.failures: list[str] = []

    def read(self, place: Place) -> tuple[dict[str, Definition], dict[str, Import]]:
        if place not in self.files:
            self.files[place] = definitions_in(place, lines(*place))
        return self.files[place]

    def definition(self, crate: str, file: str, name: str | None) -> Definition | None:
        """The definition of a name: none if it is one of std or of another repository, or a type of the code."""
        if not is_there(crate, file):
            return None
        names, imports = self.read((crate, file))
        if name in names:
            return names[name]
        if name in imports:
            return self.definition(*imports[name])
        self.failures.append(f"{crate}: {file} has no definition {name}, which is imported from there")
        return None

    def named_by(self, it: Definition) -> set[Definition]:
        """The definitions that a definition names, but for itself."""
        names, imports = self.read((it.crate, it.file))
        found: set[Definition | None] = set()
        for word in WORD.findall(" ".join(it.lines)):
            first, _, rest = word.partition(".")
            if first in names:
                found.add(names[first])
            elif first in imports:
                crate, file, name = imports[first]
                name = name or rest.split(".")[0]
                found |= {self.definition(crate, file, name)} if name else set()
        return {other for other in found if other and other is not it}

    def believed(self, in_place: Mapping[Named, Named | None]) -> set[Definition]:
        """The definitions that the gateway's laws are made of, if some are left out for what comes in their place."""
        found: set[Definition] = set()
        ahead = [self.definition(*GATEWAY)]
        while ahead:
            it = ahead.pop()
            assert it
            place = (it.crate, it.file, it.name)
            if place in in_place:
                other = in_place[place]
                ahead += [self.definition(*other)] if other else []
            elif it not in found:
                found.add(it)
                ahead += self.named_by(it)
        return {it for it in found if (it.crate, it.file) not in self.headline}

    def given(self, place: Place) -> list[str]:
        """The definitions that a file gives to others."""
        found: list[str] = []
        for it in dict.fromkeys(self.read(place)[0].values()):
            if re.search(r"\bpub\b", it.lines[0]) and it.name not in found:
                found.append(it.name)
        return found

    def row(self, place: Place) -> list[str]:
        """What the table of files says of one: with its lines, what its head says, what it defines, and its source."""
        names = ", ".join(f"`{it}`" for it in self.given(place)).replace("|", "\\|")
        head = " ".join(it.removeprefix("-- ") for it in heading(lines(*place)))
        source = self.classes[place[0]].get("source", {}).get(place[1], "")
        return [f"[{'/'.join(place)}](../{spec(*place)}) {len(lines(*place))}", first_sentence(head), names, source]

    def answer(self, path: str) -> str:
        """A link to a definition, or to a field of one, at its line."""
        crate, file, *name = path.split(".")
        line = line_of(lines(crate, file), *name) if is_there(crate, file) else None
        if not line:
            self.failures.append(f"{CLASSES} has a question that {path} answers, which is not there")
        return f"[{file} {line}](../{spec(crate, file)}#L{line}) `{'.'.join(name)}`"

    def answers(self) -> str:
        """The table of questions."""
        rows = [[str(number), it["asks"], it["answer"], ", ".join(map(self.answer, it["by"]))] for number, it in enumerate(self.questions, 1)]
        return f"\n{table([['', 'a client asks', 'answer', 'by']])}|{'---|' * 4}\n{table(rows)}\n"

    def misplaced(self) -> list[str]:
        """What docs/definitions.toml lists in a wrong place, or not at all."""
        listed = [(crate, name) for crate, it in self.classes.items() for kind in ("promises", "skip") for name in it.get(kind, [])]
        known = {(crate, name) for crate, it in self.classes.items() for name in it.get("source", {})}
        wrong = {
            f"is in {CLASSES}, and is no file": {*listed} - self.there,
            f"is in {CLASSES} twice": {it for it in listed if listed.count(it) > 1},
            f"is under the headline, and is in {CLASSES} beside its source": {*listed} & self.headline,
            f"is not under the headline, and not in {CLASSES}": self.there - self.headline - {*listed},
            f"has a source in {CLASSES}, and is no file": known - self.there,
        }
        return [f"{crate}: {name} {what}" for what, found in wrong.items() for crate, name in sorted(found)]

    def tables(self) -> str:
        """The tables of files."""
        heads = ["file, and its lines", "what it says", "definitions", "source"]
        promises = [(crate, name) for crate, it in self.classes.items() for name in it.get("promises", []) if (crate, name) in self.there]
        headline = [it for crate in self.classes for it in sorted(self.headline) if it[0] == crate]
        skip = []
        for crate, it in self.classes.items():
            names = [f"{name} {len(lines(crate, name))}" for name in it.get("skip", []) if (crate, name) in self.there]
            skip += [[crate, ", ".join(names)]] if names else []
        made = {
            "Under the headline": (heads, map(self.row, headline)),
            "What crates promise by themselves": (heads, map(self.row, promises)),
            "What nobody has to believe": (["crate", "files, and their lines"], skip),
        }
        return "".join(f"\n### {title}\n\n{table([head])}|{'---|' * len(head)}\n{table(rows)}" for title, (head, rows) in made.items()) + "\n"


def heading(text: list[str]) -> list[str]:
    """The lines of comment at the head of a file."""
    end = next((number for number, line in enumerate(text) if not line.startswith("-- ")), len(text))
    return text[:end]


def counts_of(reading: Reading) -> tuple[int, int, int, int]:
    """The lines that the headline rests on, those of them that have a meaning, and those of the gateway's laws without and with what is left out."""
    every = [line for it in reading.headline for line in lines(*it)]
    promised, whole = reading.believed(IN_PLACE), reading.believed({})
    return len(every), len([*filter(has_meaning, every)]), sum(len(it.lines) for it in promised), sum(len(it.lines) for it in whole)


def page_of(had: str, reading: Reading, counts: tuple[int, int, int, int]) -> tuple[str, list[str]]:
    """The page with the right numbers and tables, and what it has no place for."""
    every, dense, promised, whole = counts
    has = SUMS.sub(f"rests on **{every:,} lines**, {dense:,} of them", had)
    has = GATEWAY_SUMS.sub(f"rest on **{promised:,} lines** of definitions, and with all of `next` and `asked` on {whole:,}", has)
    lacking = []
    for begin, end, written in ((BEGIN, END, reading.tables), (ASKED, ANSWERED, reading.answers)):
        if had.count(begin) == had.count(end) == 1:
            has = has[: has.index(begin)] + begin + written() + has[has.index(end) :]
        else:
            lacking.append(f"{PAGE} has no place for what is between {begin.strip()} and {end}")
    lacking += [] if SUMS.search(had) else [f"{PAGE} does not say how many lines the headline rests on"]
    lacking += [] if GATEWAY_SUMS.search(had) else [f"{PAGE} does not say how many lines the gateway's laws rest on"]
    return has, lacking


def main(words: list[str]) -> int:
    if words not in ([], ["--write"]):
        sys.exit(__doc__)
    reading, had = Reading(tomllib.loads(contents(CLASSES))), contents(PAGE)
    counts = counts_of(reading)
    has, lacking = page_of(had, reading, counts)
    failures = reading.failures + reading.misplaced() + lacking
    if words:
        write(has, PAGE)
    elif had != has:
        old = had.split("\n")
        failures += [f"{PAGE} should say: {it}" for it in has.split("\n") if it not in old]
        failures.append(f"{PAGE} has other numbers: .ci/definitions --write puts the right ones in")
    for it in failures:
        print(f"definitions: {it}")
    every, dense, promised, whole = counts
    print(f"definitions: {len(reading.there)} files; the headline rests on {every:,} lines, {dense:,} of them neither blank nor imports nor comments")
    print(f"definitions: the gateway's laws rest on {promised:,} lines beside these, and with all of `next` and `asked` on {whole:,}; {len(failures)} failures")
    return 1 if failures else 0
