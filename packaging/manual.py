"""Pages of the manual (roff), made of what a program answers to --help and of chapters of the documents (Markdown)."""
import dataclasses
import re
from collections.abc import Iterator

CELL = re.compile(r"(?<!\\)\|")


def plain(text: str) -> str:
    """Text that roff takes as it is."""
    text = text.replace("\\", r"\e").replace("-", r"\-")
    return re.sub(r"(?m)^([.'])", r"\\&\1", text)


def inline(text: str) -> str:
    """A sentence: code and strong words are bold, and of links the words stay."""
    text = re.sub(r"!?\[([^\]]*)\]\([^)]*\)", r"\1", text).replace(r"\|", "|")
    found = []
    for at, part in enumerate(re.split(r"`([^`]+)`", text)):
        if at % 2:
            found.append(rf"\fB{plain(part)}\fR")
        else:
            part = re.sub(r"\*\*([^*]+)\*\*", r"\\fB\1\\fR", plain(part))
            found.append(re.sub(r"(?<![*\w])\*([^*\s][^*]*)\*", r"\\fI\1\\fR", part))
    words = "".join(found)
    return rf"\&{words}" if words[:1] in (".", "'") else words


def block(lines: list[str]) -> str:
    """Lines as they are."""
    body = "\n".join(plain(it) for it in lines)
    return f".PP\n.RS 4\n.nf\n{body}\n.fi\n.RE\n"


def table(lines: list[str]) -> str:
    """A row is a paragraph: its first cell, and after it the others, each but the second with the words above it."""
    rows = [[cell.strip() for cell in CELL.split(it.strip().strip("|"))] for it in lines]
    text = ""
    for row in rows[2:]:
        rest = [row[1]] if len(row) > 1 else []
        rest += [f"{above}: {cell}" if above else cell for above, cell in zip(rows[0][2:], row[2:]) if cell]
        text += f".TP\n{inline(row[0])}\n{inline('. '.join(rest))}\n"
    return text


def paragraphs(text: str) -> Iterator[list[str]]:
    """The blocks of a document: paragraphs, headings, items, tables, code."""
    some: list[str] = []
    fenced = False
    for line in [*text.splitlines(), ""]:
        if fenced or line.startswith("```"):
            if not fenced and some:
                yield some
                some = []
            some.append(line)
            if fenced and line.startswith("```"):
                yield some
                some = []
            fenced = not fenced if line.startswith("```") else fenced
        elif not line.strip():
            if some:
                yield some
            some = []
        elif some and (line.startswith("- ") or line.startswith("|") != some[0].startswith("|")):
            yield some
            some = [line]
        else:
            some.append(line)


def roff(text: str) -> str:
    """A chapter of a document, without its heading; those in it are headings of the page's chapter."""
    made = ""
    for some in paragraphs(text):
        if some[0].startswith("```"):
            made += block(some[1:-1])
        elif some[0].startswith("    "):
            made += block([it.removeprefix("    ") for it in some])
        elif some[0].startswith("#"):
            made += f".SS {inline(some[0].lstrip('# '))}\n"
        elif some[0].startswith("|"):
            made += table(some)
        elif some[0].startswith("- "):
            made += f".IP \\(bu 2\n{inline(' '.join(it.strip() for it in some).removeprefix('- '))}\n"
        else:
            made += f".PP\n{inline(' '.join(it.strip() for it in some))}\n"
    return made


def chapter(document: str, heading: str) -> str:
    """What stands under a heading of a document, up to the next of its rank. Raises ValueError if there is none."""
    found = re.search(rf"(?ms)^(#+) {re.escape(heading)}\n(.*?)(?=^\1 |^(?!\1)#{{1,2}} |\Z)", document)
    if not found:
        raise ValueError(f"no document has the chapter {heading}")
    return found[2]


@dataclasses.dataclass
class Page:
    """A page: its name and section, what it is in a line, what --help answers, and chapters with their headings."""

    name: str
    section: int
    line: str
    help: list[str]
    chapters: list[tuple[str, str]]
    also: list[str]

    def text(self, date: str, version: str) -> str:
        head = f'.TH {plain(self.name).upper()} {self.section} {date} "viewd {plain(version)}" viewd\n'
        head += f".SH NAME\n{plain(self.name)} \\- {plain(self.line)}\n.SH SYNOPSIS AND OPTIONS\n"
        body = "".join(block(it.rstrip("\n").splitlines()) for it in self.help)
        body += "".join(f".SH {heading.upper()}\n{roff(text)}" for heading, text in self.chapters)
        return f"{head}{body}.SH SEE ALSO\n{', '.join(inline(it) for it in self.also)}\n"
