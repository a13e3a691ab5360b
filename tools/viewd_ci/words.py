"""Counts ten words that docs/CONTRIBUTING.md asks to say more plainly, in documents and in comments, and all words of the documents.

usage: .ci/words             fails if one of the ten comes clearly more often, in so many words, than .ci/words.json has it, or if the documents
                             have more words by hand than it has
       .ci/words --count     how many words by hand each document has
       .ci/words --write     writes down both as they are now

Documents are README.md and those of docs/, but for FILES.md, which is written from the heads of files. Comments are those of the crates' sources,
definitions and lemmas, and of the programs and tests in Python. Each of the ten words has a right use too (`where` of a place), so no count comes to 0.

Words by hand are those with a letter or a digit, outside of blocks of code and of what scripts write: the tables of PROTOCOL below Requests, Refusals and
Limits, and what is between `<!-- By .ci/files: -->`, or `<!-- What bench/run printed: -->`, and the comment that ends it.
"""
import glob
import json
import re
import sys

from viewd_ci.common import TOP, contents, write

KEPT = ".ci/words.json"
# a word, and what it is to be
WORDS = {
    "where": "if, of a condition",
    "stands?": "is",
    "rooms?": "buffer, space, folder",
    "behind": "after",
    "goes|go": "is dropped, leaves",
    "(?:takes?|taken|took) in": "applies",
    "found to": "nothing",
    "rel": "relation",
    "well": "valid",
    "of (?:which|whom|whose)": "whose",
}
# of so many words
OF = 10_000


def of_persons(text: str) -> str:
    """A document without its blocks, and without what scripts write."""
    text = re.sub(r"(?ms)^```.*?^```$|(?<=\n\n)(?: {4}[^\n]*\n)+", "", text)
    text = re.sub(r"(?s)<!-- (?:By \.ci|What bench)/.*?<!-- The end of .*? -->", "", text)
    return re.sub(r"(?ms)^(## (?:Requests|Refusals|Limits)\n(?:(?!^## ).)*?)(?:^\|.*?\n)+(?!\|)", r"\1", text)


def prose(text: str) -> str:
    """What persons wrote of a document, without its code and its links."""
    text = of_persons(text)
    return re.sub(r"`[^`\n]*`|\]\([^)]*\)", "", text)


def by_hand(text: str) -> int:
    """How many words of a document a person wrote."""
    return len(re.findall(r"\S*\w\S*", of_persons(text)))


def comments(path: str, text: str) -> str:
    """The comments of a file of a crate or of a program."""
    mark = "--" if path.endswith(".antt") else "//[/!]?" if path.endswith(".rt") else "#"
    found = re.findall(rf"(?m)^\s*{mark}\s(.*)$", text)
    if mark == "#":
        found += re.findall(r'(?s)"""(.*?)"""', text)
    return re.sub(r"`[^`\n]*`", "", "\n".join(found))


def documents() -> dict[str, str]:
    """All documents by their paths, but for the one that is written."""
    return {it: contents(it) for it in ["README.md", *sorted(glob.glob("docs/*.md", root_dir=TOP))] if it != "docs/FILES.md"}


def texts() -> dict[str, str]:
    """All documents, and all comments."""
    sources = glob.glob("crates/*/src/**/*.rt", root_dir=TOP, recursive=True)
    sources += [it for part in ("specs", "proofs") for it in glob.glob(f"crates/*/{part}/*.antt", root_dir=TOP)]
    programs = [it for it in glob.glob("**/*.py", root_dir=TOP, recursive=True) if it.startswith(("tools/", "bench/", "frontend/", "postgresql/"))]
    said = [comments(it, contents(it)) for it in sources + programs]
    return {"documents": "\n".join(map(prose, documents().values())), "comments": "\n".join(said)}


def rates(text: str) -> dict[str, float]:
    """How often each word comes in so many."""
    many = len(text.split())
    return {word: round(len(re.findall(rf"(?i)\b(?:{word})\b", text)) * OF / many, 1) for word in WORDS}


def more_often(now: dict[str, dict[str, float]], kept: dict[str, dict[str, float]]) -> list[tuple[str, str]]:
    """The words that come clearly more often than they did, each with the kind of text. A rate may rise by a fifth and by one, as texts come and go."""
    return [(kind, word) for kind, rate in now.items() for word, often in rate.items() if often > 1.2 * kept[kind][word] + 1]


def main(words: list[str]) -> int:
    if words not in ([], ["--write"], ["--count"]):
        sys.exit(__doc__)
    found, counts = texts(), {path: by_hand(text) for path, text in documents().items()}
    now = {kind: rates(text) for kind, text in found.items()}
    total = sum(counts.values())
    if words == ["--count"]:
        print("".join(f"{count:7,} {path}\n" for path, count in counts.items()), end="")
    if words == ["--write"]:
        write(json.dumps(now | {"by hand": total}, indent=1) + "\n", KEPT)
    kept = json.loads(contents(KEPT))
    more = more_often(now, kept)
    for kind, word in more:
        print(f"words: in {kind} `{word}` comes {now[kind][word]} times in {OF:,} words, and came {kept[kind][word]} times: say {WORDS[word]}")
    counted = ", ".join(f"{len(text.split()):,} of {kind}" for kind, text in found.items())
    print(f"words: {len(WORDS)} words in {counted}: {len(more)} come more often than before")
    print(f"words: {total:,} by hand in {len(counts)} documents, and at most {kept['by hand']:,} may be")
    return 1 if more or total > kept["by hand"] else 0
