"""Compares the maps of the repository, docs/FILES.md and crates/*/README.md, with the heads of the files that they list, and the laws of
docs/PROOFS.md with the words above them.

usage: .ci/files             fails if they differ
       .ci/files --write     writes them

Of each head (`//!` in src/, `--` in specs/ and proofs/) the first sentence is there. It begins in the file's first line. In src/ it has at
most 160 characters, and each name in its backticks is in the file or is an example's, so that it does not tell of a function that was
dropped or renamed. A crate that a sentence names is there, and one of the two is below the other.

A law is a public function of src/laws.rt, or of a file in src/laws/. Each has its `///`, which PROOFS has word for word. A file of tests of a
program has a first sentence, too: FILES has it after the crates.

A link of a document leads to a file that is there, and to a heading that this has.
"""
import ast
import glob
import os
import re
import sys

from viewd_ci.common import TOP, below, contents, crates_in, first_sentence, write

LENGTH = 160
CRATE = re.compile(r"\b(?:iv|tests)_[a-z_]+\b")
PREFACE = """# Files

Each crate, the lowest first, with the first sentence at its head; its README has the same for each file of it: definitions, sources, and lemmas.
`.ci/files --write` makes this page and theirs from the heads of the files, and `.ci/run` compares them.

| crate | what stands in it |
|---|---|
"""
PARTS = [
    ("specs", "antt", "Definitions", "What a reader has to believe, and what is said of values inside ([which is which](../../docs/DEFINITIONS.md))."),
    ("src", "rt", "Sources", "Code, with its contracts."),
    (
        "proofs",
        "antt",
        "Lemmas",
        "Files of lemmas. The folders beside them have the answers to each function's goals "
        "([how proofs/ is laid out](../../docs/PROOFS.md#how-proofs-is-laid-out)).",
    ),
]
TESTS = ["frontend/test/test_*.py", "clients/js/test/*.test.js", "clients/python/test/test_*.py", "clients/examples/*/test_*.py"]
TESTS += ["postgresql/test/test_*.py", "tools/test/test_*.py"]
OF_TESTS = """
## Tests of programs

Those of crates are crates themselves. `frontend/test/one --collect-only` lists the tests of its folder by their names, and `frontend/test/one -k WORD`
runs some; the parts of [the gate](GATE.md) run all.

| file | what is tested |
|---|---|
"""
DOCUMENTS = ["*.md", "docs/*.md", "examples/README.md"]
LINK, HEADING = re.compile(r"\]\((?!https?:)([^)\s]+)\)"), re.compile(r"(?m)^#+ (.*)$")
LAWS = os.path.join("docs", "PROOFS.md")
BEGIN, END = "<!-- By .ci/files: -->\n", "<!-- The end of what .ci/files wrote. -->"
LAW = re.compile(r"(?m)^((?:///[^\n]*\n)*)(?:#\[[^\n]*\n)*pub fn (\w+)")
Known = dict[str, list[str]]


def head_of(path: str, text: str) -> tuple[str, str]:
    """The first sentence of a file's head, and the text below the head."""
    lines, mark = text.split("\n"), "//! " if path.endswith(".rt") else "-- "
    end = next((number for number, line in enumerate(lines) if not re.match(rf"{re.escape(mark)}\S", line)), len(lines))
    return first_sentence(" ".join(line[len(mark) :] for line in lines[:end])), "\n".join(lines[end:])


def files_of_tests() -> list[str]:
    return [it for pattern in TESTS for it in sorted(glob.glob(pattern, root_dir=TOP))]


def first_words(path: str, text: str) -> str:
    """The first sentence of a file of tests: of its docstring, or of the comment in its first line."""
    said = ast.get_docstring(ast.parse(text)) if path.endswith(".py") else text.split("\n")[0].removeprefix("// ")
    return first_sentence(" ".join((said or "").split()))


def is_example(name: str) -> bool:
    return os.path.exists(os.path.join(TOP, "examples", f"{name}.jsonl"))


def wrong_with(crate: str, path: str, text: str, known: Known) -> list[str]:
    """What is wrong with the first sentence of a file of a crate."""
    sentence, rest = head_of(path, text)
    if not sentence:
        return [f"{path} has no sentence at its head"]
    wrong = []
    if path.endswith(".rt"):
        if not sentence.endswith("."):
            wrong.append(f"{path}: the first sentence has no end")
        if len(sentence) > LENGTH:
            wrong.append(f"{path}: the first sentence has {len(sentence)} characters, more than {LENGTH}")
        for name in re.findall(r"\w+", " ".join(re.findall(r"`([^`]*)`", sentence))):
            if not re.search(rf"\b{name}\b", rest) and not is_example(name):
                wrong.append(f"{path}: the first sentence names {name}, which the file does not have")
    for name in CRATE.findall(sentence):
        if name not in known:
            wrong.append(f"{path}: the first sentence names {name}, which is no crate")
        elif name != crate and name not in below(crate, known) and crate not in below(name, known):
            wrong.append(f"{path}: the first sentence names {name}, and neither stands on the other")
    return wrong


class Maps:
    """The maps as they should be, by their paths, how many files and laws are in them, and what is wrong with the heads."""

    def __init__(self, known: Known) -> None:
        self.known, self.files, self.laws = known, 0, 0
        self.failures: list[str] = []
        self.pages: dict[str, str] = {}
        text = PREFACE
        for crate in known:
            text += f"| [{crate}](../crates/{crate}/README.md) | {self.crate(crate)} |\n"
        self.pages[os.path.join("docs", "FILES.md")] = text + OF_TESTS + "".join(map(self.tests, files_of_tests()))
        self.pages[LAWS] = self.proofs(contents(LAWS))

    def sentence(self, crate: str, path: str) -> str:
        text = contents(path)
        self.failures += wrong_with(crate, path, text, self.known)
        return head_of(path, text)[0]

    def tests(self, path: str) -> str:
        """The row of a file of tests."""
        sentence = first_words(path, contents(path))
        if not sentence.endswith("."):
            self.failures.append(f"{path} has no sentence at its head")
        self.files += 1
        return f"| [{path}](../{path}) | {sentence} |\n"

    def crate(self, crate: str) -> str:
        """Makes the README of a crate, and returns the sentence at the crate's head."""
        folder = os.path.join("crates", crate)
        root = next(it for it in ("lib.rt", "main.rt") if os.path.exists(os.path.join(TOP, folder, "src", it)))
        purpose = self.sentence(crate, os.path.join(folder, "src", root))
        page = [f"# {crate}\n", f"{purpose}\n"]
        on = [it for it in self.known[crate] if it in self.known]
        page += [f"It stands on {', '.join(f'[{it}](../{it}/README.md)' for it in on)}.\n"] if on else []
        for part, ending, title, about in PARTS:
            deep = "**/" if part == "src" else ""
            paths = sorted(glob.glob(f"{deep}*.{ending}", root_dir=os.path.join(TOP, folder, part), recursive=True))
            files = [it for it in paths if it not in (root, "Lib.antt")]
            rows = [f"| [{it.rsplit('.', 1)[0]}]({part}/{it}) | {self.sentence(crate, os.path.join(folder, part, it))} |" for it in files]
            self.files += len(files) + (part == "src")
            page += [f"## {title}\n\n{about}\n\n| file | what stands in it |\n|---|---|\n" + "\n".join(rows) + "\n"] if rows else []
        self.pages[os.path.join(folder, "README.md")] = "\n".join(page)
        return purpose

    def proofs(self, had: str) -> str:
        """What docs/PROOFS.md should be."""
        rows = "| crate | what is true | the law |\n|---|---|---|\n"
        for crate in self.known:
            folder, first = os.path.join("crates", crate, "src"), crate
            for file in sorted(glob.glob("laws*.rt", root_dir=os.path.join(TOP, folder)) + glob.glob("laws/*.rt", root_dir=os.path.join(TOP, folder))):
                for name, text in laws_in(contents(folder, file)):
                    if not text:
                        self.failures.append(f"{folder}/{file}: nothing says in words what {name} promises")
                    bar = text.replace("|", "\\|")
                    rows += f"| {f'**{first}**' if first else ''} | {bar} | `{name}` |\n"
                    first = ""
                    self.laws += 1
        if had.count(BEGIN) != 1 or had.count(END) != 1:
            self.failures.append(f"{LAWS} has no place for the laws")
            return had
        return had[: had.index(BEGIN)] + BEGIN + rows + had[had.index(END) :]


def laws_in(text: str) -> list[tuple[str, str]]:
    """The laws of a file's text, each with the words above it."""
    return [(name, " ".join(said.replace("///", "").split())) for said, name in LAW.findall(text)]


def without_blocks(text: str) -> str:
    return re.sub(r"(?ms)^```.*?^```", "", text)


def anchors(text: str) -> set[str]:
    """By which names a link finds the headings of a document."""
    plain = (re.sub(r"[^\w\- ]", "", it.strip().lower()) for it in HEADING.findall(without_blocks(text)))
    return {it.replace(" ", "-") for it in plain}


def dead_links(path: str, text: str) -> list[str]:
    """The links of a document that lead to no file, or to no heading of one, or no line of a source."""
    dead = []
    for link in LINK.findall(without_blocks(text)):
        file, _, heading = link.partition("#")
        there = os.path.normpath(os.path.join(os.path.dirname(path), file)) if file else path
        if not os.path.exists(os.path.join(TOP, there)):
            dead.append(f"{path} links {link}, which is no file")
        elif heading and not there.endswith(".md"):
            if heading not in {f"L{it}" for it in range(1, len(contents(there).splitlines()) + 1)}:
                dead.append(f"{path} links {link}, which is no line")
        elif heading and heading not in anchors(contents(there)):
            dead.append(f"{path} links {link}, which is no heading")
    return dead


def differences(path: str, had: str, has: str) -> list[str]:
    """What a map lacks, and what it has of no file."""
    old, new = had.split("\n"), has.split("\n")
    lacks = [f"{path} lacks the line: {it}" for it in new if it not in old]
    return [*lacks, *(f"{path} has a line of no file: {it}" for it in old if it not in new)]


def main(words: list[str]) -> int:
    if words not in ([], ["--write"]):
        sys.exit(__doc__)
    maps = Maps(crates_in(contents("crates.txt")))
    failures = maps.failures
    writes = bool(words) and not failures
    for path, page in maps.pages.items():
        if writes:
            write(page, path)
        there = contents(path) if os.path.exists(os.path.join(TOP, path)) else ""
        if there != page:
            failures += differences(path, there, page)
            failures.append(f"{path} is not what the heads of the files say: .ci/files --write writes it")
    documents = sorted(it for pattern in DOCUMENTS for it in glob.glob(pattern, root_dir=TOP))
    failures += [dead for it in documents for dead in dead_links(it, contents(it))]
    for it in failures:
        print(f"files: {it}")
    print(f"files: {maps.files} files and {maps.laws} laws, {len(failures)} failures")
    return 1 if failures or maps.files < 600 or maps.laws < 60 else 0
