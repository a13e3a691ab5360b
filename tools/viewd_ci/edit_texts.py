"""Looks, without a prover, whether each edit of a crate can be applied: each `old:` text is in its file once, as the lines before have left it.

usage: .ci/edit_texts

These are crates/NAME/edits/**/*.edit and crates/NAME/must-fail/*.edit: whether the prover refuses them, .ci/edits and `rt ci` show. And those of
.ci/wrong, which also name what has to catch them: whether it does, .ci/wrong/try shows.
"""
import glob
import os
import sys
from collections.abc import Iterator

from viewd_ci.common import TOP, contents
from viewd_ci.parts import PARTS
from viewd_ci.wrong import Check, edit_of

PLACES = ("edits/**/*.edit", "must-fail/*.edit")


def fault_of(edit: str, texts: dict[str, str]) -> str:
    """Why an edit of these files cannot be applied to them: no text if it can."""
    texts, path, old, pairs = dict(texts), "", "", 0
    for line in edit.split("\n"):
        if line == "proof:":
            break
        if line.startswith("file: "):
            path = line.removeprefix("file: ").strip()
            if path not in texts:
                return f"there is no file {path}"
        elif line.startswith("old: "):
            old = line.removeprefix("old: ")
        elif line.startswith("new:"):
            if not path or not old:
                return "a 'new:' line is before any 'file:' or 'old:' line"
            found = texts[path].count(old)
            if found != 1:
                return f"an 'old:' text is in {path} {found} times, and not once: {old.strip()}"
            texts[path] = texts[path].replace(old, line.removeprefix("new:").removeprefix(" "))
            old, pairs = "", pairs + 1
    return "" if pairs else "it has no 'old:' and 'new:' pair"


def files_of(crate: str) -> dict[str, str]:
    """The sources and definitions of a crate by their paths in it."""
    paths = [it for part in ("src/**/*.rt", "specs/**/*.antt", "proofs/*.antt") for it in glob.glob(part, root_dir=os.path.join(TOP, crate), recursive=True)]
    return {it: contents(crate, it) for it in paths}


def fault_of_check(check: Check) -> str:
    """Why nothing can catch a wrong program by this part, or by this test of it: no text if it can."""
    part, test = check
    file, _, name = test.partition("::")
    path = os.path.join("frontend", "test", file)
    is_there = part in PARTS and (not test or os.path.isfile(os.path.join(TOP, path)) and f"\ndef {name}(" in contents(path))
    return "" if is_there else f"there is no {test or part} to catch it"


def all_edits() -> Iterator[tuple[str, str]]:
    """Each by its path, and why it cannot be applied, or caught: no text if it can."""
    for crate in sorted(glob.glob("crates/*", root_dir=TOP)):
        names = [it for place in PLACES for it in glob.glob(f"{crate}/{place}", root_dir=TOP, recursive=True)]
        texts = files_of(crate) if names else {}
        for name in sorted(names):
            yield name, fault_of(contents(name), texts)
    for name in sorted(glob.glob(".ci/wrong/*.edit", root_dir=TOP)):
        edit = edit_of(os.path.basename(name).removesuffix(".edit"))
        yield name, fault_of(contents(name), files_of(f"crates/{edit.crate}")) or fault_of_check(edit.check)


def main(words: list[str]) -> int:
    if words:
        sys.exit(__doc__)
    found = [*all_edits()]
    for name, fault in found:
        if fault:
            print(f"edit_texts: {name}: {fault}")
    failures = sum(bool(fault) for _, fault in found)
    print(f"edit_texts: {len(found)} edits, {failures} failures")
    return 1 if failures else 0
