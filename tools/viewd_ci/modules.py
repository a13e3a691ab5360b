"""Refuses crates whose modules stand on one another in a ring: a reader of one would have to read them all. And refuses crates that are too large.

usage: .ci/modules             fails if a crate has a ring that may have none, or none that is said to have one; or more than 130 functions
       .ci/modules --list      prints each ring

A module stands on those that its lines `use crate::..` name, and its calls by such a path. The root of a crate stands on all of them, and
nothing stands on it. Crates that have a ring still are in HAVE, to which none is added. Functions are counted by their `fn`; crates of
tests may have any number.
"""
import glob
import os
import re
import sys

from viewd_ci.common import TOP, contents

HAVE = {"iv_database", "iv_pages", "iv_store", "iv_zset"}
MOST = 130
NAMED = re.compile(r"\bcrate::((?:\w+::)*)(?:\w+|\{|\*)")
GROUP = re.compile(r"\bcrate::\{([^{}]*)\}")
COMMENT = re.compile(r"(?m)//.*$")
FUNCTION = re.compile(r"(?m)^\s*(?:pub(?:\([a-z]+\))? )?(?:const )?fn \w")
Uses = dict[str, set[str]]


def uses_of(texts: dict[str, str]) -> Uses:
    """By module the modules that it stands on, of the texts of a crate's modules by their paths, as a path of the code names them."""
    found: Uses = {name: set() for name in texts}
    for name, text in texts.items():
        plain = COMMENT.sub("", text)
        grouped = [it.strip() for inside in GROUP.findall(plain) for it in inside.split(",")]
        for path in [*NAMED.findall(plain), *grouped]:
            words = path.removesuffix("::").split("::")
            # the longest beginning that is a module: the rest is a type or a trait
            on = next((it for end in range(len(words), 0, -1) if (it := "::".join(words[:end])) in texts), None)
            if on and on != name:
                found[name].add(on)
    return found


def rings_of(uses: Uses) -> list[list[str]]:
    """The modules that stand on one another, ring by ring: strongly connected ones (Tarjan 1972), of two at least."""
    found: list[list[str]] = []
    numbers: dict[str, int] = {}
    low: dict[str, int] = {}
    path: list[str] = []

    def visit(name: str) -> None:
        numbers[name] = low[name] = len(numbers)
        path.append(name)
        for on in sorted(uses[name]):
            if on not in numbers:
                visit(on)
                low[name] = min(low[name], low[on])
            elif on in path:
                low[name] = min(low[name], numbers[on])
        if low[name] == numbers[name]:
            at = path.index(name)
            if len(path) - at > 1:
                found.append(sorted(path[at:]))
            del path[at:]
    for name in sorted(uses):
        if name not in numbers:
            visit(name)
    return found


def texts_of(crate: str) -> dict[str, str]:
    """The texts of a crate's modules but for its root, by their paths."""
    folder = os.path.join(TOP, "crates", crate, "src")
    names = sorted(it for it in glob.glob("**/*.rt", root_dir=folder, recursive=True) if it not in ("lib.rt", "main.rt"))
    return {it.removesuffix(".rt").removesuffix("/mod").replace("/", "::"): contents("crates", crate, "src", it) for it in names}


def too_large(crate: str, texts: list[str]) -> list[str]:
    """What is told of a crate with these sources: that it has more functions than one may have, unless it is one of tests."""
    number = sum(len(FUNCTION.findall(it)) for it in texts)
    return [f"{crate} has {number} functions, and may have {MOST}: cut it along its subject"] if number > MOST and not crate.startswith("tests_") else []


def main(words: list[str]) -> int:
    if words not in ([], ["--list"]):
        sys.exit(__doc__)
    crates = sorted(it for it in os.listdir(os.path.join(TOP, "crates")) if os.path.isdir(os.path.join(TOP, "crates", it, "src")))
    rings = {crate: rings_of(uses_of(texts_of(crate))) for crate in crates}
    failures = [f"{crate} has no ring any more: HAVE in tools/viewd_ci/modules.py names it" for crate in sorted(HAVE) if not rings.get(crate)]
    for crate, found in rings.items():
        if words or crate not in HAVE:
            told = [f"{crate}: {', '.join(it)} stand on one another" for it in found]
            failures += [] if crate in HAVE else told
            if words:
                print("\n".join(told), end="\n" * bool(told))
    for crate in crates:
        found_in = glob.glob(os.path.join(TOP, "crates", crate, "src", "**", "*.rt"), recursive=True)
        failures += too_large(crate, [contents(it) for it in found_in])
    for it in failures:
        print(f"modules: {it}")
    print(f"modules: {len(crates)} crates, {len(HAVE)} with rings, {len(failures)} failures")
    return 1 if failures else 0
