"""Holds the sources of iv_delta and iv_circuit to the meters that their callers give them.

A promise bounds what `prepare` and `commit` count. A walk over rows that counts on a Meter of its own is counted by nobody, and no
contract can see it. So these crates make no Meter but in the functions below. With a folder as its word, it reads the crates there.
`--self-test` tries it on sources with such walks.
"""
import os
import re
import sys
from collections.abc import Iterator

from viewd_ci.common import TOP

CRATES = ("iv_delta", "iv_circuit")
# one in each of these: for a build that nobody counts; the rounds of a circuit; the width of a row; whether changed rows reach a circuit
MADE = {("iv_circuit", name) for name in ("build", "build_counted", "build_within", "join_of", "lets_some")}
# a meter that is lent, a number that a value keeps, and names that are taken
GIVEN = (r"&mut Meter\b(?!::)", r"^ +(pub left|rounds): Meter,$", r"^use iv_zset::(Meter|\{[\w, ]*\bMeter\b(?! as)[\w, ]*\});$")


def faults(crate: str, name: str, text: str) -> Iterator[str]:
    """The lines of a source that make or take a meter on the side."""
    function = ""
    made: set[tuple[str, str]] = set()
    for number, line in enumerate(text.split("\n"), 1):
        if re.match(r"\s*//|ghost use|\s*(ghost|requires|ensures) ", line):
            continue
        found = re.search(r"\bfn (\w+)", line)
        function = found[1] if found else function
        left = line
        for form in GIVEN:
            left = re.sub(form, "", left)
        if (crate, function) in MADE - made and "Meter::new()" in left:
            made.add((crate, function))
            left = left.replace("Meter::new()", "", 1)
        if re.search(r"\bMeter\b", left):
            yield f"{crate}/{name}:{number}: in {function or 'no function'}: {line.strip()}"


def faults_below(top: str) -> Iterator[str]:
    for crate in CRATES:
        folder = os.path.join(top, "crates", crate, "src")
        for name in sorted(os.listdir(folder)):
            with open(os.path.join(folder, name), encoding="utf-8") as file:
                yield from faults(crate, name, file.read())


WALKS = [
    ("iv_circuit", "fn filter_step() {\n    let _ = total.plus(root, &mut Meter::new());\n}"),
    ("iv_circuit", "fn build() {\n    let mut meter = Meter::new();\n    let mut other = Meter::new();\n}"),
    ("iv_delta", "use iv_zset::{Meter as Count, ZSet};"),
    ("iv_delta", "type Count = Meter;"),
    ("iv_delta", "fn step(meter: Meter) {}"),
]


def main(words: list[str]) -> int:
    if words == ["--self-test"]:
        told = [crate for crate, text in WALKS if len(list(faults(crate, "walk.rt", text))) != 1]
        print(f"meters: self-test: {len(WALKS)} walks, {len(told)} not told")
        return 1 if told else 0
    found = list(faults_below(words[0] if words else TOP))
    for it in found:
        print(f"meters: {it}", file=sys.stderr)
    if found:
        print("meters: hand on the meter that the caller gives; MADE in tools/viewd_ci/meters.py has the functions that may make one", file=sys.stderr)
    print(f"meters: {len(CRATES)} crates, {len(found)} meters on the side")
    return 1 if found else 0
