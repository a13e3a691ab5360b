"""Gives damaged copies of the examples' lines to the program, as LLVM and as Rattle's own compiler built it.

A copy has some bytes changed, a part cut out, a part doubled, or the end of another line in place of its own. Between the copies
are the lines of their example, so that sessions, tables and subscriptions are there. Both programs have to answer the same
bytes, each line of a form that docs/protocol.toml names, and to end as at the end of their input. `--seed N` draws the same
copies again. With `--alone` the program as LLVM built it is the only one. VIEWD and VIEWD_BY_RATTLE name other programs to run.
"""
import argparse
import collections
import json
import os
import random
import re
import subprocess
import sys
import tomllib
from collections.abc import Callable, Iterator
from typing import Any

from viewd_ci import common
from viewd_ci.common import TOP

PROGRAM = os.environ.get("VIEWD", common.PROGRAM)
BY_RATTLE = os.environ.get("VIEWD_BY_RATTLE", PROGRAM + ".by-rattle")
COPIES = 20_000
# of an input on a slow host: only one that hangs comes to it
SECONDS = 1800
# so many copies follow the lines of their example, and then these lines again
TURN = 40
MOST = 2**63 - 1
NAME = re.compile(r"[a-z_][a-z0-9_]{0,62}")


def contents(*path: str) -> bytes:
    with open(os.path.join(TOP, *path), "rb") as file:
        return file.read()


PROTOCOL = tomllib.loads(contents("docs", "protocol.toml").decode())
# the keys of each refusal beside its number, and the reasons of faults
REFUSALS = {it["number"]: {*it.get("keys", []), *(["session"] if it.get("session", True) else [])} for it in PROTOCOL["refusal"]}
REASONS = set(PROTOCOL["reasons"])
OF_KEY: dict[str, Callable[[Any], object]] = {
    "session": lambda it: 1 <= it < 2**32,
    "sub": lambda it: 1 <= it <= MOST,
    "entry": lambda it: 1 <= it <= 1000,
    "place": lambda it: 0 <= it <= 4096,
    "why": lambda it: it in REASONS,
    "on": NAME.fullmatch,
    "policy": NAME.fullmatch,
    "privilege": lambda it: it in ("select", "insert", "update", "delete"),
    "check": lambda it: it in ("select", "insert", "update old", "update new", "delete"),
    "ended": lambda it: it in ("privilege", "limit"),
}


def order(row: list[Any]) -> list[Any]:
    return [value.encode() if isinstance(value, str) else value for value in row]


def are_changes(entries: list[tuple[int, list[Any]]], may_be_empty: bool) -> bool:
    """Each row once, in rising order, with a weight that is not 0."""
    rows = [order(row) for _, row in entries]
    rising = all(low < high for low, high in zip(rows, rows[1:]))
    weights = all(weight != 0 and abs(weight) <= MOST for weight, _ in entries)
    return rising and weights and (may_be_empty or len(rows) > 0) and all(1 <= len(row) <= 16 for row in rows)


def kind_of(line: str) -> str | None:
    """Which of the lines that the protocol names this is; none if it is no such line, or is not written as it says."""
    it = json.loads(line)
    if line != json.dumps(it, sort_keys=True, separators=(",", ":"), ensure_ascii=False):
        return None
    keys = set(it)
    if "ok" in it:
        kind, formed = "ok", it["ok"] is True and keys - {"sub"} == {"ok", "session"}
    elif "error" in it:
        kind, formed = f"error {it['error']}", keys - {"error"} == REFUSALS.get(it["error"])
    else:
        kind = "ended" if "ended" in it else "changes"
        formed = keys - {"ended"} == {"changes", "session", "sub"} and are_changes(it["changes"], "ended" in it)
    return kind if formed and all(OF_KEY[key](it[key]) for key in keys - {"ok", "error", "changes"}) else None


def damaged(line: bytes, others: list[bytes], draw: random.Random) -> bytes:
    """The line, damaged in one way."""
    start = draw.randrange(len(line))
    end = min(len(line), start + draw.choice((1, 1, 2, 4, 8, 16, 32)))
    way = draw.randrange(4)
    if way == 0:
        some = bytes(draw.choice((draw.randrange(256), *b'{}[]",:0123456789-.eE\\')) for _ in range(start, end))
        return line[:start] + some[: draw.randrange(1, 4)] + line[min(end, start + 3) :]
    if way == 1:
        return line[:start] + draw.choice((line[end:], b""))
    if way == 2:
        return line[:end] + line[start:end] * draw.randrange(1, 4) + line[end:]
    other = draw.choice(others)
    return line[:start] + other[draw.randrange(len(other)) :]


def examples() -> list[list[bytes]]:
    """The lines of each example, but those of the longest lines."""
    names = [os.path.join(folder, it) for folder, _, some in os.walk(os.path.join(TOP, "examples")) for it in some]
    texts = [contents(it) for it in sorted(names) if it.endswith(".jsonl") and not it.endswith(".answers.jsonl")]
    lists = [[line for line in text.split(b"\n") if line.strip()] for text in texts]
    return [lines for lines in lists if lines and max(map(len, lines)) <= 4096]


def inputs(draw: random.Random) -> Iterator[bytes]:
    """For each example its lines, and damaged copies of them, as many as fall to it."""
    given = examples()
    many = sum(map(len, given))
    everything = [line for lines in given for line in lines]
    left, behind = COPIES, many
    for lines in given:
        copies = left * len(lines) // behind
        left, behind = left - copies, behind - len(lines)
        some = []
        for place in range(copies):
            some += lines * (place % TURN == 0)
            some.append(damaged(draw.choice(lines), draw.choice((lines, everything)), draw))
        yield b"\n".join(some) + b"\n"


def answers(program: str, given: bytes) -> tuple[int, bytes, bytes]:
    done = subprocess.run([program, "replay"], input=given, stdout=subprocess.PIPE, stderr=subprocess.PIPE, timeout=SECONDS)
    return done.returncode, done.stderr, done.stdout


def compared(given: bytes, told: collections.Counter[str], is_alone: bool) -> list[str]:
    """What is wrong with the answers to an input. Counts those that are right by their kind."""
    one = answers(PROGRAM, given)
    other = one if is_alone else answers(BY_RATTLE, given)
    if one != other:
        place = next((n for n, pair in enumerate(zip(one[2].split(b"\n"), other[2].split(b"\n"))) if pair[0] != pair[1]), -1)
        return [f"the two programs differ: {one[:2]} and {other[:2]}, at answer {place + 1}"]
    if one[:2] != (0, b""):
        return [f"status and words: {one[:2]}"]
    wrong = []
    for line in one[2].decode().split("\n")[:-1]:
        try:
            kind = kind_of(line)
        except (ValueError, TypeError, KeyError):
            kind = None
        if kind:
            told[kind] += 1
        else:
            wrong.append(f"no answer of the protocol: {line:.300}")
    return wrong


def main(words: list[str]) -> int:
    known = argparse.ArgumentParser(prog=".ci/fuzz", description=__doc__, formatter_class=argparse.RawDescriptionHelpFormatter)
    known.add_argument("--seed", type=int, default=random.SystemRandom().randrange(1_000_000))
    known.add_argument("--alone", action="store_true")
    asked = known.parse_args(words)
    draw, runs = random.Random(asked.seed), 0
    told: collections.Counter[str] = collections.Counter()
    wrong: list[str] = []
    for given in inputs(draw):
        wrong += compared(given, told, asked.alone)
        runs += 1
    for it in wrong[:20]:
        print(f"fuzz: {it}", file=sys.stderr)
    if asked.alone:
        print(f"fuzz: {os.path.basename(BY_RATTLE)} did not run: that program is made by rt ci alone, so the answers were compared with no others")
    print(f"fuzz: {COPIES} damaged lines in {runs} runs, drawn with --seed {asked.seed}: {len(wrong)} failed")
    print("fuzz: " + ", ".join(f"{many} of {kind}" for kind, many in sorted(told.items())))
    return 1 if wrong else 0
