"""Runs queries and predicates through the built program, and compares the columns or the fault that each has.

They are the queries of docs/PROTOCOL.md, the lines of .ci/queries.txt, and each text that begins one of some queries there. VIEWD names another program to run.
"""
import json
import os
import re
import subprocess
import sys
from collections.abc import Iterable, Iterator
from typing import Any

from viewd_ci import common
from viewd_ci.common import Comparison, contents

PROGRAM = os.environ.get("VIEWD", common.PROGRAM)
# of a run on a slow host: only one that hangs comes to it
SECONDS = 600
# a text, and what it comes to
Line = tuple[str, str]
Request = dict[str, Any]
# what is answered to a request: the reply, and the changes of each subscription
Answer = tuple[dict[str, Any], list[list[Any]]]
CONSTRUCT = re.compile(r"(?m)^(select .*) => (\w+ (?:int|text|flag)\b.*)$")
FAULT = re.compile(r"(?m)^(select .*) => (\d+ [a-z ]+)$")
BYTES = {r"\0": "\0", r"\t": "\t", r"\n": "\n", r"\r": "\r"}
LITERALS = {"int": "1", "text": "'a'", "flag": "true"}
compared = Comparison("queries")
expect = compared.expect


def told(requests: Iterable[Request]) -> list[Answer]:
    """What the program answers to each request, after a `begin`."""
    lines = [{"do": "begin", "role": "admin", "session": 1}, *({**it, "session": 1} for it in requests)]
    given = "".join(json.dumps(it, ensure_ascii=False) + "\n" for it in lines)
    done = subprocess.run([PROGRAM, "replay"], input=given.encode(), stdout=subprocess.PIPE, timeout=SECONDS)
    answers: list[Answer] = []
    for answer in map(json.loads, done.stdout.decode().splitlines()):
        if "changes" in answer:
            answers[-1][1].append(answer["changes"])
        else:
            answers.append((answer, []))
    if done.returncode or len(answers) != len(lines):
        sys.exit(f"queries: the program ends with status {done.returncode} after {len(answers)} of {len(lines)} answers")
    return answers[1:]


def table(name: str, *columns: str) -> Request:
    return {"do": "create_table", "name": name, "owner": "admin", "columns": [it.split(" ") for it in columns]}


def view(name: str, query: str) -> Request:
    return {"do": "create_view", "name": name, "owner": "admin", "query": query}


def insert(name: str, *rows: list[Any]) -> Request:
    return {"do": "write", "entries": [{"on": name, "insert": row} for row in rows]}


def subscribe(name: str) -> Request:
    return {"do": "subscribe", "on": name}


# the relations of docs/PROTOCOL.md (section Queries), with rows, and its views: each has twice the nodes of the one before it and three more
RELATIONS = [table("a", "k int", "x int"), table("b", "k int", "y int"), table("notes", "id int", "who text"), view("keys", "select k from a")]
RELATIONS += [insert("a", [1, 1], [2, 20]), insert("b", [1, 3], [2, 1]), insert("notes", [1, "ann"], [2, "bob"])]
RELATIONS += [view(f"v{n}", f"select k from {it} union all select k from {it}") for n, it in enumerate(["a", "v1", "v2", "v3", "v4", "v5"], 1)]
COLUMNS = ["who text", "id int", "x int", "a int", "b int", "c int", "_x9 text", f"{'a' * 63} int"]


def outcome(answer: dict[str, Any]) -> str:
    """`ok`, or the place and the reason of a fault."""
    return "ok" if answer.get("ok") else f"{answer.get('place')} {answer.get('why')}"


def compare_columns(query: str, wanted: str) -> None:
    """Its view has columns of these names and kinds: another query names them, compares each with a literal of its kind, has as many columns, and
    shows the same rows."""
    columns = [it.split(" ") for it in wanted.split(", ")]
    names, tests = ", ".join(name for name, _ in columns), " and ".join(f"{name} = {LITERALS[kind]}" for name, kind in columns)
    asked = [view("q", query), view("named", f"select {names} from q"), view("compared", f"select {names} from q where {tests}")]
    asked += [view("both", f"select * from q union all select {names} from q")]
    *made, (_, own), (_, named) = told([*RELATIONS, *asked, subscribe("q"), subscribe("named")])[len(RELATIONS) :]
    expect(query, ["ok"] * 4, [outcome(answer) for answer, _ in made])
    expect(query, own, named)


def compare_queries(lines: list[Line]) -> int:
    faults = [it for it in lines if it[1][:1].isdigit()]
    for query, columns in lines:
        if (query, columns) not in faults:
            compare_columns(query, columns)
    found = told([*RELATIONS, *(view("q", query) for query, _ in faults)])[len(RELATIONS) :]
    for (query, fault), (answer, _) in zip(faults, found, strict=True):
        expect(query, fault, outcome(answer))
    return len(lines)


def compare_policies(lines: list[Line]) -> int:
    """Each policy is dropped again; if it was refused, that is refused too."""
    asked = [it for text, _ in lines for it in ({"do": "create_policy", "on": "t", "name": "p", "using": text}, {"do": "drop_policy", "on": "t", "name": "p"})]
    found = told([table("t", *COLUMNS), *asked])[1::2]
    for (text, wanted), (answer, _) in zip(lines, found, strict=True):
        expect(text, wanted, outcome(answer))
    return len(lines)


def beginnings_of(query: str, outcomes: str) -> Iterator[Line]:
    """Each text that begins the query, the whole one too, and its outcome where there is no table or view."""
    first, source = 0, query.index(" from ") + len(" from ")
    for it in outcomes.split("; "):
        wanted, last = it.split(" to ")
        for end in range(first, int(last) + 1):
            yield query[:end], {"read": f"{source} unknown relation", "ends": f"{end} unexpected"}.get(wanted, wanted)
        first = int(last) + 1
    if first != len(query) + 1:
        raise ValueError(f"the outcomes of {query!r} are of {first} texts")


def compare_beginnings(lines: list[Line]) -> int:
    wanted = [it for query, outcomes in lines for it in beginnings_of(query, outcomes)]
    for (text, fault), (answer, _) in zip(wanted, told([view("q", text) for text, _ in wanted]), strict=True):
        expect(text, fault, outcome(answer))
    return len(wanted)


def lists(text: str) -> dict[str, list[Line]]:
    """The lines of each list by its name: each a text and what it comes to."""
    found: dict[str, list[Line]] = {}
    name = ""
    for line in text.splitlines():
        if re.fullmatch(r"\[\w+\]", line):
            name = line[1:-1]
        elif line and not line.startswith("#"):
            asked, arrow, wanted = line.partition(" => ")
            if not arrow:
                raise ValueError(f"a line has no outcome: {line}")
            found.setdefault(name, []).append((re.sub(r"\\[0tnr]", lambda it: BYTES[it[0]], asked), wanted))
    return found


def main(_: list[str]) -> int:
    page, listed = contents("docs", "PROTOCOL.md"), lists(contents(".ci", "queries.txt"))
    constructs, faults = CONSTRUCT.findall(page), FAULT.findall(page)
    expect("queries in PROTOCOL, of each kind ten at least", True, min(len(constructs), len(faults)) >= 10)
    compared.runs = compare_queries(constructs + faults) + compare_queries(listed["queries"])
    compared.runs += compare_policies(listed["policies"]) + compare_beginnings(listed["beginnings"])
    return compared.tell()
