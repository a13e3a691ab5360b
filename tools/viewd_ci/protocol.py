"""Compares docs/protocol.toml, which has viewd's requests, refusals and limits, with the tables of docs/PROTOCOL.md and with the definitions.

usage: .ci/protocol             fails if they differ
       .ci/protocol --write     writes the tables

The requests and their keys are those of `forms` (iv_request), and a refusal names in its text the requests that have it among theirs. Each
refusal with a `definition` is a case of `refused_members` (iv_lines, Texts) with this number and these keys, and each such case is
a refusal. The reasons are the texts of `reading_text` and `binding_text`. The file of a limit has its text `says`, once.
"""
import re
import sys
import tomllib
from typing import Any

from viewd_ci.common import contents, write

PAGE = "docs/PROTOCOL.md"
KNOWN = "docs/protocol.toml"
TEXTS = "iv_lines/specs/Texts"
FORMS = "iv_request/specs/Forms"
REQUESTS = ["`do`", "further keys", "what it does", "refusals, in the order in which they are looked for"]
REFUSALS = ["number", "name", "further keys", "when"]
LIMITS = ["what", "at most", "beyond it"]


def definition(name: str) -> str:
    return contents("crates", f"{name}.antt")


def table(head: list[str], rows: list[list[str]]) -> str:
    """A table of Markdown."""
    lines = [head, ["---"] * len(head), *rows]
    return "".join("|" + "".join(f" {cell} |" if cell else " |" for cell in line) + "\n" for line in lines).replace(" --- |", "---|")


def keys_of(it: dict[str, Any]) -> str:
    """The cell of a refusal's further keys."""
    return ", ".join(f"`{key}`" for key in it.get("keys", [])) if it.get("session", True) else "no `session`"


def request_keys(it: dict[str, Any]) -> str:
    """The cell of a request's further keys."""
    keys, optional = (", ".join(f"`{key}`" for key in it.get(kind, [])) for kind in ("keys", "optional"))
    return f"{keys}, and, if they are needed, {optional}" if optional else keys


def tables(known: dict[str, Any]) -> dict[str, str]:
    """By the title of its section each table that is written."""
    requests = [[f"`{it['do']}`", request_keys(it), it["what"], it["refusals"]] for it in known["request"]]
    refusals = [[str(it["number"]), it["name"], keys_of(it), it["when"]] for it in known["refusal"]]
    limits = [[it["what"], it["most"], it["beyond"]] for it in known["limit"]]
    return {"Requests": table(REQUESTS, requests), "Refusals": table(REFUSALS, refusals), "Limits": table(LIMITS, limits)}


def written(page: str, made: dict[str, str]) -> tuple[str, list[str]]:
    """The page with these tables in the place of the first of each section, and the sections that have none."""
    lacking = []
    for title, it in made.items():
        found = re.search(rf"(?ms)^## {title}\n(?:(?!^## ).)*?(^\|.*?\n)(?!\|)", page)
        if found:
            page = page[: found.start(1)] + it + page[found.end(1) :]
        else:
            lacking.append(title)
    return page, lacking


def cases(texts: str) -> dict[str, tuple[int, set[str]]]:
    """By the name of each case of a refusal its number and its further keys, as the definition has them."""
    found = {}
    for name, body in re.findall(r"(?m)^refused_members \(?machine\.(\w+)[^=\n]*\)? =\s*((?:.+\n)(?: +.+\n)*)", texts):
        [number] = re.findall(r"plain_members (\d+)|entry_refused (\d+)|\"error\"\) \(natural (\d+)\)", body)
        keys = {*re.findall(r'codes "(\w+)"', body)} | ({"entry"} if "entry_refused" in body else set())
        found[name] = int("".join(number)), keys - {"error"}
    return found


def in_definitions(known: dict[str, Any], texts: str) -> list[str]:
    """What the file says of refusals, reasons and limits otherwise than the definitions."""
    wrong: list[str] = []
    defined, told = cases(texts), {it["definition"]: it for it in known["refusal"] if "definition" in it}
    for name in sorted({*defined} ^ {*told}):
        wrong.append(f"the refusal {name} is {'no case of the definition' if name in told else f'a case, and is not in {KNOWN}'}")
    for name, (number, keys) in defined.items():
        if name in told and (told[name]["number"], {*told[name].get("keys", [])}) != (number, keys):
            wrong.append(f"the refusal {name} has the number {number} and the keys {' '.join(sorted(keys)) or 'none'} by its definition")
    reasons = re.findall(r'(?m)^(?:reading|binding)_text \w+\.\w+ = codes "([a-z ]+)"$', texts)
    if sorted(reasons) != sorted(known["reasons"]):
        wrong.append(f"the reasons are {reasons} by their definition")
    for it in known["limit"]:
        if definition(it["file"]).count(it["says"]) != 1:
            wrong.append(f"the limit of {it['what']}: {it['file']} has not once: {it['says']}")
    return wrong


def in_forms(known: dict[str, Any], text: str) -> list[str]:
    """What the file says of requests otherwise than their forms, or than the refusals say."""
    [policy] = re.findall(r"(?m)^policy_keys = (.*)$", text)
    forms = re.findall(r'form \w+ \(codes "(\w+)"\) (\[\]|\([^)]*(?:\("[^)]*\)[^)]*)*\)) (\[\]|policy_keys)', text)
    defined = [(do, re.findall(r'"(\w+)"', keys), re.findall(r'"(\w+)"', policy if more == "policy_keys" else "")) for do, keys, more in forms]
    told = [(it["do"], it["keys"], it.get("optional", [])) for it in known["request"]]
    wrong = [f"the request {it[0]} has other keys in {KNOWN} than in {FORMS}, or another place" for it in told if it not in defined]
    if [it[0] for it in told] != [it[0] for it in defined]:
        wrong.append(f"the requests are {[it[0] for it in defined]} by their definition")
    for it in known["request"]:
        numbers = {int(number) for number in re.findall(r"\d+", it["refusals"])}
        for refusal in known["refusal"]:
            named = re.findall(r"`(\w+)`", refusal["when"])
            if {*named} & {other["do"] for other in known["request"]} and (it["do"] in named) != (refusal["number"] in numbers):
                wrong.append(f"the refusal {refusal['number']} says otherwise than {it['do']} whether it is one of its refusals")
    return wrong


def main(words: list[str]) -> int:
    if words not in ([], ["--write"]):
        sys.exit(__doc__)
    known, had = tomllib.loads(contents(KNOWN)), contents(PAGE)
    has, lacking = written(had, tables(known))
    failures = [f"{PAGE} has no table below {title}" for title in lacking]
    failures += in_definitions(known, definition(TEXTS)) + in_forms(known, definition(FORMS))
    if words:
        write(has, PAGE)
    elif had != has:
        old = had.split("\n")
        failures += [f"{PAGE} should say: {it}" for it in has.split("\n") if it not in old]
        failures.append(f"{PAGE} has other tables: .ci/protocol --write writes them")
    for it in failures:
        print(f"protocol: {it}")
    print(f"protocol: {len(known['request']) + len(known['refusal']) + len(known['limit'])} requests, refusals and limits, {len(failures)} failures")
    return 1 if failures else 0
