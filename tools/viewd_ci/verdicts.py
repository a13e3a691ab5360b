"""What came of an edit by what a check of the edited functions says."""
import re

from viewd_ci.functions import Function

REFUSED, NOT_REFUSED, BAD = "refused", "NOT REFUSED", "BAD EDIT"
REFUTED, NOT_REFUTED = "refuted", "NOT REFUTED"
# an answer that names what is not there any more, and answers that are not read since a borrow is none that the check covers
GONE = re.compile(r"has no `|does not read `|is not in scope|has no field|that can be named from here|was not admitted, was not checked")


def reasons(lines: list[str], crate: str, function: Function) -> tuple[list[str], list[str]]:
    """What the check says of the function itself: why it is refused, and which of its answers only name what is gone. A goal whose
    answer names what is gone is not told, and if an invariant does, no goal of the function is."""
    name = function.path.split("::")[-1]
    of_cycle = function.proof.rpartition("+")[2] if "+" in function.proof else name
    # the answers of a cycle of several functions begin with the function's name
    begins = "" if of_cycle == name else f"(?:decreases-)?{name}\\b"
    own = f"./proofs/{re.escape(function.proof)}/"
    errors = [it for it in lines if re.match(rf"{own}\S+ error: (`{begins}|(?!`))", it)]
    gone = [it for it in errors if GONE.search(it)]
    untold = {it for line in gone for it in re.findall(r"error: `([^`]*)`", line)}
    if any("/Invariants.antt:" in it for it in gone):
        return [], gone
    refused = [it for it in errors if it not in gone]
    for line in lines:
        note = re.match(r"note: (src/\S+?):(\d+):\d+: it is not proved.*?\(`([^`]*)`\)", line)
        if note and note[1] == function.file and function.first_line <= int(note[2]) <= function.last_line:
            refused += [line] * (note[3] not in untold)
        told = re.match(rf"fn {crate}::{re.escape(function.path)}: .* did not prove (.*)", line)
        if told and {*re.findall(r"`([^`]*)`", told[1])} - untold:
            refused.append(line)
    return refused, gone


def judge(crate: str, function: Function, lines: list[str]) -> tuple[str, str]:
    """What came of an edit that turns the function by what the check says, and why."""
    path = function.path
    refused, gone = reasons(lines, crate, function)
    if refused:
        return REFUSED, f"at {path}: {refused[0]}"
    if gone:
        return BAD, f"nothing but names that it took away: {gone[0]}"
    told = next((it for it in lines if it.startswith(f"fn {crate}::{path}: ")), None)
    if told:
        return NOT_REFUSED, told
    errors = [it for it in lines if re.search(r"\berror\b", it)]
    return BAD, f"no check came to {path}: {(errors or lines)[0]}"


def judge_refuted(path: str, clause: str, lines: list[str]) -> tuple[str, str]:
    """What came of an edit that refutes the clause of the law of the path."""
    errors = [it for it in lines if re.search(r"\berror\b", it)]
    if not errors and any(re.match(r"only=1 proved=1$", it) for it in lines):
        return REFUTED, f"{path} is false: {clause}"
    return NOT_REFUTED, (errors or lines or ["no check came"])[0]
