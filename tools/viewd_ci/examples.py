"""Runs the examples through the built program and compares the answers byte for byte.

The examples are the files examples/**/NAME.jsonl, with the answers in NAME.answers.jsonl beside
them, and further words for `replay`, one a line, in NAME.args if there is such a file, and the blocks of docs/PROTOCOL.md and docs/TOUR.md.
`first_change` is also run by so many lines, cut off after each byte, and as a dialogue over pipes, in which each request is sent when the answers to the
one before have come; `cap_in_a_table` also without `--rows`. After them come the exit statuses and the words on standard error, with words of the command
line that are refused. VIEWD names another program to run.
"""
import contextlib
import os
import re
import subprocess
import threading
from collections.abc import Sequence
from typing import Any

from viewd_ci import common
from viewd_ci.common import TOP, Comparison

PROGRAM = os.environ.get("VIEWD", common.PROGRAM)
EXAMPLES = os.path.join(TOP, "examples")
ANSWERS = ".answers.jsonl"
# of a run on a slow host: only one that hangs comes to it
SECONDS = 600
compared = Comparison("examples")
expect = compared.expect


def contents(path: str) -> bytes:
    with open(path, "rb") as file:
        return file.read()


def run(words: Sequence[str | bytes], **ends: Any) -> tuple[int, bytes, bytes]:
    """The status, standard output and standard error of a run of the program."""
    compared.runs += 1
    done = subprocess.run([PROGRAM, *words], stderr=subprocess.PIPE, timeout=SECONDS, **ends)
    return done.returncode, done.stdout, done.stderr


def expect_answers(what: str, words: list[str], requests: bytes, answers: bytes) -> None:
    expect(what, (0, answers, b""), run(words, input=requests, stdout=subprocess.PIPE))


def example_names() -> list[str]:
    """The examples' paths without their ending; each file has the one that it goes with, and each example its line in README.md."""
    paths = [os.path.join(folder, name) for folder, _, names in os.walk(EXAMPLES) for name in names]
    told = re.findall(r"^\| ([a-z0-9_/]+) \| \S", contents(os.path.join(EXAMPLES, "README.md")).decode(), re.M)
    paths.remove(os.path.join(EXAMPLES, "README.md"))
    names = sorted(path[: -len(ANSWERS)] for path in paths if path.endswith(ANSWERS))
    expect("the examples of README.md", [os.path.relpath(it, EXAMPLES) for it in names], sorted(it for it in told if it != "example"))
    words = [name + ".args" for name in names if name + ".args" in paths]
    expect("the files of examples/", sorted(paths), sorted([n + end for n in names for end in (".jsonl", ANSWERS)] + words))
    return names


def words_of(name: str) -> list[str]:
    """The words for `replay` with which an example runs."""
    path = name + ".args"
    return ["replay", *(contents(path).decode().splitlines() if os.path.exists(path) else [])]


def compare_files() -> None:
    for name in example_names():
        expect_answers(os.path.relpath(name, TOP), words_of(name), contents(name + ".jsonl"), contents(name + ANSWERS))
    first = os.path.join(EXAMPLES, "first_change")
    answers = contents(first + ANSWERS).splitlines(keepends=True)
    # each of the first six requests has one line of answer, and the seventh has two
    for lines in (1, 2, 3, 5, 6, 7, 8, 65536, 4294967295):
        wanted = b"".join(answers[: lines if lines < 7 else 8])
        expect_answers(f"first_change, {lines} lines", ["replay", "--lines", str(lines)], contents(first + ".jsonl"), wanted)
    for words in (["--lines", "007"], ["--lines=7"], ["--lines=7", "--rows=1024"], ["--rows", "1048576", "--lines", "7"]):
        expect_answers(f"first_change, {words}", ["replay", *words], contents(first + ".jsonl"), b"".join(answers))
    # without --lines a million are answered
    expect_answers("a million lines and one more", ["replay"], b"x\n" * 1_000_001, b'{"error":1}\n' * 1_000_000)


def compare_cut_off() -> None:
    """`first_change` without its end, after each byte: what is whole is answered, and a part of a line is no JSON value."""
    example = os.path.join(EXAMPLES, "first_change")
    requests, answers = contents(example + ".jsonl"), contents(example + ANSWERS).splitlines(keepends=True)
    for end in range(len(requests)):
        front, behind = requests[:end], requests[end : end + 1]
        whole = front.count(b"\n") + (behind == b"\n")
        is_damaged = not front.endswith(b"\n") and front != b"" and behind != b"\n"
        wanted = b"".join(answers[: whole if whole < 7 else 8]) + b'{"error":1}\n' * is_damaged
        expect_answers(f"the first {end} bytes of first_change", ["replay"], front, wanted)


def compare_row_limits() -> None:
    """The rows of `cap_in_a_table` without `--rows`: the one beyond 1,024 is accepted too."""
    example = os.path.join(EXAMPLES, "cap_in_a_table")
    answers = contents(example + ANSWERS).replace(b'{"error":17,"session":1}', b'{"ok":true,"session":1}')
    expect_answers("cap_in_a_table without --rows", ["replay"], contents(example + ".jsonl"), answers)


def compare_document(name: str) -> list[list[bytes]]:
    """The conversations of a document: a block of requests is followed by one of answers; one marked `new` begins a new run."""
    blocks = re.findall(rb"^```jsonl (requests|new requests|answers)\n(.*?)^```$", contents(os.path.join(TOP, name)), re.M | re.S)
    conversations = []
    for (kind, requests), (answered, answers) in zip(blocks[::2], blocks[1::2]):
        expect(f"the order of the blocks in {name}", (True, b"answers"), (kind != b"answers", answered))
        if kind == b"new requests":
            conversations.append([b"", b""])
        conversations[-1][0] += requests
        conversations[-1][1] += answers
        expect_answers(f"{name} up to {requests[:80]!r}", ["replay"], *conversations[-1])
    expect(f"blocks in {name}", (True, 0), (len(blocks) > 0, len(blocks) % 2))
    return conversations


def compare_tour() -> None:
    """The tour goes through the lines of one example."""
    example = os.path.join(EXAMPLES, "support_desk")
    told = compare_document("docs/TOUR.md")
    expect("the lines of docs/TOUR.md", [[contents(example + ".jsonl"), contents(example + ANSWERS)]], told)


def compare_dialogue() -> None:
    """Each request is sent when the answers to the one before have come."""
    compared.runs += 1
    first = os.path.join(EXAMPLES, "first_change")
    answers = contents(first + ANSWERS).splitlines(keepends=True)
    with subprocess.Popen([PROGRAM, "replay"], stdin=subprocess.PIPE, stdout=subprocess.PIPE, bufsize=0) as running:
        late = threading.Timer(SECONDS, running.kill)
        late.daemon = True
        late.start()
        assert running.stdin and running.stdout
        for place, request in enumerate(contents(first + ".jsonl").splitlines(keepends=True)):
            with contextlib.suppress(BrokenPipeError):  # if it has ended, it has not answered
                running.stdin.write(request)
            for wanted in answers[place : place + 1 if place < 6 else 8]:
                expect(f"the answer to line {place + 1} over a pipe", wanted, running.stdout.readline())
        running.stdin.close()
        expect("the end of a dialogue over a pipe", b"", running.stdout.read())
        late.cancel()
    expect("the status of a dialogue over a pipe", 0, running.returncode)


def compare_statuses() -> None:
    first = contents(os.path.join(EXAMPLES, "first_change.jsonl"))
    cases: list[tuple[Sequence[str | bytes], bytes]] = [
        ([], b"requires a subcommand"),
        (["listen"], b"unrecognized subcommand 'listen'"),
        (["replay", "--lines", "0"], b"invalid value '0'"),
        (["replay", "--lines", "4294967296"], b"invalid value '4294967296'"),
        (["replay", "--lines", "many"], b"invalid value 'many'"),
        (["replay", "--lines", "1.0"], b"invalid value '1.0'"),
        (["replay", "--lines", "1 "], b"invalid value '1 '"),
        (["replay", "--lines", "1_000"], b"invalid value '1_000'"),
        (["replay", "--lines", "0x10"], b"invalid value '0x10'"),
        (["replay", "--lines", "18446744073709551617"], b"invalid value '18446744073709551617'"),
        (["replay", "--lines"], b"--lines"),
        (["replay", "--lines", ""], b"invalid value ''"),
        (["replay", "--lines", "-1"], b"'-1'"),
        (["serve", "--host", "::1"], b"'--host'"),
        (["serve", "--port", "7171", "--rows", "0"], b"invalid value '0'"),
        (["replay", "--rows", "1023"], b"invalid value '1023'"),
        (["replay", "--rows", "1048577"], b"invalid value '1048577'"),
        (["serve", "--port", "7171", "--rows", "1023"], b"invalid value '1023'"),
        (["serve", "--port", "7171", "--rows", "1048577"], b"invalid value '1048577'"),
        (["replay", "--port", "1"], b"'--port'"),
        (["replay", "more"], b"'more'"),
        ([b"\xff"], b"not text"),
    ]
    for words, said in cases:
        status, written, told = run(words, input=first, stdout=subprocess.PIPE)
        expect(f"the words {words}", (1, b"", True), (status, written, said in told))
    for words in (["--help"], ["replay", "--help"]):
        status, written, told = run(words, input=first, stdout=subprocess.PIPE)
        expect(f"the words {words}", (0, True, b""), (status, b"Usage: viewd" in written, told))
    written = run(["--help"], input=first, stdout=subprocess.PIPE)[1]
    for said in (b"viewd replay < ", b"viewd serve --port 7171", b"3  out of memory", b"Who may connect: "):
        expect(f"what --help says has {said!r}", 1, written.count(said))
    for words in (["replay", "--help"], ["serve", "--help"]):
        status, written, told = run(words, input=first, stdout=subprocess.PIPE)
        bound = b"--rows <N>" in written and b"different rows" in written and b"[default: 65536]" in written
        expect(f"what {words} say of --rows", (0, True, b""), (status, bound, told))
        counts = 1 if words[0] == "replay" else 2
        expect(f"what {words} say of --lines and --connections", counts, written.count(b"[default: 1000000]"))
    status, written, told = run(["--version"], input=first, stdout=subprocess.PIPE)
    expect("the words ['--version']", (0, b"viewd 1.0.0\n", b""), (status, written, told))
    folder = os.open(TOP, os.O_RDONLY)
    expect("a folder as standard input", (2, b"", b"viewd: read failed\n"), run(["replay"], stdin=folder, stdout=subprocess.PIPE))
    with open("/dev/full", "wb") as full:
        expect("full standard output", (2, None, b"viewd: write failed\n"), run(["replay"], input=first, stdout=full))
    reading, writing = os.pipe()
    os.close(reading)
    expect("standard output that nobody reads", (2, None, b"viewd: write failed\n"), run(["replay"], input=first, stdout=writing))


PARTS = [
    compare_files,
    compare_cut_off,
    compare_row_limits,
    lambda: compare_document("docs/PROTOCOL.md"),
    compare_tour,
    compare_dialogue,
    compare_statuses,
]


def main(_: list[str]) -> int:
    for part in PARTS:
        part()
    return compared.tell()
