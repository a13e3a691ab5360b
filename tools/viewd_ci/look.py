"""Runs `./viewd try`, which needs the kit and no proof, and compares what it writes byte for byte."""
import os
import shutil
import subprocess
import tempfile
import time
from concurrent.futures import ThreadPoolExecutor
from typing import Any

from viewd_ci.common import TOP, Comparison

VIEWD = os.path.join(TOP, "viewd")
# of three compilations side by side on a slow host
SECONDS = 3600
compared = Comparison("try")
expect = compared.expect


def contents(name: str) -> bytes:
    with open(os.path.join(TOP, "examples", name), "rb") as file:
        return file.read()


FIRST = contents("first_change.jsonl")


def run(words: list[str], path: str = os.environ["PATH"]) -> tuple[int, bytes, bytes]:
    """The status, standard output and standard error of a run from another folder, whose input is silent for a while before its last line."""
    compared.runs += 1
    start, end = FIRST[:-10], FIRST[-10:]
    with tempfile.TemporaryDirectory() as elsewhere:
        how: dict[str, Any] = {"cwd": elsewhere, "env": os.environ | {"PATH": path}, "bufsize": 0}
        running = subprocess.Popen([VIEWD, "try", *words], stdin=subprocess.PIPE, stdout=subprocess.PIPE, stderr=subprocess.PIPE, **how)
        assert running.stdin
        try:
            running.stdin.write(start)
            time.sleep(3)
        except BrokenPipeError:
            end = b""  # it has ended
        try:
            # a broken pipe ends what communicate writes, and nothing else
            written, told = running.communicate(end or None, timeout=SECONDS)
        except subprocess.TimeoutExpired:
            running.kill()
            running.wait()
            written, told = b"", f"it did not end in {SECONDS} seconds".encode()
    return running.returncode, written, told


def answers_the_first_change() -> None:
    status, written, told = run([])
    expect("try: status and answers", (0, contents("first_change.answers.jsonl")), (status, written))
    expect(f"try says what is not proved, and what proves it: {told!r:.400}", True, b"not proved" in told and b"./viewd replay" in told)


def hands_its_words_on() -> None:
    status, written, told = run(["--rows", "1023"])
    expect(f"try --rows 1023: {told!r:.400}", (1, b"", True), (status, written, b"invalid value '1023'" in told))


def says_that_there_is_no_kit() -> None:
    """With nothing on the path but what ./viewd needs before it looks for the kit."""
    with tempfile.TemporaryDirectory() as tools:
        for name in ("dirname", "readlink"):
            os.symlink(shutil.which(name) or name, os.path.join(tools, name))
        status, written, told = run([], tools)
    expect(f"try with no kit on the path: {told!r:.400}", (1, b"", True), (status, written, b"no Rattle kit on the path" in told))


RUNS = [answers_the_first_change, hands_its_words_on, says_that_there_is_no_kit]


def main(_: list[str]) -> int:
    with ThreadPoolExecutor() as pool:
        for ended in [pool.submit(it) for it in RUNS]:
            ended.result()
    return compared.tell()
