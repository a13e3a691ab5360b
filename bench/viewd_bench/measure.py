"""What the benchmarks share: the programs that are measured, a run of one, and the slope of costs over sizes."""
import dataclasses
import hashlib
import math
import os
import shutil
import statistics
import subprocess
import sys
import threading
import time
from collections.abc import Iterable, Iterator, Sequence
from typing import Any

from viewd_bench.workloads import Request, request, text_of

TOP = os.path.dirname(os.path.dirname(os.path.dirname(os.path.abspath(__file__))))
# no session has this number, so the answer is the last one of what was told, and the program waits
LAST = request("finish", 4_294_967_295)
LAST_ANSWER = b'{"error":3,"session":4294967295}\n'


def own_program() -> str:
    """The program of this tree, proved and built first if it is not; VIEWD names another."""
    named = os.environ.get("VIEWD")
    subprocess.run([named or os.path.join(TOP, "viewd"), "--help"], check=True, stdout=subprocess.DEVNULL)
    return named or os.path.join(TOP, "crates", "viewd", "out", "viewd")


def other_program(word: str, room: str) -> str:
    """The program of that path, or that of a commit, which is proved and built first."""
    if os.path.isfile(word) and os.access(word, os.X_OK):
        return word
    clone = os.path.join(room, "other")
    subprocess.run(["git", "clone", "--quiet", TOP, clone], check=True)
    subprocess.run(["git", "-C", clone, "checkout", "--quiet", word], check=True)
    subprocess.run([os.path.join(clone, "viewd"), "--help"], check=True, stdout=subprocess.DEVNULL)
    return os.path.join(clone, "crates", "viewd", "out", "viewd")


def counting_shim(room: str) -> str:
    """A library that counts the requests for memory of the program before which it is put."""
    kit = os.path.dirname(os.path.dirname(os.path.realpath(shutil.which("rt") or sys.exit("bench: there is no Rattle kit on the path (rt)"))))
    shim = os.path.join(room, "refuse.so")
    clang = os.path.join(kit, "toolchain", "bin", "clang")
    subprocess.run([clang, "-O2", "-shared", "-fPIC", "-nostdlib", "-o", shim, os.path.join(TOP, ".ci", "refuse.c")], check=True)
    return shim


def processor_seconds(process: int) -> float:
    """Of a process, of all its threads, so far."""
    return time.clock_gettime(~process << 3 | 2)


@dataclasses.dataclass
class Told:
    """What was answered to some requests, and what that took."""

    seconds: float = 0.0
    ok: int = 0
    limits: int = 0


class Run:
    """A replay that is told its requests part by part, so that each part is measured alone."""

    def __init__(self, program: str, words: Iterable[str] = (), **how: Any) -> None:
        self.program = program
        self.child = subprocess.Popen([program, "replay", *words], stdin=subprocess.PIPE, stdout=subprocess.PIPE, pipesize=1 << 20, **how)
        self.digest = hashlib.sha256()

    def tell(self, part: bytes) -> Told:
        """Of a part, what was answered and the processor time that it took."""
        told, before = Told(), processor_seconds(self.child.pid)
        for lines in self.answers(part):
            self.digest.update(lines)
            told.ok += lines.count(b'"ok":true')
            told.limits += lines.count(b'"error":17')
        told.seconds = processor_seconds(self.child.pid) - before
        return told

    def answers(self, part: bytes) -> Iterator[bytes]:
        """Tells a part, and gives the lines that come, some whole ones at a time."""
        writing = threading.Thread(target=self.write, args=[part], daemon=True)
        writing.start()
        assert self.child.stdout
        lines, rest = b"", b""
        while not lines.endswith(LAST_ANSWER):
            read = os.read(self.child.stdout.fileno(), 1 << 20)
            if not read:
                sys.exit(f"bench: {self.program} ended with status {self.child.wait()} before all was answered")
            lines, newline, rest = (rest + read).rpartition(b"\n")
            lines += newline
            yield lines
        writing.join()

    def write(self, part: bytes) -> None:
        assert self.child.stdin
        try:
            self.child.stdin.write(part)
            self.child.stdin.flush()
        except BrokenPipeError:
            pass

    def peak(self) -> int:
        """The most memory that it had at once, in bytes."""
        with open(f"/proc/{self.child.pid}/status", encoding="ascii") as file:
            return next(int(line.split()[1]) * 1024 for line in file if line.startswith("VmHWM"))

    def end(self) -> None:
        assert self.child.stdin and self.child.stdout
        self.child.stdin.close()
        rest = self.child.stdout.read()
        if self.child.wait() or rest:
            sys.exit(f"bench: {self.program} ended with status {self.child.returncode}, and {len(rest)} bytes behind its last answer")


def part_of(requests: Iterable[Request]) -> bytes:
    """The text of some requests and of LAST, by whose answer their end is known."""
    return text_of([*requests, LAST])


def asked(program: str, parts: Iterable[bytes], shim: str, words: Iterable[str] = ()) -> int:
    """How often memory was asked for."""
    read, write = os.pipe()
    run = Run(program, words, pass_fds=[write], env=dict(os.environ, LD_PRELOAD=shim, REFUSE="0", REFUSE_TELL=str(write)))
    for part in parts:
        run.tell(part)
    run.end()
    os.close(write)
    with os.fdopen(read) as told:
        return int(told.read())


def slope(sizes: Sequence[float], costs: Sequence[float]) -> float:
    """Of the line through log cost over log size, by least squares."""
    return statistics.linear_regression([math.log(it) for it in sizes], [math.log(it) for it in costs]).slope
