"""The door for logs of ./gateway (docs/LOG.md), as it is spoken by a keeper: a program that brings a gateway what is decided elsewhere.

A thread of its own reads what the gateway says, so that neither side waits for the other to read.
"""
import contextlib
import json
import os
import pathlib
import queue
import socket
import subprocess
import sys
import threading
import time
from collections.abc import Iterable, Iterator
from typing import IO, Any, NamedTuple

FORM = 1  # of the door's lines
LONGEST = 130_816  # bytes of a line without its newline
AHEAD = 10_000  # lines of the gateway's that wait for this side
ENDING = 60.0  # seconds that a gateway has to end by itself

TRIES, WAIT = 100, 0.1  # at a gateway that does not listen yet, and seconds between them

Request = dict[str, Any]


class Kept(Exception):
    """The gateway holds what cannot be gone on from. The text says what to do."""


class Ended(Exception):
    """The gateway is not there any more, or has said that something cannot be. The text says why."""


class Held(NamedTuple):
    """What the gateway has on its disk."""

    rows: int  # different ones of a table that it can hold
    log: str = ""  # empty: it follows none yet
    epoch: str = ""
    position: int = 0


def line(it: Request) -> bytes:
    return json.dumps(it, ensure_ascii=False, separators=(",", ":")).encode()


def number_of(text: bytes, least: int) -> int:
    """Of a line that says what is on disk: that grows. Raises ValueError."""
    if not text.endswith(b"}\n") or not text[11:-2].isdigit() or (number := int(text[11:-2])) < least:
        raise ValueError
    return number


class Door:
    def __init__(self, given: IO[bytes], taken: IO[bytes]):
        self.given, self.taken = given, taken
        self.on_disk = 0
        self.heard = 0.0  # when it said that last
        self.part: list[bytes] = []  # of a step that the gateway decides
        self.why = ""  # the other side has ended
        self.said: queue.Queue[bytes] = queue.Queue(AHEAD)
        self.changed = threading.Condition()
        threading.Thread(target=self.read, daemon=True).start()

    def read(self) -> None:
        why = "the gateway has ended"
        try:
            for text in iter(lambda: self.given.readline(LONGEST + 1), b""):
                if text.startswith(b'{"on_disk":'):
                    self.keep(number_of(text, self.on_disk))
                elif text.startswith(b'{"fault":'):
                    why = f"the gateway says: {json.loads(text)['fault']}"
                elif text.endswith(b"\n"):
                    self.said.put(text[:-1])
                elif len(text) > LONGEST:
                    raise ValueError
        except (ValueError, RecursionError):
            why = f"the gateway said what is no line: {text[:200]!r}"
        except OSError:
            pass
        with self.changed:
            self.why = why
            self.changed.notify()
        self.said.put(b"")

    def keep(self, position: int) -> None:
        with self.changed:
            self.on_disk, self.heard = position, time.monotonic()
            self.changed.notify()

    def say(self, text: bytes) -> None:
        try:
            self.taken.write(text + b"\n")
        except OSError:
            self.end()

    def flush(self) -> None:
        try:
            self.taken.flush()
        except OSError:
            self.end()

    def end(self) -> None:
        """What cannot be written to it. It may have said why."""
        with self.changed:
            self.changed.wait_for(lambda: bool(self.why), 1)
        raise Ended(self.why or "the gateway has ended")

    def hear(self, seconds: float | None = None) -> bytes:
        """Its next line; empty if none comes so long. Raises Ended."""
        try:
            text = self.said.get(timeout=seconds)
        except queue.Empty:
            return b""
        if not text:
            raise Ended(self.why)
        return text

    def hello(self) -> Held:
        text = self.hear()
        try:
            one = json.loads(text)
            if one["door"] != FORM:
                raise ValueError
            self.on_disk = int(one.get("position", 0))
            return Held(int(one["rows"]), str(one.get("log", "")), str(one.get("epoch", "")), self.on_disk)
        except (ValueError, KeyError, TypeError):
            raise Ended(f"the gateway's door has another form than {FORM}: {text[:200]!r}") from None

    def recall(self) -> Iterator[bytes]:
        """What it holds: the entries that it was told, as they were told."""
        self.say(b'{"recall":true}')
        self.flush()
        while not (text := self.hear()).startswith(b'{"recalled":'):
            yield text

    def begin(self, log: str, epoch: str) -> None:
        self.say(line({"begin": log, "epoch": epoch}))

    def go_on(self, log: str, epoch: str) -> None:
        self.say(line({"go_on": log, "epoch": epoch}))

    def step(self, start: int, end: int, lines: Iterable[bytes]) -> None:
        for it in lines:
            self.say(it)
        self.say(b'{"from":%d,"step":%d}' % (start, end))

    def lead(self) -> None:
        """All that the log has was brought: the gateway decides from here on."""
        self.say(b'{"lead":true}')
        self.flush()

    def decided(self, position: int, seconds: float, most: int, size: int) -> list[list[bytes]]:
        """Up to so many steps that a gateway has decided after a position, and none after so many bytes: waits so long for the first. Raises Ended."""
        steps, end = list[list[bytes]](), time.monotonic() + seconds
        while len(steps) < most and size > 0 and (text := self.hear(0 if steps else max(0, end - time.monotonic()))):
            at = position + len(steps)
            if text == b'{"from":%d,"step":%d}' % (at, at + 1):
                size -= sum(map(len, self.part))
                steps.append(self.part)
                self.part = []
            elif text.startswith((b'{"as":"', b'{"once":"')) and len(self.part) < AHEAD:
                self.part.append(text)
            else:
                raise Ended(f"the gateway leads behind step {at}, and says {text[:200]!r}")
        return steps

    def has(self, position: int) -> None:
        """All that the gateway has decided up to there is in the log. It answers by what is on its disk."""
        self.say(b'{"kept":%d}' % position)
        self.flush()

    def open(self, is_open: bool) -> None:
        """Whether clients may come in."""
        self.say(line({"open": is_open}))
        self.flush()

    def kept(self) -> int:
        """Up to which position it has the steps on its disk. Raises Ended."""
        with self.changed:
            if self.why:
                raise Ended(self.why)
            return self.on_disk

    def wait(self, position: int, seconds: float) -> None:
        """Until it has that on its disk, or so long."""
        end = time.monotonic() + seconds
        with self.changed:
            self.changed.wait_for(lambda: bool(self.why) or self.on_disk >= position, end - time.monotonic())


class Gateway:
    """The other side. This one is at standard input and output, or wherever two files lead."""

    def __init__(self, given: IO[bytes], taken: IO[bytes]):
        self.door = Door(given, taken)

    def anew(self) -> None:
        """Another one in its place, that holds nothing. Raises Kept."""
        raise Kept("the gateway needs a new journal file")

    def close(self) -> None:
        """What it was told is in its journal then."""


class Started(Gateway):
    """A gateway that this side starts, and that ends with it."""

    def __init__(self, words: list[str]):
        """Raises OSError."""
        self.words = words
        self.start()

    def start(self) -> None:
        self.process = subprocess.Popen([*self.words, "--log", "-"], stdin=subprocess.PIPE, stdout=subprocess.PIPE)
        assert self.process.stdin and self.process.stdout
        super().__init__(self.process.stdout, self.process.stdin)

    def anew(self) -> None:
        """Its journal is put aside, in the place of one that was before."""
        self.close()
        try:
            path = pathlib.Path(self.words[self.words.index("--journal") + 1])
            path.rename(path.with_name(path.name + ".before"))
        except (ValueError, IndexError, OSError):
            super().anew()
        self.start()

    def close(self) -> None:
        assert self.process.stdin
        with contextlib.suppress(OSError):
            self.process.stdin.close()
        try:
            self.process.wait(ENDING)
        except subprocess.TimeoutExpired:
            self.process.kill()
            self.process.wait()


class Reached(Gateway):
    """A gateway that listens for this side (`--log PORT`)."""

    def __init__(self, port: int, secret: pathlib.Path):
        """Raises OSError."""
        self.socket = socket.create_connection(("127.0.0.1", port))
        super().__init__(self.socket.makefile("rb"), self.socket.makefile("wb"))
        self.door.say(line({"secret": secret.read_text(encoding="utf-8").rstrip("\n")}))
        self.door.flush()

    def close(self) -> None:
        with contextlib.suppress(OSError):
            self.socket.shutdown(socket.SHUT_RDWR)
        self.socket.close()


def gateway(words: list[str], port: int | None, secret: pathlib.Path | None) -> Gateway:
    """The one that is started by these words, or that listens, or is at standard input and output. Raises OSError."""
    if words:
        return Started(words)
    if port is None or secret is None:
        return Gateway(os.fdopen(os.dup(0), "rb"), sys.stdout.buffer)  # of sys.stdin's own lock Python would abort at the end
    for left in range(TRIES, -1, -1):
        try:
            return Reached(port, secret)
        except ConnectionRefusedError:
            if not left:
                raise
            time.sleep(WAIT)
    raise AssertionError
