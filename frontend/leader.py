"""The journal of a gateway as it grows, read by who follows it: whole records, from the first on.

It is synced before it is read: its gateway may die between a write and its sync, and nobody who follows may have more than what the disk has
then. Where a record is not whole it is left: a gateway that comes again cuts it off, and writes another there.
"""
import json
import os
import pathlib
import time
from collections.abc import Iterator

import audit
from journal import Damaged

PIECE = 1 << 22  # bytes that are read at a time
SETTLED = 2.0  # seconds after which what is not linked is damage, and no moment of a gateway that cuts off an end
AGAIN = 0.1  # seconds between two looks at a record that is not whole


class Another(Exception):
    """It is not the journal that is followed. The text says why."""


class Leader:
    """A journal. `count` records behind its head were read, up to the byte `at`."""

    def __init__(self, path: pathlib.Path, may_follow: bool = False):
        """One that follows a log itself is read only if it may. Raises OSError, Damaged."""
        self.may_follow = may_follow
        self.path, self.file = path, os.open(path, os.O_RDONLY)
        self.digest, self.at, self.lines, self.count = bytes(32), 0, 0, -1
        self.epoch = ""
        self.is_compacted = False  # there were names that are not told any more
        self.looked: tuple[int, int] = (0, 0)  # size and time of change, as it was looked at last
        self.next = 0.0  # when a record that is not whole is looked at again
        self.odd: float | None = None  # since when what follows is not linked

    def head(self) -> bool:
        """Whether there is one by now, so that `epoch` is known. Raises Another, Damaged."""
        return self.count >= 0 or next(self.more(), None) is not None

    def more(self) -> Iterator[list[bytes]]:
        """The records that are whole since the last look: of each what it says, of requests without notes, and of the head nothing. Raises Another, Damaged."""
        there = self.there()
        is_new = there != self.looked
        if is_new or there[0] > self.at and time.monotonic() > self.next:
            if is_new:
                os.fsync(self.file)
            yield from self.records()
            self.looked, self.next = (0, 0) if self.odd else there, time.monotonic() + AGAIN  # (not where nobody asks for the rest)

    def all(self) -> list[list[bytes]]:
        """Of the records that are there now what they say, of those that say something. Raises Another, Damaged."""
        found = [*self.more()]
        while self.odd:
            time.sleep(AGAIN)
            found += self.more()
        return [it for it in found if it]

    def there(self) -> tuple[int, int]:
        try:
            named = os.stat(self.path)
        except FileNotFoundError:
            raise Another(f"{self.path} is gone") from None
        there = os.fstat(self.file)
        if (named.st_ino, named.st_dev) != (there.st_ino, there.st_dev):
            raise Another(f"{self.path} is another file now: it was compacted, or another copy was put there")
        if there.st_size < self.at:
            raise Another(f"{self.path} has less than it had: its gateway took back what its disk could not keep, or it is an older copy")
        return there.st_size, there.st_mtime_ns

    def records(self) -> Iterator[list[bytes]]:
        digest, at, number, said, rest = self.digest, self.at, self.lines, list[bytes](), b""
        while piece := os.pread(self.file, PIECE, at + len(rest)):
            *whole, rest = (rest + piece).split(b"\n")
            for line in whole:
                linked = audit.link(digest, line, self.count < 0 and not said)
                if not linked:
                    self.unlinked(number + 1, at)
                    return
                digest, at, number = linked, at + len(line) + 1, number + 1
                said.append(line[75:])
                if line.startswith(audit.LAST):
                    self.digest, self.at, self.lines, self.odd, self.count = digest, at, number, None, self.count + 1
                    yield self.read(said)
                    said = []

    def unlinked(self, number: int, at: int) -> None:
        """A gateway that cuts off an end and writes on is seen in between, for a moment."""
        now = time.monotonic()
        self.odd = self.odd or now
        if now - self.odd > SETTLED:
            raise Damaged(f"{self.path}: line {number}, at byte {at}, is not what was written")

    def read(self, said: list[bytes]) -> list[bytes]:
        if self.count == 0:
            self.epoch = str(json.loads(b"{" + said[0])["epoch"])
            return []
        if said[0].startswith(b'"log":') and not self.may_follow:
            raise Damaged(f"{self.path} follows a log itself: follow that one")
        self.is_compacted |= said[0].startswith((b'"holder":', b'"log":'))  # names of a log are that one's
        return [line for text in said if (line := self.line(text))]

    def line(self, text: bytes) -> bytes:
        """A request, or a name if all that were before it are told."""
        if text.startswith((b'"holder":', b'"log":', b'"step":')) or text.startswith(b'"once":') and self.is_compacted:
            return b""
        return b"{" + text if text.startswith(b'"once":') else audit.text_of(text).entry

    def close(self) -> None:
        os.close(self.file)
