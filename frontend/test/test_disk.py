"""What the gateway as a program does with the file of its journal, call by call, and what is there after a disk has failed or a machine has stopped.

`disk.c` stands between the program and the system, tells each call and goes wrong where it is asked to. It needs a compiler of C. GATEWAY names another
program than the one that is built."""
import collections
import contextlib
import pathlib
import random
import shutil
import subprocess
import tempfile
from collections.abc import Iterator

import pytest

from model import text_of
from trial import BASE, chained, insert, total
from wire import PATIENCE, Ended, Gateway, Wire, masked

HERE = pathlib.Path(__file__).resolve().parent
COMPILER = next((it for it in map(shutil.which, ("cc", "gcc", "clang")) if it), None)
pytestmark = pytest.mark.skipif(COMPILER is None, reason="there is no compiler of C; apt-get install -y gcc")
Call = tuple[str, ...]


@pytest.fixture(scope="module")
def between() -> Iterator[pathlib.Path]:
    """The library that stands between."""
    with tempfile.TemporaryDirectory(prefix="disk.") as folder:
        made = pathlib.Path(folder, "disk.so")
        subprocess.run([str(COMPILER), "-shared", "-fPIC", "-O1", "-o", made, HERE / "disk.c"], check=True)
        yield made


class Told(Gateway):
    """A gateway whose calls are told."""

    def __init__(self, between: pathlib.Path, journal: bytes | None = None):
        super().__init__(journal=journal, start=False)
        self.between, self.calls_in = between, self.folder / "calls"
        self.goes_wrong()

    def goes_wrong(self, **how: int) -> None:
        """From the next start on, where `disk.c` is asked to."""
        self.env = {"LD_PRELOAD": str(self.between), "DISK_OF": str(self.journal), "DISK_TELL": str(self.calls_in),
                    **{f"DISK_{word.upper()}": str(number) for word, number in how.items()}}

    def calls(self) -> list[Call]:
        """Those that were told since the last time."""
        told = [tuple(it.split()) for it in self.calls_in.read_text().splitlines()]
        self.calls_in.write_text("")
        return told

    def begun(self) -> Wire:
        """An administrator of one that has carried out what the tests begin with."""
        self.start()
        admin = self.enter("admin")
        for it in BASE:
            assert admin.ask(it)[0].startswith('{"ok":true'), it
        return admin


def kinds(calls: list[Call]) -> list[str]:
    return [it[0] for it in calls]


def test_nothing_is_sent_before_what_was_written_is_synced(between: pathlib.Path) -> None:
    """Whatever is under way: between a write and the sync of it nothing is sent at any socket. One sync serves all that was decided meanwhile."""
    gate = Told(between)
    admin = gate.begun()
    wires, dice = [gate.enter(role) for role in ("mia", "mia", "bob", "ann")], random.Random(4)
    for wire in wires:
        wire.ask({"do": "subscribe", "on": "notes"})
    gate.calls()
    asked = 0
    for _ in range(40):
        for wire in (admin, *wires[:2]):
            more = dice.randrange(12)
            wire.send(b"".join(masked(text_of(insert(asked + at, "ann")).encode()) for at in range(more)))
            asked += more
    while len(gate.entries()) < len(BASE) + asked:
        for wire in (admin, *wires):
            with contextlib.suppress(TimeoutError):
                wire.read(0.02)
    calls, written, synced = gate.calls(), 0, 0
    for call, *sizes in calls:
        if call == "write":
            written = int(sizes[1])
        elif call == "sync":
            synced = int(sizes[0])
        elif call == "send":
            assert synced >= written, "what is not synced is sent, or may be"
    found = collections.Counter(kinds(calls))
    print(f"  {asked} writes: {found['write']} writes of the file, {found['sync']} syncs, {found['send']} times something was sent", flush=True)
    assert found["write"] == found["sync"] < asked / 2 and written == synced == gate.journal.stat().st_size
    gate.end()


def test_all_is_on_disk_before_it_listens(between: pathlib.Path) -> None:
    """The journal as it was found or made, what was cut of it, and the folder that has its name."""
    whole = chained((True, text) for text in (b'"as":"admin","do":"create_role","name":"ann"}', b'"as":"admin","do":"create_role","name":"bob"}'))
    plain = b'{"as":"admin","do":"create_role","name":"ann"}\n'
    for what, journal in (("there is none", None), ("it is whole", whole), ("its end is torn", whole + b'{"last":"12'), ("it has the form before", plain)):
        gate = Told(between, journal)
        gate.start()
        calls = gate.calls()
        before = [it for it in calls[:kinds(calls).index("listen")] if it[0] != "send"]
        of_file = [it for it in before if it[0] in ("write", "cut", "sync")]
        assert of_file[-1] == ("sync", str(gate.journal.stat().st_size)), (what, before)
        names = kinds(before)
        assert "folder" in (names[names.index("renamed"):] if journal == plain else names), (what, before)
        assert ("renamed" in names, "cut" in names) == (journal == plain, "torn" in what) or journal is None, (what, before)
        gate.end()


def test_a_sync_that_fails_ends_it_and_nobody_was_told(between: pathlib.Path) -> None:
    """Neither who asked nor who reads. What was written is taken back."""
    gate = Told(between)
    gate.begun()
    for number in range(2, 6):
        gate.kill()
        gate.goes_wrong(refuse=number)
        gate.start()
        mia, ann = gate.enter("mia"), gate.enter("ann")
        there = total(ann.ask({"do": "subscribe", "on": "notes"}))
        for at in range(2, number):
            assert mia.ask(insert(number * 10 + at, "ann")) == ['{"ok":true}'] and len(ann.event()) == 1
        before = gate.journal.read_bytes()
        gate.calls()
        mia.say(insert(number * 10 + number, "ann"))
        assert gate.process.wait(PATIENCE) == 1
        assert all(it in gate.logs[-1].read_text() for it in ("the journal could not be written", "mend its disk"))
        for wire in (mia, ann):
            assert wire.end() is None and not {*wire.lines} - {'{"alive":true}'}, "what is not on disk was told"
        last = kinds(gate.calls())
        assert last[last.index("write"):] == ["write", "refused", "cut"] and gate.journal.read_bytes() == before
        gate.goes_wrong()
        gate.start()
        again = total(gate.enter("ann").ask({"do": "subscribe", "on": "notes"}))
        assert len(again) == len(there) + number - 2 and not (number * 10 + number, "ann") in again
    gate.end()


def test_whatever_the_disk_loses_of_what_was_not_synced(between: pathlib.Path) -> None:
    """The machine stops within a write, or between it and its sync; of what was not synced the disk keeps so many bytes, and no more. What was told is there,
    and of the rest whole requests, in their order."""
    dice, lost = random.Random(11), 0
    for turn in range(4):
        gate = Told(between)
        gate.begun()
        gate.kill()
        gate.goes_wrong(die=dice.randrange(1, 12), **({"front": dice.randrange(200)} if turn % 2 else {}))
        gate.start()
        gate.calls()
        wires = [gate.enter(role) for role in ("mia", "admin")]
        told, asked = list[int](), 0
        with contextlib.suppress(Ended, ConnectionError):
            while True:
                for wire in wires:
                    wire.send(b"".join(masked(text_of(insert(asked + at, "ann", id=asked + at)).encode()) for at in range(3)))
                    asked += 3
                for wire in wires:
                    for _ in range(3):
                        [answer] = wire.event()
                        assert answer.endswith('"ok":true}')
                        told.append(int(answer[6:].partition(",")[0]))
        assert gate.process.wait(PATIENCE) < 0
        synced = max((int(it[1]) for it in gate.calls() if it[0] == "sync"), default=len(gate.journal.read_bytes()))
        whole = gate.journal.read_bytes()
        lost += len(whole) - synced
        gate.goes_wrong()
        for left in sorted({synced, len(whole), *(dice.randint(synced, len(whole)) for _ in range(3))}):
            gate.journal.write_bytes(whole[:left])
            gate.start()
            entries = [it["entries"][0]["insert"][0] for it in gate.entries()[len(BASE):]]
            rows = total(gate.enter("ann").ask({"do": "subscribe", "on": "notes"}))
            gate.kill()
            assert rows == collections.Counter((it, "ann") for it in entries)
            assert {*told} <= {*entries} <= {*range(asked)} and len(entries) == len({*entries}), (turn, left)
        gate.end()
    print(f"  {lost:,} bytes were not synced", flush=True)
    assert lost
