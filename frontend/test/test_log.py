"""The door for logs: the conversation of docs/LOG.md, word for word, and what a gateway does with keepers who say what cannot be.

GATEWAY names another program than the one that is built."""
import contextlib
import json
import os
import pathlib
import re
import select
import socket
import struct
import subprocess
import tempfile
import time
from collections.abc import Iterator

import pytest

from ports import free_port
from wire import COMING, PATIENCE, PROGRAM, TOP, Ended, Wire, digest, http

EPOCH = "0123456789abcdef" * 2
BEGIN = '{"begin":"example","epoch":"%s"}' % EPOCH
GO_ON = BEGIN.replace("begin", "go_on")
ROLE = '{"as":"admin","do":"create_role","name":"mia"}'
TABLE = '{"as":"admin","do":"create_table","name":"notes","owner":"mia","columns":[["id","int"],["what","text"]]}'
SECRET = "0123456789abcdef" * 3


def insert(number: int, what: str = "milk") -> str:
    return '{"as":"admin","do":"write","entries":[{"on":"notes","insert":[%d,"%s"]}]}' % (number, what)


class Keeper:
    """A gateway behind a log whose keeper the test is: at standard input and output, or at a port."""

    running: list["Keeper"] = []

    def __init__(self, here: pathlib.Path, words: tuple[str | pathlib.Path, ...] = ("--log", "-"), given: int = subprocess.PIPE):
        self.here, self.port = here, free_port()
        (here / "tokens").write_text("[tokens]\n" + "".join(f'"{digest(f"{role}-demo")}" = "{role}"\n' for role in ("admin", "mia")))
        (here / "secret").write_text(SECRET + "\n")
        self.log = (here / "log").open("ab+")
        self.process = subprocess.Popen([PROGRAM, "--journal", here / "journal", "--tokens", here / "tokens", "--port", str(self.port), *words],
                                        stdin=given, stdout=subprocess.PIPE, stderr=self.log)
        assert self.process.stdout
        self.given, self.taken = self.process.stdout, self.process.stdin or open(os.devnull, "wb")
        self.read = b""
        self.running.append(self)

    def say(self, *lines: str) -> None:
        """A gateway to which something cannot be said has ended before it was read whole."""
        with contextlib.suppress(BrokenPipeError):
            self.taken.write("".join(f"{it}\n" for it in lines).encode())
            self.taken.flush()

    def hear(self) -> str:
        end = time.monotonic() + PATIENCE
        while b"\n" not in self.read:
            assert select.select([self.given], [], [], max(0, end - time.monotonic()))[0], f"nothing came; {self.said()}"
            got = os.read(self.given.fileno(), 1 << 16)
            assert got, f"it has ended; {self.said()}"
            self.read += got
        line, self.read = self.read.split(b"\n", 1)
        return line.decode()

    def said(self) -> str:
        self.log.seek(0)
        return self.log.read().decode()

    def enter(self, role: str = "mia") -> Wire:
        wire = Wire(self.port, f"{role}-demo")
        assert wire.enter() == role
        return wire

    def end(self) -> int:
        """Its keeper ends, and so it does."""
        self.taken.close()
        status = self.process.wait(PATIENCE)
        assert self.given.read() == b""
        return status

    def fault(self) -> tuple[str, int]:
        """The last thing that it says, and its status."""
        told = json.loads(self.hear())["fault"]
        status = self.process.wait(PATIENCE)
        assert f"gateway: the log: {told}\n" in self.said()
        return told, status

    def kill(self) -> None:
        self.process.kill()
        self.process.wait()


@pytest.fixture
def here() -> Iterator[pathlib.Path]:
    with tempfile.TemporaryDirectory() as folder:
        yield pathlib.Path(folder)
        while Keeper.running:
            Keeper.running.pop().kill()


def test_the_conversation_of_the_page(here: pathlib.Path) -> None:
    blocks = re.findall(r"(?ms)^```\n(.*?)^```$", (TOP / "docs/LOG.md").read_text())
    assert len(blocks) == 3
    for block in blocks:
        keeper, mia, told = Keeper(here), None, list[str]()
        for text in block.splitlines():
            who, _, line = text.partition(" ")
            if who == ">":
                keeper.say(line)
            elif who == "<":
                assert keeper.hear() == line
            elif who == "mia>":
                mia = mia or keeper.enter()
                mia.say(line)
            else:
                assert mia
                told = told or [*mia.event(), '{"settled":true}']
                assert told.pop(0) == line
        assert not told
        if "fault" in block:
            assert keeper.process.wait(PATIENCE) == 4
        elif "lead" in block:
            keeper.taken.close()
            assert keeper.process.wait(PATIENCE) == 4
        else:
            assert keeper.end() == 0


def begun(here: pathlib.Path, *words: str | pathlib.Path) -> Keeper:
    """One that has taken a step."""
    keeper = Keeper(here, words or ("--log", "-"))
    keeper.hear()
    keeper.say(BEGIN, ROLE, TABLE, insert(1), '{"from":0,"step":10}')
    while keeper.hear() != '{"on_disk":10}':
        pass
    return keeper


FAULTS: dict[str, tuple[tuple[str, ...], str]] = {
    "a gap": ((insert(2), '{"from":11,"step":12}'), "step 12 is from 11, and the position is 10"),
    "a step from before to behind": ((insert(2), '{"from":9,"step":12}'), "step 12 is from 9, and the position is 10"),
    "a step that leads back": (('{"from":12,"step":11}',), "step 11 is from 12, and the position is 10"),
    "an entry that is refused": ((insert(2), insert(3).replace('"milk"', "4"), '{"from":10,"step":11}'), "entry 2 of step 11 is refused by 9"),
    "a request that changes nothing": ((insert(2), '{"as":"mia","do":"subscribe","on":"notes"}', '{"from":10,"step":11}'), "line 2 of step 11 is no entry"),
    "an entry that is no request": (('{"as":"mia","do":"dance"}', '{"from":10,"step":11}'), "line 1 of step 11 is no entry"),
    "a line of another form": (('{"open": true}',), "line 6 is none that a keeper says"),
    "no JSON": (("hello",), "line 6 is none that a keeper says"),
    "a line that is too long": ((insert(2, "x" * 130_816),), "line 6 is too long"),
    "a line without an end that is too long": (("x" * 131_072,), "line 6 is too long"),
    "a second beginning": ((BEGIN,), "line 6 comes at the wrong time"),
    "a late recall": (('{"recall":true}',), "line 6 comes at the wrong time")}


@pytest.mark.parametrize("what", FAULTS)
def test_what_cannot_be_is_told_by_its_place(what: str, here: pathlib.Path) -> None:
    keeper = begun(here)
    said, told = FAULTS[what]
    keeper.say(*said)
    assert keeper.fault() == (told, 4)
    again = Keeper(here)
    assert json.loads(again.hear())["position"] == 10
    assert again.end() == 0


def test_the_log_that_is_followed_is_one(here: pathlib.Path) -> None:
    begun(here).end()
    words = f"the log example of epoch {EPOCH} is followed here: another one needs a new journal file"
    for said in (BEGIN, GO_ON.replace("example", "sample"), GO_ON.replace("0", "1")):
        keeper = Keeper(here)
        keeper.hear()
        keeper.say(said)
        assert keeper.fault() == (words, 4)


def test_a_new_one_follows_none(here: pathlib.Path) -> None:
    for said in (GO_ON, '{"recall":true}'):
        keeper = Keeper(here)
        assert keeper.hear() == '{"door":1,"rows":65536}'
        keeper.say(said)
        assert keeper.fault() == ("no log is followed yet: begin one", 4)
    keeper = Keeper(here)
    keeper.hear()
    keeper.say(insert(1))
    assert keeper.fault() == ("line 1 comes at the wrong time", 4)


def test_a_journal_of_its_own_follows_none(here: pathlib.Path) -> None:
    (here / "journal").write_text('{"as":"admin","do":"create_role","name":"mia"}\n')
    keeper = Keeper(here)
    assert keeper.process.wait(PATIENCE) == 1
    assert "the journal has entries of its own: a log needs a new journal file" in keeper.said()


def test_clients_come_in_when_that_is_said(here: pathlib.Path) -> None:
    keeper = begun(here)
    with pytest.raises(Ended, match="503"):
        Wire(keeper.port, "mia-demo")
    mia = opened(keeper)
    keeper.say('{"open":false}')
    with pytest.raises(Ended, match="1013"):
        mia.line()
    with pytest.raises(Ended, match="503"):
        Wire(keeper.port, "mia-demo")
    assert keeper.end() == 0


def opened(keeper: Keeper, role: str = "mia") -> Wire:
    """A client, once it may come in."""
    keeper.say('{"open":true}')
    end = time.monotonic() + PATIENCE
    while True:
        try:
            return keeper.enter(role)
        except Ended:
            assert time.monotonic() < end


def test_a_step_is_one_message(here: pathlib.Path) -> None:
    """Whatever it has within: each number of a client is told once what differs, and rows that come and go are told to nobody."""
    early = time.monotonic() + 18  # later a line that says that the gateway is there may be among these
    keeper = begun(here)
    keeper.say('{"as":"admin","do":"create_view","name":"ids","owner":"mia","query":"select id from notes"}', '{"from":10,"step":11}')
    assert keeper.hear() == '{"on_disk":11}'
    mia = opened(keeper)
    for number, on in enumerate(("notes", "ids", "notes"), 1):
        assert mia.ask({"do": "subscribe", "on": on})[0].endswith(f'"ok":true,"sub":{number}}}')
    had = mia.messages
    passing = [line for number in range(100, 600) for line in (insert(number), insert(number).replace('"insert"', '"delete"'))]
    keeper.say(*passing, insert(2), *passing, insert(3), '{"from":11,"step":12}')
    assert keeper.hear() == '{"on_disk":12}'
    both = '{"changes":[[1,[2,"milk"]],[1,[3,"milk"]]],"sub":%d}'
    assert sorted(mia.event()) == [both % 1, both % 3, '{"changes":[[1,[2]],[1,[3]]],"sub":2}']
    assert mia.messages == had + 1 and mia.lines == [] or time.monotonic() > early
    keeper.say(*passing, '{"from":12,"step":13}', insert(4), '{"from":13,"step":14}')
    while keeper.hear() != '{"on_disk":14}':
        pass
    assert len(mia.event()) == 3 and (mia.messages == had + 2 or time.monotonic() > early)
    assert keeper.end() == 0


def steps(first: int, last: int) -> list[str]:
    """Steps of a row each."""
    return [text for it in range(first, last) for text in (insert(it + 1), '{"from":%d,"step":%d}' % (it, it + 1))]


def test_what_was_not_synced_is_taken_again_after_any_kill(here: pathlib.Path) -> None:
    begun(here).end()
    position = 10
    for turn in range(12):
        keeper = Keeper(here)
        held = json.loads(keeper.hear())["position"]
        assert held >= position
        keeper.say(GO_ON)
        position = last = held
        for _ in range(turn % 4):
            last += 10
            keeper.say(*steps(last - 10, last))
            position = json.loads(keeper.hear())["on_disk"]
            assert last - 10 < position <= last or position == held
        keeper.say(*steps(last, last + 40))
        time.sleep(turn / 1000)
        keeper.kill()
    keeper = Keeper(here)
    held = json.loads(keeper.hear())["position"]
    keeper.say('{"recall":true}')
    told = list(iter(keeper.hear, '{"recalled":%d}' % held))
    assert told == [ROLE, TABLE, insert(1), *(insert(it) for it in range(11, held + 1))]
    assert keeper.end() == 0


@pytest.mark.parametrize("count", (1, 10, 300))
@pytest.mark.parametrize("is_new", (True, False))
def test_steps_that_come_together_with_the_end_are_taken(is_new: bool, count: int, here: pathlib.Path) -> None:
    first: tuple[str, ...] = (BEGIN, ROLE, TABLE, insert(1), '{"from":0,"step":10}')
    if not is_new:
        begun(here).end()
        first = (GO_ON,)
    reads, writes = os.pipe()
    os.write(writes, "".join(f"{it}\n" for it in (*first, *steps(10, 10 + count), insert(5))).encode())
    os.close(writes)
    assert Keeper(here, given=reads).process.wait(PATIENCE) == 0
    assert json.loads(Keeper(here).hear())["position"] == 10 + count


def at_port(port: int, first: str) -> tuple[socket.socket, bytes]:
    """A connection to the door that says this first, and what it is told by then."""
    it, told = socket.create_connection(("127.0.0.1", port), PATIENCE), b""
    with contextlib.suppress(ConnectionError):  # one that is let go with bytes unread is reset
        it.sendall(first.encode() + b"\n")
        told = it.recv(1 << 16)
    return it, told


def reached(port: int, first: str) -> tuple[socket.socket, bytes]:
    end = time.monotonic() + PATIENCE
    while True:
        try:
            it, told = at_port(port, first)
        except OSError:
            told = b""
        if told:
            return it, told
        assert time.monotonic() < end
        time.sleep(0.05)


def test_a_port_lets_in_one_keeper_with_the_secret(here: pathlib.Path) -> None:
    port, shown = free_port(), '{"secret":"%s"}' % SECRET
    gate = Keeper(here, ("--log", str(port), "--log-secret-file", here / "secret"))
    first = begun_at(port)
    assert at_port(port, shown)[1] == b""
    end = time.monotonic() + PATIENCE
    while True:
        try:
            mia = gate.enter()
            break
        except (Ended, OSError):
            assert time.monotonic() < end
    first.sendall(ROLE.encode() + b"\n")  # of a step that has no end
    first.close()
    with pytest.raises(Ended, match="1013"):
        mia.line()
    assert at_port(port, '{"secret":"%s"}' % SECRET[::-1])[1] == b""
    second, told = reached(port, shown)
    assert told == b'{"door":1,"rows":65536,"log":"example","epoch":"%s","position":3}\n' % EPOCH.encode()
    second.sendall(f'{GO_ON}\n{insert(1)}\n{{"from":3,"step":4}}\n'.encode())
    assert second.recv(1 << 16) == b'{"on_disk":4}\n'
    second.sendall(b'{"from":9,"step":10}\n')
    assert second.recv(1 << 16) == b'{"fault":"step 10 is from 9, and the position is 4"}\n'
    second.close()
    assert gate.process.wait(PATIENCE) == 4


def begun_at(port: int) -> socket.socket:
    """A keeper at a port that has begun a log, and let clients in."""
    it, told = reached(port, '{"secret":"%s"}' % SECRET)
    assert told == b'{"door":1,"rows":65536}\n'
    it.sendall(f'{BEGIN}\n{ROLE}\n{TABLE}\n{{"from":0,"step":3}}\n{{"open":true}}\n'.encode())
    told = b""
    while b'{"on_disk":3}' not in told:
        told += it.recv(1 << 16)
    return it


def replaced(here: pathlib.Path, seconds: float) -> float:
    """For how many seconds a client stays in where a keeper is gone and another one, who says nothing, waits already."""
    port = free_port()
    gate = Keeper(here, ("--log", str(port), "--log-secret-file", here / "secret"))
    first = begun_at(port)
    end = time.monotonic() + PATIENCE
    while http(gate.port, "/readyz")[0] != 200:
        assert time.monotonic() < end
    mia = gate.enter()
    many = "".join(f"{insert(it)}\n" for it in range(20_000))
    first.sendall(f'{many}{{"from":3,"step":4}}\n'.encode())
    first.setsockopt(socket.SOL_SOCKET, socket.SO_LINGER, struct.pack("ii", 1, 0))
    time.sleep(seconds)
    first.close()  # with a reset: what the gateway tells it then fails
    with socket.create_connection(("127.0.0.1", port), PATIENCE):
        began = time.monotonic()
        with pytest.raises(Ended, match="1013"):
            mia.line()
        stayed = time.monotonic() - began
        assert http(gate.port, "/readyz")[0] == 503
    gate.kill()
    return stayed


@pytest.mark.parametrize("seconds", (0.01, 0.02, 0.03, 0.05, 0.1))
def test_nobody_is_let_in_between_two_keepers(seconds: float, here: pathlib.Path) -> None:
    assert replaced(here, seconds) < COMING, "a client stayed as long as the second keeper, who showed no secret"


SECRETS = {"short": "x" * 31, "long": "x" * 1_025, "a mark": "x" * 32 + '"', "a backslash": "x" * 32 + "\\", "two lines": "x" * 32 + "\n" + "x" * 32}


@pytest.mark.parametrize("what", SECRETS)
def test_a_secret_that_no_keeper_can_show_is_refused(what: str, here: pathlib.Path) -> None:
    (here / "other").write_text(SECRETS[what])
    gate = Keeper(here, ("--log", str(free_port()), "--log-secret-file", here / "other"))
    assert gate.process.wait(PATIENCE) == 1, gate.said()


def test_words_that_cannot_be(here: pathlib.Path) -> None:
    secret: tuple[str | pathlib.Path, ...] = ("--log-secret-file", here / "secret")
    wrong: list[tuple[str | pathlib.Path, ...]] = [("--log", "0", *secret), ("--log", "9000"), ("--log", "-", *secret), secret, ("--log", "-", "--seed", here / "seed"),
                                                   ("--log", "x", *secret)]
    for words in wrong:
        gate = Keeper(here, words)
        assert gate.process.wait(PATIENCE) == 1, words
