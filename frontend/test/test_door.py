#!/usr/bin/python3
"""The door for logs as keepers speak it: lines that no gateway should say, and how a gateway is reached."""
import io
import os
import pathlib
import socket
import threading

import pytest

import door
from door import Door, Ended, Gateway, Held, Kept, Reached, Started

HELLO = b'{"door":1,"rows":5,"log":"a","epoch":"b","position":7}\n'
FAKE = """#!/bin/sh
while [ "$1" != --journal ]; do shift; done
[ -e "$2" ] && echo '{"door":1,"rows":5,"log":"a","epoch":"b","position":7}' || echo '{"door":1,"rows":5}'
exec cat > "$2"
"""


def test_what_a_gateway_says() -> None:
    for text, words in ((b"", "the gateway has ended"), (b"x\n", "another form than 1: b'x'"), (b'{"door":2,"rows":5}\n', "another form than 1"), (b'{"door":1}\n', "another form"), (b"[]\n", "another form"),
                        (b'{"fault":"why"}\n', "the gateway says: why"), (b'{"fault":\n', "what is no line"), (HELLO[:-1], "the gateway has ended")):
        with pytest.raises(Ended, match=words):
            Door(io.BytesIO(text), io.BytesIO()).hello()
    assert Door(io.BytesIO(HELLO), io.BytesIO()).hello() == Held(5, "a", "b", 7)
    assert Door(io.BytesIO(b'{"door":1,"rows":5}\n'), io.BytesIO()).hello() == Held(5)


def test_what_a_keeper_says() -> None:
    taken = io.BytesIO()
    one = Door(io.BytesIO(HELLO + b'{"as":"admin","do":"x"}\n{"as":"mia","do":"y"}\n{"recalled":7}\n'), taken)
    one.hello()
    assert [*one.recall()] == [b'{"as":"admin","do":"x"}', b'{"as":"mia","do":"y"}']
    one.go_on("a", "b")
    one.step(7, 9, [b'{"as":"ann","do":"z"}'])
    one.open(True)
    one.step(9, 10, [])
    one.open(False)
    one.begin("a\xe4", "c")
    assert taken.getvalue().decode() == ('{"recall":true}\n{"go_on":"a","epoch":"b"}\n{"as":"ann","do":"z"}\n{"from":7,"step":9}\n{"open":true}\n{"from":9,"step":10}\n'
                                         '{"open":false}\n{"begin":"a\xe4","epoch":"c"}\n')


def test_what_a_gateway_decides() -> None:
    step = b'{"as":"mia","do":"x"}\n{"once":"a"}\n{"from":7,"step":8}\n'
    for text in (b'{"leads":8}\n', b'{"from":7,"step":8}\n', b'{"from":8,"step":10}\n'):
        one = Door(io.BytesIO(HELLO + step + text), io.BytesIO())
        one.hello()
        assert one.decided(7, 60, 1, 1 << 20) == [[b'{"as":"mia","do":"x"}', b'{"once":"a"}']]
        with pytest.raises(Ended, match="leads behind step 8, and says"):
            one.decided(8, 60, 1, 1 << 20)


def test_what_is_on_disk_is_heard() -> None:
    given, other = os.pipe()
    with os.fdopen(given, "rb") as lines, os.fdopen(other, "wb", buffering=0) as says:
        says.write(HELLO)
        one = Door(lines, io.BytesIO())
        assert one.hello().position == one.kept() == 7
        says.write(b'{"on_disk":9}\n')
        one.wait(9, 60)
        assert one.kept() == 9
        one.wait(10, 0.01)
        says.write(b'{"fault":"no"}\n')
        says.close()
        one.wait(10, 60)
        with pytest.raises(Ended, match="the gateway says: no"):
            one.kept()


def test_a_gateway_that_is_started_begins_anew(tmp_path: pathlib.Path) -> None:
    fake, journal = tmp_path / "gateway", tmp_path / "journal"
    fake.write_text(FAKE)
    fake.chmod(0o755)
    one = door.gateway([str(fake), "--journal", str(journal)], None, None)
    assert isinstance(one, Started) and one.door.hello() == Held(5)
    one.door.begin("a", "b")
    one.close()
    assert journal.read_text() == '{"begin":"a","epoch":"b"}\n'
    one.start()
    assert one.door.hello() == Held(5, "a", "b", 7)
    one.anew()
    assert one.door.hello() == Held(5) and (tmp_path / "journal.before").exists()
    one.close()
    for other in (Gateway(io.BytesIO(), io.BytesIO()), Started(["/bin/true"])):
        with pytest.raises(Kept, match="needs a new journal"):
            other.anew()


def test_a_gateway_that_listens_is_reached(tmp_path: pathlib.Path) -> None:
    secret = tmp_path / "secret"
    secret.write_text("0123456789abcdef" * 2 + "\n")
    with socket.create_server(("127.0.0.1", 0)) as server:
        def serve() -> None:
            with server.accept()[0] as to, to.makefile("rb") as lines:
                heard.append(lines.readline())
                to.sendall(HELLO)
                heard.append(lines.readline())
        heard: list[bytes] = []
        thread = threading.Thread(target=serve)
        thread.start()
        one = door.gateway([], server.getsockname()[1], secret)
        assert isinstance(one, Reached) and one.door.hello().position == 7
        one.close()
        thread.join()
        assert heard == [b'{"secret":"0123456789abcdef0123456789abcdef"}\n', b""]
