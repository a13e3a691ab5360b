"""The gateway as a program, by what docs/PROTOCOL.md says: each line that is told, hostile bytes, kills, and what becomes of the journal.

GATEWAY names another program than the one that is built."""
import base64
import collections
import contextlib
import hmac
import itertools
import json
import os
import pathlib
import random
import re
import select
import signal
import socket
import struct
import subprocess
import threading
import time
from collections.abc import Callable, Iterator
from typing import Any

from model import Model, Player, line, text_of
from trial import BASE, Rows, chained, comes_in, insert, serving, total, until
from wire import BINARY, CLOSE, COMING, PATIENCE, PING, PONG, PROGRAM, TOP, Ended, Gateway, Line, Wire, digest, frame, http, in_time, masked, plain, request

LATE = 30  # seconds for which the gateway keeps who takes nothing


def spent(gate: Gateway, ask: Callable[[], object]) -> float:
    """Seconds of processor that the gateway took until it had answered: the load of the host has no part in them."""
    before = gate.processor()
    ask()
    return gate.processor() - before


# ---- what clients are told


NO_REQUESTS: dict[str, tuple[str, str | None]] = {
    "half of an object": ("{", '{"error":1}'), "a list": ("[1]", '{"error":2}'), "no bytes": ("", '{"error":1}'),
    "no request": ('{"id":7,}', '{"error":2,"id":7,"key":"do","why":"missing"}'),
    "another session": ('{"id":5,"do":"begin","role":"ann"}', '{"error":2,"id":5,"key":"do","why":"wrong"}'),
    "the end of the session": ('{"do":"finish"}', '{"error":2,"key":"do","why":"wrong"}'),
    "a name with a comma": ('{"id":"a,b","do":"unsubscribe","sub":1}', '{"error":2,"id":"a,b","key":"id","why":"wrong"}'),
    "a name in the middle": ('{"do":"unsubscribe","id":3,"sub":1}', '{"error":2,"id":3,"key":"id","why":"wrong"}'),
    "a session of its own": ('{"do":"unsubscribe","session":1,"sub":1}', '{"error":2,"key":"session","why":"unknown"}'),
    "a name beyond 64 bits": ('{"id":18446744073709551615,"do":"unsubscribe","sub":1}', None),
    "a name below zero": ('{"id":-1,"do":"unsubscribe","sub":1}', '{"error":19,"id":-1}'),
    "no entries, in two lines": ('{"do":"write",\n"entries":[\n]}', '{"error":2,"key":"entries","why":"wrong"}'),
    "null in a second entry": ('{"id":4,"do":"write","entries":[{"on":"notes","insert":[6,"mia"]},{"on":"notes","insert":[null]}]}',
                               '{"entry":2,"error":2,"id":4,"key":"entries","why":"wrong"}'),
    "a line that is too long": ('{"do":"create_role","name":"' + "x" * 65_463 + '"}', '{"error":22}')}


def test_what_is_no_request_is_told_so() -> None:
    with serving() as (gate, admin):
        for what, (said, told) in NO_REQUESTS.items():
            answer = admin.ask(said)
            assert len(answer) == 1 and (told is None or answer == [told]), (what, answer)
        assert [it["do"] for it in gate.entries()] == [it["do"] for it in BASE]


def compare(wires: dict[str, Wire], told: dict[str, list[str]], request: Line, asker: str) -> None:
    """Each client is told what the model says, in the order that the protocol gives, and `settled` behind it; the others nothing."""
    def rank(told: str) -> int:
        return 1 if told.startswith('{"changes"') else 2 if told.startswith('{"granted"') else 3 if '"made":' in told else 0
    for key, wire in wires.items():
        wanted = told.get(key, [])
        if not wanted:
            wire.take_in()
            continue
        lines = wire.event()
        assert [rank(it) for it in lines] == sorted(map(rank, lines)), (request, lines)
        assert sorted(lines) == sorted(wanted), f"{key} of {asker}'s {text_of(request)}:\n  is told {lines}\n  wanted  {wanted}"


def test_each_line_is_the_models(steps: int) -> None:
    for seed in range(3):
        gate, model = Gateway(), Model()
        player, wires = Player(model, seed), {"admin": gate.enter("admin")}
        model.come("admin", "admin")

        def step(key: str, asked: Line, id: int | None = None) -> None:
            wires[key].say({**({} if id is None else {"id": id}), **asked})
            compare(wires, model.says(key, asked, id), asked, key)

        for it in BASE:
            step("admin", it)
        for key, role in [("ann1", "ann"), ("ann2", "ann"), ("bob", "bob"), ("mia1", "mia"), ("mia2", "mia")]:
            model.come(key, role)
            wires[key] = gate.enter(role)
        for at in range(steps):
            key = player.dice.choice([*wires])
            if at % 60 == 59:  # it goes, and comes again
                wires[key].shut()
                role = model.clients[key].role
                model.go(key)
                wires[key] = gate.enter(role)
                assert [line(role=role), *wires[key].shape] == model.come(key, role)[key]
                continue
            step(key, player.request(model.clients[key]), at if at % 3 else None)
        # what the journal has leads to the same state
        again = Model()
        again.come("admin", "admin")
        roles: dict[str, dict[str, list[str]]] = {}
        for entry in gate.entries():
            roles.setdefault(entry["as"], again.come(entry["as"], entry["as"]))
            answer = again.says(entry["as"], {key: value for key, value in entry.items() if key != "as"})
            assert answer[entry["as"]][0].startswith('{"ok":true'), (entry, answer)
        assert {name: it.rows for name, it in again.relations.items()} == {name: it.rows for name, it in model.relations.items()}
        print(f"  seed {seed}: {steps} steps, {len(gate.entries())} entries", flush=True)
        gate.end()


def test_all_add_up_where_many_write_at_once() -> None:
    with serving() as (gate, admin):
        readers = [gate.enter(role) for role in ("ann", "ann", "bob", "mia", "admin")]
        seen: list[list[str]] = [[] for _ in readers]
        for reader, lines in zip(readers, seen):
            lines += reader.ask({"do": "subscribe", "on": "notes"})
        writers, made = [gate.enter(role) for role in ("ann", "mia", "admin", "mia")], list[tuple[Any, ...]]()

        def write(number: int, wire: Wire) -> None:
            dice, own = random.Random(number), list[list[Any]]()
            for at in range(200):
                request = insert(number * 1000 + at, "ann")
                if own and dice.random() < 0.4:
                    request["entries"].append({"on": "notes", "delete": own.pop(dice.randrange(len(own)))})
                own.append(request["entries"][0]["insert"])
                assert wire.ask(request) == ['{"ok":true}']
            made.extend(map(tuple, own))

        threads = [threading.Thread(target=write, args=it) for it in enumerate(writers)]
        for it in threads:
            it.start()
        while any(it.is_alive() for it in threads):  # who reads nothing for long would be let go
            for reader in readers:
                with contextlib.suppress(TimeoutError):
                    reader.read(0.01)
        mark = 999_999
        assert admin.ask(insert(mark, "ann")) == ['{"ok":true}']
        wanted = collections.Counter([*made, (mark, "ann")])
        for reader, lines in zip(readers, seen):
            while not any(f"[1,[{mark}," in line for line in lines):
                lines += reader.event()
            assert total(lines[1:]) == wanted, (total(lines[1:]) - wanted, wanted - total(lines[1:]))


def test_who_comes_late_is_shown_the_same() -> None:
    with serving() as (gate, admin):
        for at in range(300):
            admin.say(insert(at, "ann"))
            if at % 30 == 29:
                for _ in range(30):
                    admin.event()
        one, two = gate.enter("mia"), gate.enter("mia")
        first = one.ask({"do": "subscribe", "on": "notes"})
        admin.ask({"do": "write", "entries": [{"on": "notes", "delete": [5, "ann"]}]})
        again = two.ask({"id": "b", "do": "subscribe", "on": "notes"})
        assert first[0] == '{"columns":[["id","int"],["who","text"]],"ok":true,"sub":1}' and again[0][-18:] == '"ok":true,"sub":1}'
        assert total(first + one.event()) == total(again) and len(total(again)) == 299
        one.say({"do": "subscribe", "on": "notes"})
        assert total(one.event(), 2) == total(again)


def take_all(wires: list[Wire]) -> list[float]:
    """Reads until each has the end of an event. When each had it, in seconds."""
    start, took, waiting = time.monotonic(), [], {wire.socket: wire for wire in wires}
    while waiting:
        ready = select.select([*waiting], [], [], PATIENCE)[0]
        assert ready, f"{len(waiting)} are told nothing"
        for it in ready:
            waiting[it].more()
            if b'{"settled":true}\n' in waiting[it].input:  # a line that says that the gateway is there may be behind it
                took.append(time.monotonic() - start)
                del waiting[it]
    return took


def test_a_herd_is_told_in_rounds() -> None:
    with serving() as (gate, admin):
        rows: list[list[Any]] = [[at, f"{at:0250}"] for at in range(2000)]
        for at in range(0, len(rows), 200):
            admin.ask({"do": "write", "entries": [{"on": "notes", "insert": row} for row in rows[at:at + 200]]})

        def told(rows: list[list[Any]]) -> list[str]:
            return [f'{{"changes":{json.dumps([[1, row] for row in rows], separators=(",", ":"))},"sub":1}}']
        wires = [gate.enter(("ann", "bob", "mia", "admin")[at % 4]) for at in range(200)]
        memory, processor = gate.most_memory(), gate.processor()
        for wire in wires:
            wire.say({"do": "subscribe", "on": "notes"})
        took, contents = take_all(wires), told(rows)
        for wire in wires:
            assert wire.event()[1:] == contents
        size, grown = 200 * len(contents[0]), gate.most_memory() - memory
        print(f"  {size:,} bytes told, {grown:,} bytes of memory more, {gate.processor() - processor:.2f} s of processor; "
              f"the first had its contents after {took[0]:.2f} s, the last after {took[-1]:.2f}", flush=True)
        assert grown < size * 3 // 4  # a round's are 16 MiB, and what is being sent stands beside them
        admin.ask({"do": "write", "entries": [{"on": "notes", "delete": rows[7]}]})
        assert gate.enter("bob").ask({"do": "subscribe", "on": "notes"})[1:] == told(rows[:7] + rows[8:])
        for wire in wires:
            assert wire.event() == [f'{{"changes":[[-1,{json.dumps(rows[7], separators=(",", ":"))}]],"sub":1}}']


def test_two_messages_in_one_read_have_their_replies_in_order() -> None:
    with serving() as (gate, admin):
        admin.send(b"".join(masked(text_of(insert(at, "ann", id=at)).encode()) for at in range(500)))
        for at in range(500):
            assert admin.event() == [f'{{"id":{at},"ok":true}}']
        assert len(gate.entries()) == len(BASE) + 500


def test_many_are_sent_one_message_in_10_ms() -> None:
    """Who asked is answered meanwhile; what is told between two messages is in the second."""
    gate = Gateway(words=("--clients", "200"), start=False)
    gate.know("admin", lines=tuple(f'"{digest(f"mia {at}")}" = "mia"' for at in range(4)))
    gate.start()
    admin = gate.enter("admin")
    for it in BASE:
        admin.ask(it)
    readers = [gate.knock(f"mia {at % 4}") for at in range(80)]
    for reader in readers:
        reader.ask({"do": "subscribe", "on": "notes"})
    begun, took, had = time.monotonic(), list[float](), [it.messages for it in readers]
    for at in range(400):
        before = time.monotonic()
        assert admin.ask(insert(at, "ann")) == ['{"ok":true}']
        took.append(time.monotonic() - before)
    spent = time.monotonic() - begun
    for reader, count in list(zip(readers, had))[::20]:
        rows: Rows = collections.Counter()
        while len(rows) < 400:
            rows += total(reader.event())
        messages = reader.messages - count
        assert set(rows.values()) == {1} and messages <= spent * 100 + 5, (messages, spent)
    print(f"  400 writes in {spent:.2f} s, {sorted(took)[200] * 1000:.1f} ms each; the last reader had {messages} messages", flush=True)
    gate.end()


def is_readable(*sockets: socket.socket, seconds: float = 0) -> int:
    """At how many something has come."""
    poll = select.poll()
    for it in sockets:
        poll.register(it, select.POLLIN)
    return len(poll.poll(seconds * 1000))


def stopped(gate: Gateway, readers: list[Wire]) -> int:
    """Stops the gateway as soon as the first of them has something. How many have."""
    is_readable(readers[0].socket, seconds=PATIENCE)
    gate.process.send_signal(signal.SIGSTOP)
    until(lambda: pathlib.Path(f"/proc/{gate.process.pid}/stat").read_text().rsplit(")", 1)[1].split()[0] == "T", "it goes on")
    return is_readable(*(it.socket for it in readers))


def test_who_asks_waits_for_a_part_of_the_others() -> None:
    """Figures are asked for while a line is sent to many: of what still waits for sockets then they tell to how many it was sent meanwhile."""
    size, part = 2048, 512
    gate = Gateway(words=("--clients", "2100"), start=False)
    gate.know("admin", lines=tuple(f'"{digest(f"mia {at}")}" = "mia"' for at in range(size // 64)))
    gate.start()
    admin = gate.enter("admin")
    for it in BASE:
        admin.ask(it)
    readers = [gate.knock(f"mia {at // 64}") for at in range(size)]
    for reader in readers:
        reader.ask({"do": "subscribe", "on": "notes"})
    ask = b"GET /metrics HTTP/1.1\r\nHost: localhost\r\nAuthorization: Bearer admin-demo\r\n\r\n"
    for number in itertools.count(1000):
        assert number < 2000, "it is never stopped between the first and the last"
        late = socket.create_connection(("127.0.0.1", gate.port), PATIENCE)
        assert http(gate.port, "/healthz")[0] == 200  # so the other was accepted before
        admin.say(insert(number, "ann"))
        sent = stopped(gate, readers)
        late.sendall(ask)
        gate.process.send_signal(signal.SIGCONT)
        figures = b"".join(iter(lambda: late.recv(1 << 16), b""))
        late.close()
        told = {"".join(it.event()) for it in readers}
        assert admin.event() == ['{"ok":true}'] and told == {f'{{"changes":[[1,[{number},"ann"]]],"sub":1}}'}
        [pending] = re.findall(rb"\ngateway_pending_bytes (\d+)\n", figures)
        left, rest = divmod(int(pending), 2 + len(told.pop() + '\n{"settled":true}\n'))  # in a frame
        assert rest == 0 and left >= size - sent - part, (pending, sent)
        if sent < size - 2 * part:
            break
    gate.end()


def test_the_line_is_alive_each_20_seconds() -> None:
    with serving() as (gate, admin):
        end = time.monotonic() + 20 + PATIENCE
        while '{"alive":true}' not in admin.lines:
            admin.read(max(end - time.monotonic(), 0.1))


# ---- bytes


def test_bytes_may_be_cut_anywhere() -> None:
    with serving() as (gate, admin):
        said = [b"mia-demo", text_of({"do": "subscribe", "on": "notes"}).encode(), text_of(insert(1, "ann")).encode()]

        def attempt() -> Wire | None:
            wire = Wire(gate.port, open_it=False)
            try:
                for byte in request() + b"".join(map(masked, said)):
                    wire.send(bytes([byte]))
                while b"\r\n\r\n" not in wire.input:
                    wire.more()
                wire.input = wire.input.split(b"\r\n\r\n", 1)[1]
                wire.role = wire.enter()
            except (Ended, ConnectionError):
                return None
            return wire
        wire = in_time(attempt)
        assert wire.role == "mia" and wire.event()[0].endswith('"ok":true,"sub":1}')
        assert wire.event() == ['{"ok":true}', '{"changes":[[1,[1,"ann"]]],"sub":1}']
        # in fragments, with a ping between them
        text = text_of(insert(2, "ann")).encode()
        wire.send(frame(text[:10], final=False, mask=os.urandom(4)) + masked(b"hello", PING) + frame(text[10:30], 0, final=False) + frame(text[30:], 0))
        assert wire.event() == ['{"ok":true}', '{"changes":[[1,[2,"ann"]]],"sub":1}'] and wire.kinds == [(PONG, b"hello")]
        # a character of three bytes cut in two
        text = '{"do":"€"}'.encode()
        wire.send(frame(text[:8], final=False) + frame(text[8:], 0))
        assert wire.event() == ['{"error":2,"key":"do","why":"wrong"}']


HOSTILE = {
    "no mask": (frame(b"{}", mask=None), 1002), "a reserved bit": (frame(b"{}", reserved=4), 1002), "a second reserved bit": (frame(b"{}", reserved=1), 1002),
    "kind 3": (frame(b"{}", 3), 1002), "kind 11": (frame(b"", 11), 1002), "a long ping": (frame(b"x" * 126, PING), 1002),
    "a ping in parts": (frame(b"x", PING, final=False), 1002), "a part of nothing": (frame(b"x", 0), 1002),
    "a text within a text": (frame(b"{", final=False) + frame(b"{}"), 1002), "no UTF-8": (frame(b'{"do":"\xff"}'), 1007),
    "half a character": (frame(b"\xe2\x82"), 1007), "a surrogate": (frame(b"\xed\xa0\x80"), 1007), "binary": (frame(b"{}", BINARY), 1003),
    "too long": (bytes([0x81, 0xff]) + struct.pack("!Q", 131_073) + b"\0\0\0\0", 1009),
    "endless": (bytes([0x81, 0xff]) + struct.pack("!Q", 1 << 62) + b"\0\0\0\0", 1009),
    "a length with its first bit": (bytes([0x81, 0xff]) + struct.pack("!Q", 1 << 63) + b"\0\0\0\0", None),
    "too long in parts": (b"".join([frame(b"x" * 60_000, final=False), frame(b"x" * 60_000, 0, final=False), frame(b"x" * 60_000, 0)]), 1009),
    "a close": (frame(struct.pack("!H", 1000), CLOSE), 1000), "a close with a word": (frame(struct.pack("!H", 3000) + b"bye", CLOSE), 3000),
    "a close with code 1005": (frame(struct.pack("!H", 1005), CLOSE), 1002), "a close of one byte": (frame(b"x", CLOSE), 1002),
    "a close that is no UTF-8": (frame(struct.pack("!H", 1000) + b"\xff", CLOSE), 1007),
}


def test_hostile_frames_end_their_connection_alone() -> None:
    with serving() as (gate, admin):
        for name, (data, close) in HOSTILE.items():
            for role in ("mia", None):
                code = close if role or len(data) < 1 << 16 else None  # who has no token and says much goes without a code

                def attempt() -> int | None:
                    try:
                        wire = gate.enter(role) if role else Wire(gate.port)
                        with contextlib.suppress(ConnectionError):  # it may have ended before all was sent
                            wire.send(data + masked(text_of(insert(66, "ann")).encode()))
                        return wire.end() or (code is None or None)
                    except Ended:
                        return None
                ended = in_time(attempt)
                assert ended == code or code is None, (name, role, ended, code)
            assert admin.ask({"do": "unsubscribe", "sub": 9}) == ['{"error":19}'], name
        assert not any("66" in text_of(it) for it in gate.entries())


def test_random_bytes_end_their_connection_alone() -> None:
    with serving() as (gate, admin):
        dice = random.Random(7)
        for at in range(200):
            with contextlib.suppress(ConnectionError, Ended):
                wire = gate.enter("mia") if at % 2 else Wire(gate.port, open_it=at % 4 != 0)
                wire.send(dice.randbytes(dice.randrange(1, 3000)))
                if at % 3 == 0:
                    wire.send(b"\r\n\r\n")
                wire.shut()
        assert admin.ask({"do": "unsubscribe", "sub": 9}) == ['{"error":19}']
        assert len(gate.entries()) == len(BASE)


def answers(admin: Wire) -> None:
    assert admin.ask({"do": "unsubscribe", "sub": 9}) == ['{"error":19}']


def test_a_flood_of_empty_frames_takes_no_memory() -> None:
    with serving() as (gate, admin):
        wire, before = gate.enter("mia"), gate.memory()
        wire.socket.settimeout(0.05)
        flood, end, worst, sent, rest, asked = masked(b"") * 20_000, time.monotonic() + 8, 0.0, 0, b"", 0
        try:
            while time.monotonic() < end or asked < 4:
                with contextlib.suppress(TimeoutError):
                    rest = rest or flood
                    count = wire.socket.send(rest)
                    sent, rest = sent + count, rest[count:]
                worst, asked = max(worst, spent(gate, lambda: answers(admin))), asked + 1
        except ConnectionError:
            pass
        grown = gate.memory() - before
        print(f"  {sent:,} bytes taken, {grown:,} bytes of memory more, {asked} replies to another, the longest {worst:.2f} s of processor", flush=True)
        assert grown < 16 << 20 and worst < 2


def test_who_reads_nothing_goes_and_takes_little_memory() -> None:
    with serving() as (gate, admin):
        for at in range(4):
            admin.ask({"do": "write", "entries": [{"on": "notes", "insert": [at * 60 + it, "ann" + "x" * 1000]} for it in range(60)]})
        before, wires = gate.memory(), [gate.enter("mia", receive=4096) for _ in range(8)]
        for wire in wires:
            wire.socket.settimeout(0.2)
            with contextlib.suppress(TimeoutError, ConnectionError):
                for _ in range(200):
                    wire.say({"do": "subscribe", "on": "notes"})
                    wire.say({"do": "unsubscribe", "sub": 1})
        end, asked, most = time.monotonic() + LATE + PATIENCE, 0, 0
        while time.monotonic() < end and "takes nothing" not in gate.said():
            for turn in ("insert", "delete"):  # others are answered meanwhile
                assert admin.ask({"do": "write", "entries": [{"on": "notes", turn: [10_000, "ann" + "x" * 1000]}]}) == ['{"ok":true}']
            asked, most = asked + 2, max(most, gate.memory() - before)
            time.sleep(0.1)
        print(f"  {most:,} bytes of memory more for 8 clients; {gate.said().count('takes nothing')} are gone; {asked} writes of another meanwhile", flush=True)
        assert "takes nothing" in gate.said() and most < 8 * (8 << 20) and asked > 6


def test_who_is_far_behind_is_told_why() -> None:
    # what the system takes, and more than the gateway keeps, by writes that come to it 16 times each
    kept = int(pathlib.Path("/proc/sys/net/ipv4/tcp_wmem").read_text().split()[2])
    writes = 2 * (kept + (4 << 20)) // (16 * 60 * 1000) + 8
    with serving() as (gate, admin):
        def attempt() -> int | None:
            wire = gate.enter("mia", receive=4096)
            for _ in range(16):
                wire.ask({"do": "subscribe", "on": "notes"})
            for at in range(writes):
                turn = ("insert", "delete")[at % 2]
                assert admin.ask({"do": "write", "entries": [{"on": "notes", turn: [it, "ann" + "x" * 1000]} for it in range(60)]}) == ['{"ok":true}']
            code = wire.end()
            print(f"  after {writes} writes: {code} {wire.words.decode()}", flush=True)
            return code
        assert in_time(attempt, LATE) == 1013  # a host that takes so long has it go without a word


def test_who_takes_slowly_stays() -> None:
    """What a client asked for may be longer than what may wait for it, and it may take that in its time."""
    with serving() as (gate, admin):
        rows: list[tuple[int, str]] = [(at, "ann" + "x" * 1000) for at in range(2400)]
        late = itertools.count(10_000)
        for at in range(0, len(rows), 60):
            admin.ask({"do": "write", "entries": [{"on": "notes", "insert": row} for row in rows[at:at + 60]]})

        def attempt() -> list[Rows] | None:
            wire, gap = gate.enter("mia", receive=16_384), 0.0
            for _ in range(8):
                wire.say({"do": "subscribe", "on": "notes"})
            start = last = time.monotonic()
            try:
                while time.monotonic() < start + LATE + 5:
                    wire.more()
                    last, gap = time.monotonic(), max(gap, time.monotonic() - last)
                    time.sleep(0.1)
                rows.append((next(late), "ann"))
                admin.ask(insert(*rows[-1]))
                lines: list[str] = []
                while sum(f"[1,[{rows[-1][0]}," in it for it in lines) < 8:
                    lines.append(wire.line())
            except Ended:
                assert wire.code is None and gap > LATE / 3, (wire.code, wire.words, gap)
                return None
            return [total(lines, sub) for sub in range(1, 9)]
        found = in_time(attempt, LATE)
        assert found == [collections.Counter(rows)] * 8


def test_silence_has_an_end() -> None:
    with serving() as (gate, admin):
        start = time.monotonic()
        waits = {"says nothing": b"", "half a head": b"GET / HTTP/1.1\r\nHost:", "no token": request(), "half a token": request() + masked(b"mia-demo")[:5]}
        wires = {}
        for name, data in waits.items():
            wires[name] = wire = Wire(gate.port, open_it=False)
            wire.send(data)
        for name, wire in wires.items():
            with contextlib.suppress(Ended):
                while True:
                    wire.more()
            took = time.monotonic() - start
            assert COMING - 2 < took < COMING + PATIENCE, (name, took)


# ---- plain requests


def test_plain_requests_are_answered() -> None:
    with serving() as (gate, admin):
        assert http(gate.port, "/healthz")[0] == 200 and http(gate.port, "/readyz")[0] == 200
        for path in ("/state", "/metrics"):
            assert http(gate.port, path)[0] == 401 and http(gate.port, path, "mia-demo")[0] == 401 and http(gate.port, path, "x")[0] == 401
        behind = plain(gate.port, b"GET /state HTTP/1.1\r\nHost: x\r\n\r\nAuthorization: Bearer admin-demo\r\n\r\n")
        assert behind.startswith(b"HTTP/1.1 401"), behind
        state = json.loads(http(gate.port, "/state", "admin-demo")[2])
        assert state["ready"] and state["clients"] == 1 and state["journal"] == len(BASE) and state["bytes"] == gate.journal.stat().st_size
        figures = http(gate.port, "/metrics", "admin-demo")[2].decode()
        assert 'gateway_clients{role="admin"} 1\n' in figures and f"gateway_journal_entries_total {len(BASE)}\n" in figures, figures
        times = dict(re.findall(r'(?m)^gateway_sync_seconds_(bucket{le="[^"]+"}|sum|count) (\d+(?:\.\d{6})?)$', figures))
        bounds = [f'bucket{{le="{it}"}}' for it in ("0.0003", "0.001", "0.003", "0.01", "0.03", "0.1", "1", "+Inf")]
        counts = [int(times[it]) for it in (*bounds, "count")]
        assert [*times] == [*bounds, "sum", "count"] and counts == sorted(counts) and counts[-2] == counts[-1] > 0 and 0 < float(times["sum"]) < counts[-1] * PATIENCE
        for data, status in [(b"GET / HTTP/1.1\r\nHost: x\r\n\r\n", b"404"), (b"POST /healthz HTTP/1.1\r\nHost: x\r\n\r\n", b"405"),
                             (b"nonsense\r\n\r\n", b"400"), (b"GET / HTTP/2.0\r\n\r\n", b"505"), (b"GET /" + b"x" * 9000 + b" HTTP/1.1\r\n\r\n", b"414"),
                             (b"GET / HTTP/1.1\r\n" + b"a: b\r\n" * 2000 + b"\r\n", b"431"), (b"GET / HTTP/1.1\r\n\r\n", b"400"),
                             (b"GET / HTTP/1.1\r\nHost: x\r\nHost: x\r\n\r\n", b"400"), (b"GET / HTTP/1.0\r\n\r\n", b"404"),
                             (b"GET /live HTTP/1.1\r\nHost: x\r\nUpgrade: websocket\r\n\r\n", b"426"),
                             (b"GET /live HTTP/1.1\r\nHost: x\r\nUpgrade: websocket\r\nContent-Length: 5\r\n\r\nhello", b"400")]:
            got = plain(gate.port, data)
            assert got.startswith(b"HTTP/1.1 " + status), (data[:60], got[:100])
        for data, status in [(b"HEAD /nothing HTTP/1.1\r\nHost: x\r\n\r\n", b"404"), (b"HEAD / HTTP/1.1\r\n\r\n", b"400"), (b"HEAD /healthz HTTP/1.1\r\nHost: x\r\n\r\n", b"200"),
                             (b"HEAD /" + b"x" * 9000 + b" HTTP/1.1\r\n\r\n", b"414")]:
            got = plain(gate.port, data)  # the head of an answer has nothing behind it
            assert got.startswith(b"HTTP/1.1 " + status) and got.endswith(b"\r\n\r\n") and got.count(b"\r\n\r\n") == 1, (data[:60], got)


# who says what, and the number by which that is refused, if it is
COUNTED: list[tuple[str, str | Line, int | None]] = [
    *(("admin", {"do": "create_role", "name": name}, None) for name in ("ann", "bob", "mia")),
    ("admin", {"do": "create_role", "name": "ann"}, 6),
    ("mia", {"do": "create_role", "name": "eve"}, 11),
    ("admin", {"do": "create_table", "name": "notes", "owner": "ann", "columns": [["id", "int"], ["who", "text"]]}, None),
    ("admin", {"do": "create_table", "name": "tags", "owner": "eve", "columns": [["id", "int"]]}, 5),
    ("admin", {"do": "create_view", "name": "ids", "owner": "ann", "query": "select id from notes"}, None),
    ("admin", {"do": "create_view", "name": "odd", "owner": "ann", "query": "select"}, 10),
    ("ann", {"do": "grant", "on": "notes", "privileges": ["select", "insert", "delete"], "to": "mia"}, None),
    ("mia", {"do": "grant", "on": "notes", "privileges": ["select"], "to": "bob"}, 12),
    ("admin", {"do": "grant_role", "role": "bob", "to": "mia"}, None),
    ("admin", {"do": "grant_role", "role": "mia", "to": "bob"}, 23),
    ("admin", {"do": "revoke_role", "role": "bob", "to": "mia"}, None),
    ("mia", insert(1, "mia"), None),
    ("mia", {"do": "write", "entries": [{"on": "notes", "insert": [1]}]}, 9),
    ("mia", insert(1, "mia", "tags"), 7),
    ("mia", insert(1, "mia", "ids"), 8),
    ("mia", {"do": "write", "entries": [{"on": "notes", "delete": [2, "mia"]}]}, 16),
    ("bob", insert(1, "bob"), 13),
    ("mia", {"do": "subscribe", "on": "ids"}, 13),
    ("bob", {"do": "subscribe", "on": "tags"}, 7),
    *[("mia", {"do": "subscribe", "on": "notes"}, None)] * 16,
    ("mia", {"do": "subscribe", "on": "notes"}, 20),
    ("mia", {"do": "unsubscribe", "sub": 1}, None),
    ("mia", {"do": "unsubscribe", "sub": 1}, 19),
    ("ann", {"do": "row_security", "on": "notes", "enable": True, "force": False}, None),
    ("ann", {"do": "row_security", "on": "ids", "enable": True, "force": False}, 8),
    ("mia", insert(2, "mia"), 14),
    ("ann", {"do": "create_policy", "on": "notes", "name": "own", "using": "who = current_user"}, None),
    ("ann", {"do": "create_policy", "on": "notes", "name": "few", "restrictive": True, "command": "insert", "check": "id < 100"}, None),
    ("mia", insert(100, "mia"), 15),
    ("ann", {"do": "drop_policy", "on": "notes", "name": "few"}, None),
    ("ann", {"do": "drop_policy", "on": "notes", "name": "few"}, 18),
    ("ann", {"do": "revoke", "on": "notes", "privileges": ["delete"], "to": "mia"}, None),
    ("bob", "{", 1), ("bob", "nonsense", 1), ("bob", "[1]", 2), ("bob", "{}", 2), ("bob", {"do": "finish"}, 2),
    ("bob", {"do": "unsubscribe", "session": 1, "sub": 1}, 2),
    ("bob", '{"do":"create_role","name":"' + "x" * 65_537 + '"}', 22)]
KINDS = {"none": 7, "create_role": 5, "create_table": 2, "create_view": 2, "grant": 2, "revoke": 1, "grant_role": 2, "revoke_role": 1, "row_security": 2,
         "create_policy": 2, "drop_policy": 2, "write": 8, "subscribe": 19, "unsubscribe": 2}
REFUSALS = {1: 2, 2: 4, 3: 0, 4: 0, 5: 1, 6: 1, 7: 2, 8: 2, 9: 1, 10: 1, 11: 1, 12: 1, 13: 2, 14: 1, 15: 1, 16: 1, 17: 0, 18: 1, 19: 1, 20: 1, 22: 1, 23: 1}


def tally(gate: Gateway, name: str) -> dict[str, int]:
    """The figures of a name, by their labels."""
    text = http(gate.port, "/metrics", "admin-demo")[2].decode()
    found = re.findall(rf'(?m)^{name}\{{\w+="(\w+)"\}} (\d+)$', text)
    assert len(found) == len({*found}) == text.count(f"{name}{{") and f"# TYPE {name} counter\n" in text, text
    return {label: int(count) for label, count in found}


def test_messages_are_counted_by_kind_and_refusals_by_number() -> None:
    gate = Gateway()

    def stands(kinds: dict[str, int], refusals: dict[int, int]) -> None:
        assert tally(gate, "gateway_requests_total") == kinds
        assert tally(gate, "gateway_refusals_total") == {str(number): count for number, count in refusals.items()}

    stands({kind: 0 for kind in KINDS}, {number: 0 for number in REFUSALS})
    wires: dict[str, Wire] = {}
    for role, said, refusal in COUNTED:
        wire = wires[role] = wires.get(role) or gate.enter(role)
        wire.say(said)
        told: Line = {}
        while not {"ok", "error"} & {*told}:  # behind what others bring it
            told = json.loads(wire.event()[0])
        assert told.get("error") == refusal, (said, told)
    stands(KINDS, REFUSALS)
    # of many at once, each is counted once, also if it is heard later
    wires["bob"].send(masked(b'{"do":"unsubscribe","sub":1}') * 100)
    for _ in range(100):
        assert wires["bob"].event() == ['{"error":19}']
    stands({**KINDS, "unsubscribe": 102}, {**REFUSALS, 19: 101})
    # what the journal leads back is not said again
    gate.kill()
    gate.start()
    stands({kind: 0 for kind in KINDS}, {number: 0 for number in REFUSALS})
    gate.end()


def test_pages_of_a_folder_are_served_and_no_others() -> None:
    gate = Gateway(start=False)
    pages = gate.folder / "pages"
    (pages / "img").mkdir(parents=True)
    (pages / "index.html").write_text("<p>hello")
    (pages / "img" / "a.svg").write_text("<svg/>")
    (pages / ".env").write_text("secret")
    (gate.folder / "outside.txt").write_text("secret")
    (pages / "link.txt").symlink_to(gate.folder / "outside.txt")
    (pages / "out").symlink_to(gate.folder)
    gate.words = ("--pages", pages)
    gate.start()
    status, head, body = http(gate.port, "/")
    assert (status, body, head["content-type"]) == (200, b"<p>hello", "text/html; charset=utf-8") and "default-src 'none'" in head["content-security-policy"]
    assert http(gate.port, "/?x=1")[2] == body and http(gate.port, "/", method="HEAD")[2] == b""
    assert http(gate.port, "/", head={"If-None-Match": head["etag"]})[0] == 304
    assert http(gate.port, "/img/a.svg")[1]["content-type"] == "image/svg+xml"
    for path in ("/.env", "/%2eenv", "/link.txt", "/out/outside.txt", "/../outside.txt", "/%2e%2e/outside.txt", "/img/..%2f..%2foutside.txt",
                 "/img/%2e%2e/%2e%2e/outside.txt", "/img", "/nothing", "//etc/passwd", "/img//a.svg", "/a%00b"):
        got = plain(gate.port, f"GET {path} HTTP/1.1\r\nHost: x\r\n\r\n".encode())
        assert got.startswith(b"HTTP/1.1 404") and b"secret" not in got, (path, got)
    gate.end()


def test_a_page_is_read_only_to_be_sent() -> None:
    gate = Gateway(start=False)
    pages = gate.folder / "pages"
    pages.mkdir()
    for name, count in (("small.js", 12), ("large.js", 12 << 20)):
        (pages / name).write_bytes(b"x" * count)
    gate.words = ("--pages", pages)
    gate.start()
    tags = {name: http(gate.port, f"/{name}", method="HEAD")[1]["etag"] for name in ("small.js", "large.js")}
    for method, status in (("HEAD", 200), ("GET", 304)):
        def asked(name: str) -> None:
            head = {"If-None-Match": tags[name]} if status == 304 else {}
            assert [http(gate.port, f"/{name}", method=method, head=head)[0] for _ in range(40)] == [status] * 40
        small, large = (spent(gate, lambda: asked(name)) for name in ("small.js", "large.js"))
        print(f"  {status}: {small * 25:.2f} ms for a page of 12 bytes, {large * 25:.2f} for one of 12 MiB", flush=True)
        assert large < 5 * small
    gate.end()


def test_a_page_that_changed_has_another_tag() -> None:
    """Also if its length and its time are as they were."""
    gate = Gateway(start=False)
    pages = gate.folder / "pages"
    pages.mkdir()
    page, tags = pages / "a.js", list[str]()
    gate.words = ("--pages", pages)
    for text in (b"one", b"two", b"ten"):
        page.write_bytes(text)
        os.utime(page, (1_000_000_000, 1_000_000_000))
        if not tags:
            gate.start()
        status, head, body = http(gate.port, "/a.js", head={"If-None-Match": ", ".join(['"x"', *tags])})
        assert (status, body) == (200, text), (head, tags)
        tags.append(head["etag"])
        assert http(gate.port, "/a.js", head={"If-None-Match": tags[-1]})[::2] == (304, b"")
        time.sleep(0.1)  # two ticks of the system's clock
    gate.end()


# ---- tokens


def test_tokens_open_their_role_and_nothing_else() -> None:
    with serving() as (gate, admin):
        forged = {"a role's name": "mia", "an empty one": "", "a blank at its end": "mia-demo ", "other letters": "MIA-DEMO", "a long one": "x" * 60_000}
        for what, token in forged.items():
            assert gate.knock(token).code == 4401, what
        mia = gate.enter("mia")
        gate.know("admin", "ann", "bob")  # mia's token is taken away
        assert mia.end() == 4401 and gate.knock("mia-demo").code == 4401
        gate.know("admin", "ann", "bob", "mia", "eve")
        until(lambda: comes_in(gate, "mia"), "a token that is there again opens nothing")
        assert gate.knock("eve-demo").code == 1013  # her role is not there
        admin.ask({"do": "create_role", "name": "eve"})
        assert gate.enter("eve")
        gate.put_tokens("nonsense\n")  # a file that is none changes nothing
        until(lambda: "line 1 is no token" in gate.said(), "a file that is none is not told of")
        assert gate.enter("mia") and admin.ask({"do": "unsubscribe", "sub": 9}) == ['{"error":19}']
        mia = gate.enter("mia")
        gate.know()  # an empty one lets nobody in
        assert mia.end() == 4401 and admin.end() == 4401 and gate.knock("admin-demo").code == 4401
        assert "there are none" in gate.said() and http(gate.port, "/state", "admin-demo")[0] == 401


def wide(role: str, **more: str) -> str:
    """A line of the file of tokens that may say a holder and an end."""
    return f'"{digest(role + "-demo")}" = {{ role = "{role}"' + "".join(f', {key} = "{value}"' for key, value in more.items()) + " }"


def moment(second: float) -> str:
    return time.strftime("%Y-%m-%dT%H:%M:%SZ", time.gmtime(second))


def test_a_token_that_ends_closes_who_came_by_it() -> None:
    with serving() as (gate, admin):
        for left in (8, 60, 300):
            end = int(time.time()) + left
            gate.know("admin", "ann", lines=("# Mia leaves", wide("mia", holder="Mia Öz", until=moment(end)), wide("bob", holder="Bob")))
            with contextlib.suppress(Ended):
                until(lambda: time.time() > end or comes_in(gate, "mia") and 'as mia, held by "Mia Öz"' in gate.said(), "a token with a holder opens nothing")
                mia = gate.enter("mia")
                assert mia.ask({"do": "subscribe", "on": "notes"})
                break
            assert time.time() > end  # this host left it no time
        bob = gate.enter("bob")
        assert mia.end() == 4401 and time.time() >= end
        assert gate.knock("mia-demo").code == 4401
        assert bob.ask({"do": "unsubscribe", "sub": 9}) == ['{"error":19}']
        until(lambda: comes_in(gate, "bob") and 'as bob, held by "Bob"' in gate.said(), "a holder is not told of")
        # it may end later after all, or have ended before
        gate.know("admin", "ann", lines=(wide("mia", until=moment(end + 86_400)), wide("bob", until="1970-01-01T00:00:00Z")))
        assert bob.end() == 4401
        until(lambda: comes_in(gate, "mia"), "a token whose end is later opens nothing")
        gate.kill()
        gate.know("admin", lines=(wide("mia", until=moment(time.time() - 1)),))
        gate.start()
        assert gate.knock("mia-demo").code == 4401 and gate.enter("admin")


WRONG = ['until = "2026-02-29T00:00:00Z"', 'until = "2026-12-31"', 'until = "2026-12-31T24:00:00Z"', 'until = "2026-12-31T00:00:00+01:00"', 'until = 7',
         'until = "tomorrow"', 'holder = ""', f'holder = "{"x" * 65}"', 'holder = "a\\nb"', 'holder = "\x1b[2J"', 'until = "2036-12-31T00:00:00Z", holder = "x"',
         'holder = "x", holder = "y"', 'sub = "x"']


def test_a_wrong_line_of_the_tokens_is_named_and_changes_nothing() -> None:
    with serving() as (gate, admin):
        mia = gate.enter("mia")
        for more in WRONG:
            before = gate.said().count("line 4 is no token")
            gate.know("admin", "ann", lines=(f'"{digest("mia-demo")}" = {{ role = "mia", {more} }}',))
            until(lambda: gate.said().count("line 4 is no token") > before, f"{more} is not told of")
        assert mia.ask({"do": "unsubscribe", "sub": 9}) == ['{"error":19}'] and gate.enter("bob")
        before = gate.said().count("stands twice")
        gate.know("admin", "mia", lines=(wide("mia"),))
        until(lambda: gate.said().count("stands twice") > before, "a token that stands twice is not told of")
        assert gate.enter("bob")


def test_a_copy_that_keeps_time_and_length_is_read() -> None:
    with serving() as (gate, admin):
        is_of = gate.tokens.stat()
        fresh = gate.folder / "tokens.copy"
        fresh.write_text(gate.tokens.read_text().replace(digest("mia-demo"), digest("eve-demo")))
        os.utime(fresh, ns=(is_of.st_atime_ns, is_of.st_mtime_ns))
        fresh.rename(gate.tokens)
        assert (gate.tokens.stat().st_size, gate.tokens.stat().st_mtime_ns) == (is_of.st_size, is_of.st_mtime_ns)
        until(lambda: gate.knock("mia-demo").code == 4401, "a token that is gone opens a role")
        assert gate.knock("eve-demo").role == "mia" and admin.ask({"do": "unsubscribe", "sub": 9}) == ['{"error":19}']


def test_many_tokens_are_read_in_time() -> None:
    """Ten times as many take some ten times as long, and not a hundred times."""
    def taken(count: int) -> float:
        lines = tuple(f'"{digest(str(at))}" = "mia"' for at in range(count))
        gate = Gateway(start=False)
        gate.know("admin", lines=lines)
        gate.start()
        took = gate.processor()
        assert gate.knock(str(count - 1)).code == 1013 and gate.knock(str(count)).code == 4401  # there is no role mia
        gate.know("admin", lines=(*lines, wide("mia"), lines[-1]))
        until(lambda: "stands twice" in gate.said(), "a token that stands twice is not told of")
        gate.end()
        return took
    few, many = (sum(taken(count) for _ in range(3)) for count in (2_000, 20_000))
    print(f"  {few / 3 * 1000:.0f} ms for 2,000 tokens and a start, {many / 3 * 1000:.0f} for 20,000", flush=True)
    assert many < 20 * few


def removed(path: pathlib.Path) -> pathlib.Path:
    if path.is_dir():
        path.rmdir()
    else:
        path.unlink(missing_ok=True)
    return path


# what might be read for ever in the place of a file
ENDLESS: dict[str, Callable[[pathlib.Path], None]] = {
    "a FIFO": os.mkfifo, "a folder": os.mkdir, "a device": lambda path: os.symlink("/dev/zero", path)}


def test_what_is_no_regular_file_does_not_start_it() -> None:
    for kind, make in ENDLESS.items():
        for place, word in (("tokens", None), ("journal", None), ("seed", "--seed"), ("secret", "--jwt-secret-file")):
            gate = Gateway(start=False)
            path = gate.folder / "other" if word else getattr(gate, place)
            gate.words = (word, path) if word else ()
            make(removed(path))
            assert gate.launch().wait(PATIENCE) == 1 and "it is no regular file" in gate.said(), (kind, place, gate.said())
            gate.end()


def test_what_is_no_regular_file_stops_nobody() -> None:
    """In the place of the tokens, when it comes later, and of a page."""
    gate = Gateway(start=False)
    pages = gate.folder / "pages"
    pages.mkdir()
    gate.words = ("--pages", pages)
    gate.start()
    admin = gate.enter("admin")
    for kind, make in ENDLESS.items():
        make(removed(pages / "a.js"))
        assert http(gate.port, "/a.js")[0] == 404, kind
        before = gate.said().count("it is no regular file")
        make(removed(gate.tokens))
        until(lambda: gate.said().count("it is no regular file") > before, f"{kind} is not told of")
        assert admin.ask({"do": "unsubscribe", "sub": 9}) == ['{"error":19}'] and gate.enter("admin"), kind
    removed(gate.tokens)
    gate.know("admin", "eve")
    until(lambda: gate.knock("eve-demo").code == 1013, "a file of tokens is not read again")
    gate.end()


SECRET = b"a secret of 32 bytes or more, say"


def part(data: bytes | Line) -> bytes:
    return base64.urlsafe_b64encode(json.dumps(data).encode() if isinstance(data, dict) else data).rstrip(b"=")


def web_token(claims: Line | bytes, head: Line | None = None, secret: bytes = SECRET, by: str = "sha256") -> str:
    """A JSON web token (RFC 7519), signed by HMAC."""
    signed = part(head or {"alg": "HS256", "typ": "JWT"}) + b"." + part(claims)
    return (signed + b"." + part(hmac.new(secret, signed, by).digest())).decode()


@contextlib.contextmanager
def serving_web(**how: Any) -> Iterator[tuple[Gateway, Wire]]:
    gate = Gateway(start=False, **how)
    secret = gate.folder / "secret"
    secret.write_bytes(SECRET + b"\n")
    gate.words = (*gate.words, "--jwt-secret-file", secret)
    gate.start()
    admin = gate.enter("admin")
    for it in BASE:
        assert admin.ask(it)[0].startswith('{"ok":true'), it
    yield gate, admin
    assert gate.process.poll() is None, gate.said()
    gate.end()


def test_web_tokens_open_their_role_until_they_end() -> None:
    with serving_web() as (gate, admin):
        now = int(time.time())
        mia = gate.knock(web_token({"role": "mia", "sub": "Mia Öz", "exp": now + 86_400}))
        assert mia.role == "mia" and 'as mia, held by "Mia Öz"' in gate.said()
        assert mia.ask({"do": "subscribe", "on": "notes"})[0].endswith('"ok":true,"sub":1}')
        for left in (8, 60, 300):
            end = int(time.time()) + left
            soon = web_token({"role": "bob", "sub": "bob", "exp": end})
            bob, again = gate.knock(soon), gate.knock(soon)
            if bob.role == again.role == "bob":
                break
            assert time.time() >= end  # this host left it no time
        assert bob.end() == 4401 and again.end() == 4401 and time.time() >= end
        assert gate.knock(soon).code == 4401 and mia.ask({"do": "unsubscribe", "sub": 9}) == ['{"error":19}']
        # tokens of the file are as they were, and the file may be read again
        gate.know("admin", "ann")
        assert gate.enter("ann") and mia.ask({"do": "unsubscribe", "sub": 9}) == ['{"error":19}']
        boss = web_token({"role": "admin", "sub": "x", "exp": now + 86_400})
        assert http(gate.port, "/state", boss)[0] == 200 and http(gate.port, "/state", web_token({"role": "mia", "sub": "x", "exp": now + 86_400}))[0] == 401
        assert http(gate.port, "/state", web_token({"role": "admin", "sub": "x", "exp": now - 1}))[0] == 401


def test_what_an_attacker_makes_of_a_web_token_opens_nothing() -> None:
    with serving_web() as (gate, admin):
        now = int(time.time())
        claims = {"role": "admin", "sub": "eve", "exp": now + 86_400}
        good = web_token(claims)
        head, body, mac = good.split(".")
        hostile = {
            "no signature": f"{head}.{body}.", "no algorithm": f"{part({'alg': 'none'}).decode()}.{body}.", "no algorithm, signed": web_token(claims, {"alg": "none"}),
            "another algorithm": web_token(claims, {"alg": "HS512"}, by="sha512"), "its name alone": web_token(claims, {"alg": "HS512"}),
            "another secret": web_token(claims, secret=SECRET[::-1]), "an empty secret": web_token(claims, secret=b""),
            "another role": f"{head}.{part({**claims, 'role': 'ann'}).decode()}.{mac}", "a cut signature": good[:-1], "a longer one": good + "A",
            "padding": good + "=", "four parts": good + "." + mac, "two parts": f"{head}.{body}", "a space": good + " ", "ended": web_token({**claims, "exp": now - 1}),
            "not begun": web_token({**claims, "nbf": now + 80_000}), "no end": web_token({"role": "admin", "sub": "eve"}), "an end as text": web_token({**claims, "exp": str(now + 9)}),
            "an endless end": web_token({**claims, "exp": 10**30}), "no subject": web_token({"role": "admin", "exp": now + 86_400}), "an audience": web_token({**claims, "aud": "x"}),
            "something critical": web_token(claims, {"alg": "HS256", "crit": ["exp"]}), "another type": web_token(claims, {"alg": "HS256", "typ": "JWE"}),
            "no name of a role": web_token({**claims, "role": "Admin"}), "a long subject": web_token({**claims, "sub": "x" * 256}), "no JSON": web_token(b"{"),
            "deep JSON": web_token(b"[" * 9000), "a long one": web_token({**claims, "x": "y" * 60_000}), "a role that is not there": web_token({**claims, "role": "eve"})}
        for name, token in hostile.items():
            assert gate.knock(token).code in (4401, 1013), name
            assert admin.ask({"do": "unsubscribe", "sub": 9}) == ['{"error":19}'], name
            if len(token) < 8000 and not token.endswith(" "):  # a field ends before its spaces
                assert http(gate.port, "/state", token)[0] == 401, name
        assert "did not come in: its web token has ended" in gate.said() and "the secret does not sign" in gate.said()
        # cut anywhere, in parts, behind a ping, and in the same read as the head
        for cut in (1, 7, len(good) // 2):
            def in_parts() -> str | None:
                with contextlib.suppress(Ended, ConnectionError):
                    wire = Wire(gate.port)
                    wire.send(masked(b"x", PING) + frame(good[:cut].encode(), final=False) + masked(b"y", PING) + frame(good[cut:].encode(), 0))
                    return wire.enter()
                return None
            assert in_time(in_parts) == "admin", cut

        def at_once() -> str | None:
            with contextlib.suppress(Ended, ConnectionError):
                wire = Wire(gate.port, open_it=False)
                wire.send(request() + masked(good.encode()))
                while b"\r\n\r\n" not in wire.input:
                    wire.more()
                wire.input = wire.input.split(b"\r\n\r\n", 1)[1]
                return wire.enter()
            return None
        assert in_time(at_once) == "admin"
        # the second message is no token
        assert gate.enter("mia").ask(good) == ['{"error":1}']


def test_nobody_takes_all_web_tokens() -> None:
    with serving_web() as (gate, admin):
        now = int(time.time())
        tokens = [web_token({"role": "mia", "sub": "eve", "exp": now + 86_400 + at}) for at in range(40)]
        wires = [gate.knock(it) for it in tokens]
        codes = collections.Counter(it.code for it in wires)
        assert codes == {None: 16, 4401: 24}, codes
        assert "too many of its subject" in gate.said()
        assert gate.knock(web_token({"role": "mia", "sub": "mia", "exp": now + 86_400})).role == "mia"
        for wire in wires:
            wire.shut()
        until(lambda: gate.knock(tokens[30]).role, "the room of web tokens that nobody has is not free")


def test_a_secret_has_32_bytes() -> None:
    gate = Gateway(start=False)
    secret = gate.folder / "secret"
    gate.words = ("--jwt-secret-file", secret)
    assert gate.launch().wait(PATIENCE) == 1 and "secret: " in gate.said()
    secret.write_bytes(b"x" * 31 + b"\n")
    assert gate.launch().wait(PATIENCE) == 1 and "32 bytes" in gate.said()
    gate.end()


def test_one_token_takes_not_all_room() -> None:
    with serving() as (gate, admin):
        wires = [gate.knock("mia-demo") for _ in range(80)]
        codes = collections.Counter(it.code for it in wires[64:])
        assert [it.role for it in wires[:64]] == ["mia"] * 64 and codes == {1013: 16}, codes
        assert gate.enter("bob") and gate.enter("admin")
        wires[0].shut()
        until(lambda: comes_in(gate, "mia"), "the room of one that is gone is not free")


def test_who_goes_is_counted_no_more() -> None:
    """However clients go, 64 by one token may come in again, and no more."""
    def reset(it: Wire) -> None:
        it.socket.setsockopt(socket.SOL_SOCKET, socket.SO_LINGER, struct.pack("ii", 1, 0))
        it.shut()

    with serving() as (gate, admin):
        ways: dict[str, Callable[[Wire], None]] = {
            "an end": Wire.shut, "a reset": reset, "a close": lambda it: it.send(masked(struct.pack("!H", 1000), CLOSE)),
            "a binary message": lambda it: it.send(masked(b"x", BINARY)), "no frame": lambda it: it.send(b"\xff\xff"), "its token": lambda it: None}
        for way, goes in ways.items():
            wires = [gate.knock("mia-demo") for _ in range(66)]
            assert [it.code for it in wires] == [None] * 64 + [1013] * 2, way
            if way == "its token":
                gate.know("admin", "ann", "bob")
            for it in wires[:64]:
                goes(it)
            until(lambda: json.loads(http(gate.port, "/state", "admin-demo")[2])["clients"] == 1, f"who goes by {way} stays")
            for it in wires:
                it.shut()
        gate.know("admin", "ann", "bob", "mia")
        until(lambda: comes_in(gate, "mia"), "a token that is known again opens no role")


def test_who_comes_in_costs_no_walk() -> None:
    """What 400 who come in at once take of the processor is the same where there are many more places than they have."""
    def comings(most: int) -> float | None:
        gate = Gateway(words=("--clients", str(most)), start=False)
        gate.know("admin", lines=tuple(f'"{digest(f"mia {at}")}" = "mia"' for at in range(8)))
        gate.start()
        admin, took = gate.enter("admin"), None
        for it in BASE:
            admin.ask(it)
        with contextlib.suppress(Ended, ConnectionError):
            wires = [Wire(gate.port) for _ in range(400)]
            gate.process.send_signal(signal.SIGSTOP)
            for at, wire in enumerate(wires):
                wire.say(f"mia {at % 8}")
            before = gate.processor()
            gate.process.send_signal(signal.SIGCONT)
            assert {it.enter() for it in wires} == {"mia"}
            took = gate.processor() - before
        gate.end()
        return took
    few, many = (sum(in_time(lambda: comings(most)) for _ in range(3)) for most in (1_000, 50_000))
    print(f"  {few / 3 * 1000:.0f} ms for 400 where 1,000 may come in, {many / 3 * 1000:.0f} where 50,000 may", flush=True)
    assert many < 10 * few


def test_sockets_have_a_bound() -> None:
    """Where no number is free, who has not come in for the longest goes; who has come in stays."""
    with serving(words=("--clients", "20")) as (gate, admin):
        idle = [socket.create_connection(("127.0.0.1", gate.port), PATIENCE) for _ in range(60)]
        wires = [gate.enter("bob"), *(gate.enter("mia") for _ in range(18))]
        late = socket.create_connection(("127.0.0.1", gate.port), PATIENCE)
        assert late.recv(1) == b"", "there is room for all"
        for it in (*wires, admin):
            assert it.ask({"do": "unsubscribe", "sub": 9}) == ['{"error":19}']
        for stranger in (*idle, late):
            stranger.close()
        wires[0].shut()
        until(lambda: comes_in(gate, "bob"), "the room of those that are gone is not free")


# ---- the journal


def test_the_journal_has_what_was_accepted() -> None:
    with serving() as (gate, admin):
        ann = gate.enter("ann")
        for it in (insert(1, "ann", id=7), insert(2, "x"), {"do": "create_role", "name": "eve"}, {"do": "subscribe", "on": "notes"}, {"id": "q", **insert(3, "ann")}):
            ann.ask(it)
        assert gate.lines().decode().splitlines()[len(BASE):] == [
            '{"as":"ann","do":"write","entries":[{"on":"notes","insert":[1,"ann"]}]}', '{"as":"ann","do":"write","entries":[{"on":"notes","insert":[2,"x"]}]}',
            '{"as":"ann","do":"write","entries":[{"on":"notes","insert":[3,"ann"]}]}']
        assert gate.journal.stat().st_mode & 0o777 == 0o600


def test_a_torn_entry_is_cut_and_a_damaged_one_is_told() -> None:
    """A journal of the form before, too: it is cut or refused as it was."""
    with serving() as (gate, admin):
        admin.ask(insert(1, "ann"))
        gate.kill()
        old = gate.lines()
        for torn in (b"{", b'{"as":"ann","do":"wri', b'{"as":"ann","do":"write","entries":[{"on":"notes","insert":[9,"ann"]}]}'):
            gate.journal.write_bytes(old + torn)
            gate.start()
            assert gate.lines() == old and f"cut {len(torn)} bytes" in gate.said()
            admin = gate.enter("admin")
            assert total(admin.ask({"do": "subscribe", "on": "notes"})) == {(1, "ann"): 1}
            gate.kill()
        whole = gate.journal.read_bytes()
        for torn in (b"{", b'{"last":"12', b'{"last":"' + b"0" * 64 + b'","as":"ann","do":"write","entries":[{"on":"notes","insert":[9,"ann"]}]}'):
            gate.journal.write_bytes(whole + torn)
            gate.start()
            assert gate.journal.read_bytes() == whole and f"cut {len(torn)} bytes" in gate.said()
            gate.kill()
        texts = [line[1:] for line in old.splitlines()]
        wrong = {"a row that is not there": b'{"as":"ann","do":"write","entries":[{"on":"notes","delete":[9,"ann"]}]}',
                 "a role that is not there": b'{"as":"nobody","do":"create_role","name":"y"}', "what is no entry": b'{"as":"ann","do":"subscribe","on":"notes"}',
                 "no bytes": b"", "an entry of another form": b'{"role":"ann","do":"write","entries":[{"on":"notes","insert":[9,"ann"]}]}',
                 "a blank": b'{"as":"ann", "do":"write","entries":[]}', "a word": b"nonsense", "a second head": b'{"journal":1,"epoch":"%s","audit":1}' % (b"0" * 32)}
        for what, bad in wrong.items():
            for data, number in ((old + bad + b"\n", len(BASE) + 2), (chained((True, text) for text in [*texts, bad[1:]]), len(BASE) + 3)):
                gate.journal.write_bytes(data)
                at = len(b"".join(data.splitlines(keepends=True)[:-1]))
                assert gate.launch().wait(PATIENCE) == 1
                assert f"damaged: {gate.journal}: line {number}, at byte {at}," in gate.said(), (what, gate.said())
                assert gate.journal.read_bytes() == data
        gate.journal.write_bytes(whole)
        gate.start()


def test_each_entry_tells_who_wrote_it_and_when() -> None:
    """Beside who wrote what, as clients of one role and several holders know it themselves; whatever their names are."""
    names = {"one": "Ann Lee", "two": 'x", "as":"admin","by":"', "three": "ö\\ 東京", "none": None}
    plain = {key: name for key, name in names.items() if name is None or '"' not in name and "\\" not in name}
    gate = Gateway(words=("--jwt-secret-file", "secret"), start=False)
    secret = gate.folder / "secret"
    secret.write_bytes(SECRET)
    gate.words = ("--jwt-secret-file", secret)
    gate.know("admin", lines=tuple(f'"{digest(key)}" = {{ role = "mia"{"" if name is None else f", holder = {json.dumps(name, ensure_ascii=False)}"} }}'
                                   for key, name in plain.items()))
    gate.start()
    admin = gate.enter("admin")
    for it in BASE:
        admin.ask(it)
    begun, written = int(time.time()), {}
    wires = {key: gate.knock(key if key in plain else web_token({"role": "mia", "sub": name, "exp": begun + 900})) for key, name in names.items()}

    def write(number: int, key: str) -> None:
        dice = random.Random(number)
        for at in range(60):  # several messages in a read, some of them refused
            rows = [number * 10_000 + at * 10 + it for it in range(dice.randrange(1, 5))]
            asked = [insert(row, "ann") if dice.random() < 0.7 else {"do": "write", "entries": [{"on": "notes", "delete": [row, "nobody"]}]} for row in rows]
            wires[key].send(b"".join(masked(text_of(it).encode()) for it in asked))
            for it in asked:
                if wires[key].event() == ['{"ok":true}']:
                    written[it["entries"][0]["insert"][0]] = names[key] or ""

    threads = [threading.Thread(target=write, args=it) for it in enumerate(names)]
    for thread in threads:
        thread.start()
    for thread in threads:
        thread.join()
    ended = int(time.time())
    told = {it["entries"][0]["insert"][0]: it for it in gate.noted() if it["as"] == "mia"}
    assert {row: it["by"] for row, it in told.items()} == written and len(written) > 200, "an entry is told to be another's"
    assert all(begun <= it["at"] <= ended for it in told.values())
    assert {it["by"] for it in gate.noted() if it["as"] == "admin"} == {""}
    gate.kill()
    gate.start()
    assert len(total(gate.knock("one").ask({"do": "subscribe", "on": "notes"}))) == len(written)
    gate.end()


def test_it_tells_its_version_and_that_of_the_protocol() -> None:
    said = subprocess.run([PROGRAM, "--version"], stdin=subprocess.DEVNULL, capture_output=True, timeout=PATIENCE)
    assert (said.returncode, said.stdout, said.stderr) == (0, b"gateway 1.0.0 (protocol 1)\n", b"")


def test_one_process_writes_a_journal() -> None:
    with serving() as (gate, admin):
        before, name = gate.process, gate.journal
        assert gate.launch().wait(PATIENCE) == 1 and "another process writes" in gate.said()
        by_name: tuple[tuple[str, Callable[[pathlib.Path, pathlib.Path], None]], ...] = (("link", os.symlink), ("second", os.link))
        for word, make in by_name:  # by another name, too
            gate.journal = gate.folder / f"{word}.jsonl"
            make(name, gate.journal)
            assert gate.launch().wait(PATIENCE) == 1 and f"another process writes {gate.journal}" in gate.said()
        gate.started, gate.journal = before, name
        assert admin.ask(insert(1, "ann")) == ['{"ok":true}']


def test_a_seed_begins_a_journal_that_is_missing() -> None:
    gate = Gateway(words=("--seed", TOP / "frontend" / "desk.jsonl"), roles=("admin", "mia"))
    seed = (TOP / "frontend" / "desk.jsonl").read_bytes()
    assert gate.lines() == seed
    assert len(gate.enter("mia").ask({"do": "subscribe", "on": "tickets"})) == 2
    gate.enter("admin").ask({"do": "create_role", "name": "x"})
    gate.kill()
    kept = gate.journal.read_bytes()
    gate.start()
    assert gate.journal.read_bytes() == kept and gate.lines() == seed + b'{"as":"admin","do":"create_role","name":"x"}\n'
    assert [it["at"] for it in gate.noted()[-1:]] and not any("at" in it for it in gate.noted()[:-1])
    gate.end()


def test_a_full_disk_ends_it_and_nobody_was_told() -> None:
    with serving() as (gate, admin):
        gate.kill()
        gate.start(gate.journal.stat().st_size + 1000)
        told, admin = 0, gate.enter("admin")
        with contextlib.suppress(Ended, ConnectionError):
            for at in range(100):
                told += admin.ask(insert(at, "ann")) == ['{"ok":true}']
        assert gate.process.wait(PATIENCE) == 1 and all(it in gate.said() for it in ("the journal could not be written", "mend its disk"))
        assert 0 < told < 100
        gate.start()
        assert len(total(gate.enter("admin").ask({"do": "subscribe", "on": "notes"}))) == told


def test_sigterm_ends_it_at_once() -> None:
    with serving() as (gate, admin):
        assert gate.kill(signal.SIGTERM) == -signal.SIGTERM
        gate.start()


def test_kills_lose_nothing(kills: int) -> None:
    """Killed at random: each acknowledged write is there exactly once behind it, and none that was refused."""
    gate, dice = Gateway(words=("--rows", "1048576")), random.Random(5)  # a fast host writes more than 65,536
    acknowledged, refused, sent, faults = set[tuple[Any, ...]](), set[tuple[Any, ...]](), set[tuple[Any, ...]](), list[Exception]()
    stop, lock = threading.Event(), threading.Lock()
    admin = gate.enter("admin")
    for it in BASE:
        admin.ask(it)

    def write(number: int) -> None:
        at = 0
        while not stop.is_set():
            try:
                wire = gate.enter("mia")
                while not stop.is_set():
                    asked = []
                    for _ in range(4):
                        at += 1
                        row = (number * 10_000_000 + at, "ann" if at % 5 else "gone")
                        request = insert(*row)
                        if at % 5 == 0:  # it is refused whole
                            request["entries"].append({"on": "notes", "delete": [-1, "nobody"]})
                        asked.append(row)
                        with lock:
                            sent.add(row)
                        wire.say(request)
                    for row in asked:
                        [answer] = wire.event()
                        with lock:
                            (acknowledged if answer == '{"ok":true}' else refused).add(row)
            except (Ended, OSError):
                time.sleep(0.02)
            except Exception as why:
                faults.append(why)
                raise

    threads = [threading.Thread(target=write, args=(it,), daemon=True) for it in range(4)]
    for thread in threads:
        thread.start()
    try:
        for at in range(kills):
            before = len(acknowledged)
            until(lambda: faults or len(acknowledged) > before, "nothing is acknowledged")
            time.sleep(dice.uniform(0, 0.4))
            gate.kill()
            if at % 4 == 3:  # half an entry stands behind what is whole
                with gate.journal.open("ab") as file:
                    file.write(b'{"last":"12ab12ab12ab12ab12ab'[:dice.randrange(1, 28)])
            gate.start()
    finally:
        stop.set()
    for thread in threads:
        thread.join()
    rows = total(gate.enter("admin").ask({"do": "subscribe", "on": "notes"}))
    print(f"  {kills} kills: {len(sent)} were sent, {len(acknowledged)} acknowledged, {len(refused)} refused, {len(rows)} are there", flush=True)
    assert not faults, faults
    assert not acknowledged - set(rows), "an acknowledged write is lost"
    assert set(rows.values()) <= {1}, "a write was carried out twice"
    assert not refused & set(rows) and set(rows) <= sent and not any(row[1] == "gone" for row in rows)
    gate.end()
