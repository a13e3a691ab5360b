"""What strangers do to the gateway as a program, who know what docs/PROTOCOL.md and docs/OPERATING.md say and mean no good.

GATEWAY names another program than the one that is built."""
import contextlib
import json
import os
import random
import socket
import struct
import subprocess
import time

from trial import BASE, Rows, serving, total, until
from wire import CLOSE, COMING, PATIENCE, PING, PONG, PROGRAM, Ended, Gateway, Line, Wire, digest, frame, http, in_time, masked, plain, request

PIECES = [*'{}[],:"\\1- \n\t\r\x7f\u2028é😀', "\\u00", "\\ud8", "null", "true", "1e9", '"do"', '"write"', '"entries"', '"on"', '"notes"', '"insert"', '"delete"',
          '"id":', '"id":7,', '"as":"admin"', '"session":1', '{"do":"write","entries":[{"on":"notes","insert":[1,"', '"]}]}']
MESSAGES = ['{"id":3,"do":"write","entries":[{"on":"notes","insert":[1,"x"]}]}', '{"do":"subscribe","on":"notes"}', '{"id":"q","do":"unsubscribe","sub":1}',
            '{"do":"write","entries":[{"on":"notes","insert":[2,"y"]},{"on":"notes","delete":[2,"y"]}]}']


TAKEN = 60  # seconds for an answer to be taken


def shown(gate: Gateway) -> Rows:
    """The rows of the table, as an administrator sees them who comes now."""
    wire = gate.enter("admin")
    rows = total(wire.ask({"do": "subscribe", "on": "notes"}))
    wire.shut()
    return rows


def test_damaged_messages_have_one_reply_each() -> None:
    """And the journal has what was accepted of them, whatever blanks and keys it has."""
    with serving() as (gate, admin):
        mia, dice = gate.enter("mia"), random.Random(3)
        for _ in range(1500):
            text = dice.choice(MESSAGES)
            for _ in range(dice.randint(1, 4)):
                at = dice.randrange(len(text) + 1)
                text = text[:at] + dice.choice(PIECES) + text[at + dice.choice([0, 0, 1, 2, 5]):]
            replies = [it for it in map(json.loads, mia.ask(text)) if "changes" not in it]
            assert len(replies) == 1 and replies[0].keys() & {"ok", "error"}, (text, replies)
        assert all(it["as"] in ("admin", "mia") for it in gate.entries())
        before = shown(gate)
        gate.kill()
        gate.start()
        assert shown(gate) == before


def test_nobody_writes_in_the_name_of_another() -> None:
    with serving() as (gate, admin):
        mia, before = gate.enter("mia"), len(gate.entries())
        forged = {"who acts": '"as":"admin"', "who acts, by its escapes": '"\\u0061s":"admin"', "a role": '"role":"admin"', "a session": '"session":1'}
        for what, key in forged.items():
            for text in (f'{{{key},"do":"create_role","name":"eve"}}', f'{{"id":1,{key},"do":"create_role","name":"eve"}}',
                         f'{{"do":"create_role","name":"eve",{key}}}', f'{{"do":"write","entries":[{{"on":"notes","insert":[1,"x"]}}],{key}}}'):
                [reply] = map(json.loads, mia.ask(text))
                assert (reply["error"], reply["why"]) == (2, "unknown"), (what, text, reply)
        assert mia.ask('{"do":"write","do":"create_role","name":"eve"}') == ['{"error":11}'] and len(gate.entries()) == before


def test_standard_error_may_be_gone() -> None:
    for is_pipe in (True, False):  # one that nobody reads from any more, or none at all
        gate, ends = Gateway(start=False), os.pipe()
        gate.started = subprocess.Popen([PROGRAM, "--journal", gate.journal, "--tokens", gate.tokens, "--port", str(gate.port)], stdin=subprocess.DEVNULL,
                                        stderr=ends[1] if is_pipe else None, preexec_fn=None if is_pipe else lambda: os.close(2))
        for it in ends:
            os.close(it)
        until(lambda: gate.process.poll() is not None or gate.journal.is_file(), "it does not start")
        until(lambda: gate.process.poll() is not None or listens(gate), "it does not listen")
        assert gate.enter("admin").ask(BASE[0])[0] == '{"ok":true}' and len(gate.entries()) == 1
        gate.end()


def listens(gate: Gateway) -> bool:
    try:
        socket.create_connection(("127.0.0.1", gate.port), 1).close()
        return True
    except OSError:
        return False


def test_a_process_with_few_files_serves_who_is_there() -> None:
    gate = Gateway(start=False)
    gate.launch(files=40)
    until(lambda: listens(gate), "it does not listen")
    admin = gate.enter("admin")
    others = [socket.create_connection(("127.0.0.1", gate.port), PATIENCE) for _ in range(100)]
    until(lambda: "could not be accepted" in gate.said(), "all were accepted")
    assert admin.ask(BASE[0])[0] == '{"ok":true}' and len(gate.entries()) == 1
    start = time.monotonic()
    until(lambda: time.monotonic() > start + 2, "")
    assert gate.said().count("could not be accepted") < 2 * (time.monotonic() - start) + 20  # no flood of words
    for it in others:
        it.close()
    assert in_time(lambda: gate.enter("admin").role) == "admin"
    gate.end()


def test_without_memory_it_ends_and_loses_nothing() -> None:
    with serving() as (gate, admin):
        gate.kill()
        gate.start(memory=32 << 20)
        wires, acknowledged = [gate.enter("admin")], 0
        with contextlib.suppress(Ended, ConnectionError):
            for at in range(2000):
                rows = [[at * 60 + number, "ann" + "x" * 900] for number in range(60)]
                acknowledged += wires[0].ask({"do": "write", "entries": [{"on": "notes", "insert": row} for row in rows]}) == ['{"ok":true}']
                if at % 5 == 0:
                    wires.append(gate.enter("mia", receive=4096))
                    wires[-1].say({"do": "subscribe", "on": "notes"})
        assert gate.process.wait(PATIENCE) == 3 and "out of memory" in gate.said()
        gate.start()
        assert 0 < acknowledged and len(shown(gate)) - acknowledged * 60 in (0, 60)  # one may be on disk that nobody was told of


def test_resets_at_any_byte_leave_nothing() -> None:
    with serving() as (gate, admin):
        said = [b"mia-demo", b'{"do":"subscribe","on":"notes"}', b'{"do":"write","entries":[{"on":"notes","insert":[1,"x"]}]}']
        data = request() + b"".join(map(masked, said))
        files, dice = len(os.listdir(f"/proc/{gate.process.pid}/fd")), random.Random(1)
        for at in range(600):
            it = socket.create_connection(("127.0.0.1", gate.port), PATIENCE)
            it.send(data[:dice.randrange(len(data) + 1)])
            if at % 2:  # by a reset, not by an end
                it.setsockopt(socket.SOL_SOCKET, socket.SO_LINGER, struct.pack("ii", 1, 0))
            it.close()
        until(lambda: len(os.listdir(f"/proc/{gate.process.pid}/fd")) <= files, "connections that are gone are kept")
        assert admin.ask({"do": "unsubscribe", "sub": 9}) == ['{"error":19}']
        assert json.loads(http(gate.port, "/state", "admin-demo")[2])["clients"] == 1


def test_health_is_told_while_others_take_nothing() -> None:
    gate = Gateway(start=False)
    pages = gate.folder / "pages"
    pages.mkdir()
    (pages / "large.js").write_bytes(b"x" * (12 << 20))
    gate.words = ("--pages", pages)
    gate.start()

    def attempt() -> list[int] | None:
        def is_full() -> bool:
            return http(gate.port, "/large.js")[0] == 503

        with contextlib.ExitStack() as slow:
            for _ in range(64):
                it = slow.enter_context(socket.socket())
                it.settimeout(PATIENCE)
                it.setsockopt(socket.SOL_SOCKET, socket.SO_RCVBUF, 4096)
                it.connect(("127.0.0.1", gate.port))
                it.sendall(b"GET /large.js HTTP/1.1\r\nHost: x\r\n\r\n")
                assert it.recv(1) == b"H"
                if is_full():
                    time.sleep(0.1)  # the system takes some of what waits
                    if is_full():
                        break
            else:
                return None  # this host took so long that they were let go
            found = [http(gate.port, path, token)[0] for path, token in (("/healthz", None), ("/readyz", None), ("/nothing", None), ("/state", "admin-demo"))]
        return found
    assert in_time(attempt, TAKEN) == [200, 200, 404, 200]
    gate.end()


def test_who_says_nothing_keeps_nobody_out() -> None:
    """All numbers are taken by who has not come in: the one that has waited longest goes, and what is kept for administrators is not taken from others."""
    with serving(words=("--clients", "100")) as (gate, admin):
        mia = gate.enter("mia")

        def attempt() -> bool | None:
            start = time.monotonic()
            idle = [socket.create_connection(("127.0.0.1", gate.port), PATIENCE) for _ in range(150)]
            come = [gate.knock(f"{role}-demo").role for role in ("admin", "mia", "ann")]
            for it in idle:
                it.close()
            return come == ["admin", "mia", "ann"] if time.monotonic() < start + 0.8 * COMING else None  # later they would have gone anyway
        assert in_time(attempt)
        for wire in (admin, mia):
            assert wire.ask({"do": "unsubscribe", "sub": 9}) == ['{"error":19}']


def test_who_has_no_token_holds_little_memory() -> None:
    with serving() as (gate, admin):
        before, wires = gate.memory(), []
        for _ in range(200):
            wire = Wire(gate.port)
            wire.socket.settimeout(PATIENCE)
            with contextlib.suppress(ConnectionError):
                wire.send(frame(b"x" * 131_071, final=False) + b"\x80\xff" + struct.pack("!Q", 131_072) + bytes(4) + b"y" * 100_000)
            wires.append(wire)
        answers = admin.ask({"do": "unsubscribe", "sub": 9})
        grown = gate.memory() - before
        print(f"  {grown // 200:,} bytes for each of 200 who have no token", flush=True)
        assert answers == ['{"error":19}'] and grown < 200 * (96 << 10)


DRIPS = {"a path": (b"GET /", b"a"), "fields": (b"GET / HTTP/1.1\r\n", b"a: b\r\n"), "empty lines": (b"\r\n", b"\r\n"), "pings": (request(), masked(b"x", PING)),
         "pongs": (request(), masked(b"x", PONG)), "a token": (request() + masked(b"mia-demo" * 10)[:6], b"x"),
         "empty fragments": (request() + frame(b"m", final=False), frame(b"", 0, final=False))}


def test_who_never_comes_to_an_end_goes_in_time() -> None:
    """A piece comes each half second, so that the connection is never silent, and no token does."""
    with serving() as (gate, admin):
        start, ends = time.monotonic(), dict[str, float]()
        wires = {what: Wire(gate.port, open_it=False) for what in DRIPS}
        for what, (first, _) in DRIPS.items():
            wires[what].send(first)
        while len(ends) < len(DRIPS):
            assert time.monotonic() < start + COMING + PATIENCE, {*DRIPS} - {*ends}
            time.sleep(0.5)
            for what in {*DRIPS} - {*ends}:
                with contextlib.suppress(BlockingIOError):
                    try:
                        wires[what].send(DRIPS[what][1])
                        wires[what].socket.setblocking(True)
                        if not wires[what].socket.recv(1 << 16, socket.MSG_DONTWAIT):
                            raise ConnectionError
                    except ConnectionError:
                        ends[what] = time.monotonic() - start
        print(f"  {ends}", flush=True)
        assert min(ends.values()) > COMING - 2 and gate.said().count("it was no client in time") == len(DRIPS)
        assert admin.ask({"do": "unsubscribe", "sub": 9}) == ['{"error":19}']


def test_wrong_tokens_cost_little() -> None:
    """However many tokens are known: the file is not read for one that is not."""
    def spent(count: int) -> float:
        gate = Gateway(start=False)
        gate.know("admin", lines=tuple(f'"{digest(str(at))}" = "mia"' for at in range(count)))
        gate.start()
        gate.enter("admin")
        before = gate.processor()
        for at in range(60):
            assert gate.knock(f"no {at}").code == 4401
        took = gate.processor() - before
        gate.end()
        return took
    few, many = (sum(spent(count) for _ in range(2)) for count in (200, 20_000))
    print(f"  {few / 0.12:.2f} ms for a wrong token where 200 are known, {many / 0.12:.2f} where 20,000 are", flush=True)
    assert many < 6 * few


def test_strangers_fill_no_log() -> None:
    """Who asks what cannot be, and who has no token: some lines a second, and how many are left out."""
    with serving() as (gate, admin):
        before, start = len(gate.said()), time.monotonic()
        for _ in range(500):
            assert plain(gate.port, b"\0\r\n\r\n").startswith(b"HTTP/1.1 400")
        assert len(gate.said()) - before < 2000
        for at in range(200):
            assert gate.knock(f"no {at}").code == 4401
        took = time.monotonic() - start
        said = gate.said()[before:]
        print(f"  {len(said):,} bytes of log in {took:.1f} s for 700 connections", flush=True)
        assert len(said.splitlines()) < 25 * (took + 2) and max(map(len, said.splitlines())) < 200


def figure(gate: Gateway, name: str) -> int:
    [found] = [it for it in http(gate.port, "/metrics", "admin-demo")[2].decode().splitlines() if it.startswith(f"{name} ")]
    return int(found.rpartition(" ")[2])


def test_entries_and_ends_are_counted() -> None:
    """A tab that is closed, by a close as a browser sends it or without a word, is no client that was dropped, and who was closed is told in the log."""
    with serving() as (gate, admin):
        names = {"came": "gateway_came_total", "refused": "gateway_refused_total", "asked": "gateway_asked_total",
                 **{why: f'gateway_ends_total{{why="{why}"}}' for why in ("closed", "late", "stuck", "told")}}

        def figures() -> dict[str, int]:
            return {what: figure(gate, name) for what, name in names.items()}
        before, start = figures(), time.monotonic()
        wires = [gate.enter("mia") for _ in range(4)]
        assert [gate.knock("nobody").code for _ in range(4)] == [4401] * 4
        is_late = time.monotonic() > start + 0.8 * COMING  # then some may have been tried twice
        for wire in wires[:2]:
            wire.shut()
        wires[2].send(masked(struct.pack("!H", 1001), CLOSE))
        assert wires[2].end() == 1001
        gate.know("admin", "ann", "bob")
        assert wires[3].end() == 4401
        for wire in wires[2:]:
            wire.shut()
        late = Wire(gate.port)
        with contextlib.suppress(Ended):
            while True:
                late.more()

        def found() -> dict[str, int]:
            return {what: count - before[what] for what, count in figures().items()}
        until(lambda: found()["closed"] + found()["told"] >= 4 and found()["late"] >= 1, "an end is not counted")
        now = found()
        assert now.pop("asked") > 5 and (is_late or now == {"came": 4, "refused": 4, "closed": 3, "told": 1, "late": 1, "stuck": 0}), now
        assert json.loads(http(gate.port, "/state", "admin-demo")[2])["dropped"] == 1
        whys = ("it closed, or broke", "it was told why", "it was no client in time")
        until(lambda: is_late or [gate.said().count(f" goes: {why}\n") for why in whys] == [3, 1, 1], "an end is not told in the log")


def all_done(wire: Wire, requests: list[Line]) -> None:
    """All are sent at once, and done."""
    wire.send(b"".join(masked(json.dumps(it).encode()) for it in requests))
    for _ in requests:
        assert wire.event()[0] == '{"ok":true}'


def test_a_large_shape_shuts_no_administrator_out() -> None:
    """Who owns tables makes the shape large, and then much of it new: administrators are told each request once, and others wait for nothing."""
    with serving() as (gate, admin):
        for table in range(8):
            using = " or ".join(f"id = {number}" for number in range(290))
            all_done(admin, [{"do": "create_table", "name": f"t{table}", "owner": "ann", "columns": [["id", "int"]]},
                             *({"do": "create_policy", "on": f"t{table}", "name": f"p{at}", "using": using} for at in range(32))])
        admins, ann = [gate.enter("admin") for _ in range(3)], gate.enter("ann")
        size = sum(map(len, admins[0].shape))
        assert size > 800_000 and all(it.shape == admins[0].shape for it in admins)
        before, sent = gate.processor(), figure(gate, "gateway_sent_bytes_total")
        turns = [("grant", "revoke")[at % 2] for at in range(100)]
        all_done(ann, [{"do": it, "on": "t0", "privileges": ["select"], "to": "bob"} for it in turns])
        for wire in (admin, *admins):
            assert [json.loads(line)["made"]["do"] for line in (wire.event()[0] for _ in turns)] == turns
        took, sent = gate.processor() - before, figure(gate, "gateway_sent_bytes_total") - sent
        print(f"  a shape of {size:,} bytes; 100 requests more: {sent:,} bytes to all, {took * 10:.2f} ms of processor each", flush=True)
        assert sent < size // 4 and json.loads(http(gate.port, "/state", "admin-demo")[2])["dropped"] == 0


def test_it_listens_where_it_is_told() -> None:
    for host, family, others in (("127.0.0.1", socket.AF_INET, "127.0.0.2"), ("127.0.0.2", socket.AF_INET, "127.0.0.1"), ("::1", socket.AF_INET6, None)):
        with contextlib.closing(socket.socket(family)) as probe:
            try:
                probe.bind((host, 0))
            except OSError:
                continue  # this host has no such address
        gate = Gateway(start=False, words=() if host == "127.0.0.1" else ("--host", host))
        gate.launch()
        until(lambda: gate.process.poll() is not None or "listening on" in gate.said(), "it does not listen")
        with contextlib.closing(socket.create_connection((host, gate.port), PATIENCE)) as it:
            it.sendall(b"GET /healthz HTTP/1.1\r\nHost: x\r\n\r\n")
            assert it.recv(12) == b"HTTP/1.1 200"
        assert not (others and reached(others, gate.port)), host
        gate.end()
    for host, status, words in (("localhost", 1, "an option is not valid"), ("", 1, "an option is not valid"), ("192.0.2.1", 2, "cannot be listened on")):
        gate = Gateway(start=False, words=("--host", host))
        assert gate.launch().wait(PATIENCE) == status and words in gate.said(), (host, gate.said())
        gate.end()


def reached(host: str, port: int) -> bool:
    try:
        socket.create_connection((host, port), 1).close()
        return True
    except OSError:
        return False
