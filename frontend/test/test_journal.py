#!/usr/bin/python3
"""The desk over the gateway as a program: who acts for whom, and what its journal leads to, after kills and compactions.

    frontend/test/test_journal.py [TEST ..]

GATEWAY and VIEWD name other programs than those that are built: a compaction asks viewd."""
import collections
import dataclasses
import json
import os
import pathlib
import re
import subprocess
import sys
from collections.abc import Iterable
from typing import Any

import pytest

from ports import free_port
from trial import Rows, serving, total, until
from wire import PATIENCE, PROGRAM, TOP, Gateway, Line, http

sys.path.insert(0, str(TOP / "frontend"))

import audit
from journal import Shape

ROLES = ("admin", "lena", "mia", "noah", "olga")
DESK = TOP / "frontend/desk.jsonl"
VIEWD = pathlib.Path(os.environ.get("VIEWD", TOP / "crates/viewd/out/viewd")).resolve()
TICKETS = [["id", "int"], ["agent", "text"], ["subject", "text"], ["open", "flag"]]
MOST = 65_463  # bytes of a message


class Peer:
    """A client: `ask` gives the reply to a request once all that it brought is here, `rows` adds up what came for each number."""

    def __init__(self, gate: Gateway, role: str):
        self.wire, self.count = gate.enter(role), 0
        self.rows: dict[int, Rows] = collections.defaultdict(collections.Counter)
        self.heard: list[Line] = []
        self.shape = Shape()
        for it in map(json.loads, self.wire.shape):
            self.hear(it)

    def hear(self, it: Line) -> None:
        """Takes in a line that is no reply."""
        self.heard.append(it)
        if "made" in it:
            self.shape.apply(it["made"])
        for copies, row in it.get("changes", []):
            rows = self.rows[it["sub"]]
            rows[tuple(row)] += copies
            if not rows[tuple(row)]:
                del rows[tuple(row)]

    def ask(self, **request: Any) -> Line:
        self.count += 1
        self.wire.say({"id": self.count, **request})
        while True:
            first, *lines = [self.line(it) for it in self.wire.event()]
            is_reply = first.get("id") == self.count
            for it in lines if is_reply else [first, *lines]:
                self.hear(it)
            if is_reply:
                del first["id"]
                return first

    @staticmethod
    def line(text: str) -> Line:
        line: Line = json.loads(text)
        return line

    def told(self, key: str) -> list[Any]:
        """The values of a key in all lines that came so far, whoever asked: they come in one order."""
        self.ask(do="unsubscribe", sub=1 << 60)
        return [it[key] for it in self.heard if key in it]

    def see(self, on: str) -> dict[Any, Any]:
        """The rows of a relation now, or the refusal."""
        reply = self.ask(do="subscribe", on=on)
        if "error" in reply:
            return reply
        self.ask(do="unsubscribe", sub=reply["sub"])
        return self.rows.pop(reply["sub"], collections.Counter())

    def insert(self, number: int, agent: str, subject: str = "x") -> Line:
        return self.ask(do="write", entries=[{"on": "tickets", "insert": [number, agent, subject, True]}])


def numbers(rows: Iterable[Any]) -> set[int]:
    return {row[0] for row in rows}


def desk(**how: Any) -> Gateway:
    """A gateway of the support desk."""
    return Gateway(roles=how.pop("roles", ROLES), journal=DESK.read_bytes(), **how)


def enter(gate: Gateway, *roles: str) -> list[Peer]:
    return [Peer(gate, role) for role in roles]


def seen(gate: Gateway, *more: str) -> list[Any]:
    """What each role sees of each relation, and the shape."""
    peers = enter(gate, *ROLES)
    found = [peer.see(on) for peer in peers for on in ("tickets", "agents", "teams", "workload", *more)]
    shape = dataclasses.asdict(peers[0].shape)
    for peer in peers:
        peer.wire.shut()
    return [*found, shape]


def compacted(gate: Gateway, *words: str) -> subprocess.CompletedProcess[str]:
    return subprocess.run([TOP / "frontend/compact.py", *words, gate.journal, VIEWD], stdin=subprocess.DEVNULL, capture_output=True, text=True, timeout=PATIENCE)


def carried_out(gate: Gateway, *more: str) -> list[Any]:
    """What each role sees of each relation in a viewd that was told the journal's requests."""
    told = subprocess.run([TOP / "frontend/audit.py", gate.journal], capture_output=True, check=True, text=True).stdout
    asks: list[Line] = []
    for session, role in enumerate(ROLES, 1_001):
        asks += [{"session": session, "do": "begin", "role": role},
                 *({"session": session, "do": "subscribe", "on": on} for on in ("tickets", "agents", "teams", "workload", *more))]
    done = subprocess.run([VIEWD, "replay"], input=told + "".join(json.dumps(it) + "\n" for it in asks), capture_output=True, check=True, text=True)
    said: list[Line] = [json.loads(it) for it in done.stdout.splitlines()]
    replies = [it for it in said if "changes" not in it]
    assert len(replies) == told.count("\n") + len(asks) and all("ok" in it for it in replies[:-len(asks)])
    rows: dict[int, Rows] = collections.defaultdict(collections.Counter)
    for line in said:
        for copies, row in line.get("changes", []):
            rows[line["sub"]][tuple(row)] += copies
    found = [(ask, {key: it for key, it in reply.items() if key != "session"}) for ask, reply in zip(asks, replies[-len(asks):])]
    return [rows[reply["sub"]] if "sub" in reply else reply for ask, reply in found if ask["do"] == "subscribe"]


def inserted(journal: bytes) -> set[tuple[Any, ...]]:
    """The rows that the requests of a journal insert, those of whole records."""
    requests = [json.loads(it.entry) for it in audit.read(journal, "a journal").entries]
    return {tuple(it["insert"]) for request in requests for it in request.get("entries", []) if "insert" in it}


needs_viewd = pytest.mark.skipif(not VIEWD.is_file(), reason=f"the compactions did not run, since {VIEWD} is not built")


def has_viewd() -> bool:
    if VIEWD.is_file():
        return True
    print(f"the compactions did not run, since {VIEWD} is not built")
    return False


SESSIONS: dict[str, Any] = {f"the session {n}": n for n in (*range(0, 6), 257)} | {"a text": "1", "null": None, "a list": [1]}
KEYS = {"the session": "session", "the session by its escapes": "sess\\u0069on", "who acts": "as", "a role": "role"}
NO_REQUESTS: dict[str, Any] = {"another session": "begin", "the end of the session": "finish", "an unknown request": "serve", "null": None, "a list": ["write"]}
FORGED_LINES = {  # texts that end where a line has its session, or begin another
    "a session": '"session":3}', "a session and a number": '","session":3,"sub":1}', "the same with a backslash": '\\","session":3,"sub":3}',
    "another reply": '"session":3}\n{"ok":true,"session":3}', "what splits lines elsewhere": "\u2028\u0001{\"changes\":3", "an entry": '{"settled":true}\n{"role":"admin"}'}


def test_a_client_acts_for_itself_alone() -> None:
    gate = desk()
    admin, mia, noah = enter(gate, "admin", "mia", "noah")
    for peer in (admin, mia, noah):
        assert peer.ask(do="subscribe", on="tickets") == {"columns": TICKETS, "ok": True, "sub": 1}  # each counts its own
    ticket = {"on": "tickets", "insert": [1, "noah", "x", True]}
    for name, forged in SESSIONS.items():
        requests: list[Line] = [{"do": "grant", "on": "tickets", "privileges": ["delete"], "to": "mia"}, {"do": "write", "entries": [ticket]}]
        for request in requests:
            assert mia.ask(**request, session=forged) == {"error": 2, "key": "session", "why": "unknown"}, name
    assert mia.ask(do="grant", on="tickets", privileges=["delete"], to="mia") == {"error": 12, "on": "tickets"}
    assert mia.ask(do="write", entries=[ticket]) == {"check": "insert", "entry": 1, "error": 14, "on": "tickets"}
    assert mia.ask(do="create_role", name="x") == {"error": 11}
    for name, key in KEYS.items():  # twice
        [answer] = mia.wire.ask('{"do":"create_role","name":"x","%s":"admin","%s":1}' % (key, key))
        assert answer.startswith('{"error":') and "ok" not in answer, (name, answer)
    assert mia.ask(do="unsubscribe", sub=2) == {"error": 19}  # noah's has a number of his own
    for name, do in NO_REQUESTS.items():
        assert mia.ask(do=do, role="admin") == {"error": 2, "key": "do", "why": "wrong"}, name
    assert mia.insert(7, "mia") == {"ok": True}
    for name, text in FORGED_LINES.items():
        assert mia.insert(8, "mia", text) == {"ok": True}
        for peer in (admin, noah):
            peer.told("changes")
        row = (8, "mia", text, True)
        assert row in admin.rows[1] and row in mia.rows[1] and len(noah.rows[1]) == 4, name
    gate.end()


def test_columns_are_those_of_the_query() -> None:
    """Each query of the protocol gives the columns that are written there, also after a restart."""
    with serving([]) as (gate, _):
        [admin] = enter(gate, "admin")
        for name, columns in [("a", "k int, x int"), ("b", "k int, y int"), ("notes", "id int, who text")]:
            assert "ok" in admin.ask(do="create_table", name=name, owner="admin", columns=[it.split() for it in columns.split(", ")])
        assert "ok" in admin.ask(do="create_view", name="keys", owner="admin", query="select k from a")
        page = (TOP / "docs/PROTOCOL.md").read_text(encoding="utf-8").split("### What each part gives")[1]
        queries = [*re.findall(r"(?m)^(select .*) => (\w+ (?:int|text)\b.*)$", page), (
            "SELECT N.Who  whom, count(*)as n from notes\tas N where who <> 'it''s union ( from' group by who", "whom text, n int"),
            ("select * from a join notes on a.k = notes.id", "k int, x int, id int, who text"), ("select * from notes where who <> ' from keys b'", "id int, who text")]
        assert len(queries) > 10
        for number, (query, _) in enumerate(queries):
            assert "ok" in admin.ask(do="create_view", name=f"v{number}", owner="admin", query=query), query
        for again in (False, True):
            if again:
                gate.kill()
                gate.start()
                [admin] = enter(gate, "admin")
            for number, (query, columns) in enumerate(queries):
                reply = admin.ask(do="subscribe", on=f"v{number}")
                assert reply["columns"] == [it.split() for it in columns.split(", ")], (query, reply)
                admin.ask(do="unsubscribe", sub=reply["sub"])


def test_the_longest_message_is_an_entry() -> None:
    """What is as long as a message may be fits a line of the journal with the longest role; one byte more is refused, and its client goes on."""
    role = "r" * 63
    gate = Gateway(roles=("admin", role))
    [admin] = enter(gate, "admin")
    requests: list[Line] = [{"do": "create_role", "name": role}, {"do": "create_table", "name": "wide", "owner": role, "columns": [["t", "text"]]}]
    for request in requests:
        assert admin.ask(**request) == {"ok": True}
    wire = gate.enter(role)
    for letter in ("a", "ä"):  # one byte, and two
        entries: list[Line] = [{"on": "wide", "insert": [""]} for _ in range(300)]

        def message() -> str:
            return json.dumps({"do": "write", "entries": entries}, separators=(",", ":"), ensure_ascii=False)
        room = MOST - len(message())
        for entry in entries:
            took = min(room // len(letter.encode()), 500)
            entry["insert"][0] = letter * took
            room -= took * len(letter.encode())
        entries[-1]["insert"][0] += "a" * room
        assert len(message().encode()) == MOST
        assert wire.ask(message()) == ['{"ok":true}']
        assert gate.lines().splitlines()[-1].startswith(b'{"as":"rrr')
        entries[-1]["insert"][0] += "a"
        assert wire.ask(message()) == ['{"error":22}']
    gate.kill()
    gate.start()
    assert sum(Peer(gate, "admin").see("wide").values()) == 600
    gate.end()


def test_damage_in_the_middle_is_told() -> None:
    whole = DESK.read_bytes()
    lines = whole.splitlines(keepends=True)
    at = len(b"".join(lines[:5]))
    rest = b"".join(lines[5:])

    def is_refused(what: str, data: bytes, line: int) -> None:
        gate = Gateway(roles=ROLES, journal=data, start=False)
        assert gate.launch().wait(PATIENCE) == 1, what
        assert f"damaged: {gate.journal}: line {line}, at byte {len(b''.join(data.splitlines(keepends=True)[:line - 1]))}," in gate.said(), (what, gate.said())
        assert gate.journal.read_bytes() == data  # left as it is, for whoever mends it
        gate.end()
    middles = {"a word": b"garbage\n", "zeros": b"\0" * 100 + b"\n", "a list": b"[]\n", "no key": b"{}\n", "half of a line": lines[3][:30] + b"\n",
               "a number that acts": b'{"as":1}\n', "a line that is too long": b'{"as":"admin","do":"create_role","name":"' + b"x" * 70_000 + b'"}\n'}
    for what, middle in middles.items():
        is_refused(what, whole[:at] + middle + rest, 6)
    is_refused("a line is gone, on which the next but one rests", b"".join(lines[:5] + lines[6:]), 7)
    is_refused("the roles are gone", b"".join(lines[4:]), 1)
    for cut in (1, len(lines[-1]) - 1):
        gate = Gateway(roles=ROLES, journal=whole[:-cut])
        assert gate.lines() == b"".join(lines[:-1])
        gate.end()


@needs_viewd
def test_a_compaction_keeps_the_state() -> None:
    """A journal that was written anew leads to what each role saw, by fewer lines."""
    gate = desk()
    admin, lena = enter(gate, "admin", "lena")
    admin.ask(do="create_table", name="empty", owner="mia", columns=[["n", "int"]])
    text = "\"\\ü\u0001" * 90
    for number in range(300):
        row = [number - 150, ["mia", "noah", "nobody"][number % 3], text, number % 2 == 0]
        assert lena.ask(do="write", entries=[{"on": "tickets", "insert": row, "copies": 1 + number % 5}]) == {"ok": True}
        if number % 3:
            assert lena.ask(do="write", entries=[{"on": "tickets", "delete": row}]) == {"ok": True}
    requests: list[Line] = [
        {"do": "revoke", "on": "agents", "privileges": ["select"], "to": "public"},
        {"do": "grant", "on": "agents", "privileges": ["select"], "to": "mia"},
        {"do": "revoke", "on": "teams", "privileges": ["delete", "select"], "to": "lena"},
        {"do": "create_policy", "on": "tickets", "name": "cover", "command": "select", "to": ["mia"], "using": "open = true"},
        {"do": "create_policy", "on": "tickets", "name": "gone", "using": "true"},
        {"do": "drop_policy", "on": "tickets", "name": "gone"}]
    for request in requests:
        assert lena.ask(**request) == {"ok": True}
    before = seen(gate, "empty")
    busy = compacted(gate)
    assert busy.returncode == 1 and "another process" in busy.stderr, busy
    gate.kill()
    was = gate.journal.read_bytes()
    assert carried_out(gate, "empty") == before[:-1]
    done = compacted(gate)
    assert done.returncode == 0, done.stderr
    print("   ", done.stdout.split(": ")[1].strip())
    assert len(gate.journal.read_bytes().splitlines()) < 40 < len(was.splitlines()) and gate.journal.stat().st_mode & 0o777 == 0o600
    gate.start()
    assert seen(gate, "empty") == before
    gate.kill()
    again = gate.lines()
    assert compacted(gate).returncode == 0 and gate.lines() == again
    damaged = was[:500] + b"\n" + was[500:]
    gate.journal.write_bytes(damaged)
    done = compacted(gate)
    assert done.returncode == 1 and "is not what was written" in done.stderr and gate.journal.read_bytes() == damaged, done
    gate.end()


def test_a_journal_has_a_row_limit() -> None:
    """`--rows` is the limit, and a compaction takes the same; under less than it was written with, a journal leads nowhere."""
    def fill(lena: Peer, first: int, last: int) -> None:
        for at in range(first, last, 500):
            entries = [{"on": "tickets", "insert": [number, "mia", "x", True]} for number in range(at, min(at + 500, last))]
            assert lena.ask(do="write", entries=entries) == {"ok": True}

    def limited(rows: str) -> None:
        gate.words = ("--rows", rows)
        gate.start()
    gate = desk(words=("--rows", "1024"))
    lena, admin = enter(gate, "lena", "admin")
    fill(lena, 1000, 2024 - len(admin.see("tickets")))
    assert lena.insert(3000, "mia")["error"] == 17 and len(admin.see("tickets")) == 1024
    gate.kill()
    limited("4096")
    fill(Peer(gate, "lena"), 3000, 5000)
    gate.kill()
    if has_viewd():
        was = gate.journal.read_bytes()
        little = compacted(gate, "--rows", "1024")
        assert little.returncode == 1 and "17" in little.stderr and gate.journal.read_bytes() == was, little
        assert compacted(gate, "--rows", "4096").returncode == 0 and gate.journal.read_bytes() != was
        limited("4096")
        assert len(Peer(gate, "admin").see("tickets")) == 3024
        gate.kill()
    gate.words = ("--rows", "1024")
    assert gate.launch().wait(PATIENCE) == 1 and "damaged" in gate.said()
    gate.end()


def test_memberships_are_kept() -> None:
    """What a role holds, its members see, and are told that they may; over restarts and a compaction, until it is ended."""
    tickets = {"olga": {105, 111}, "noah": {103, 104, 107, 112}}
    gate = desk()
    admin, lena, mia, noah, olga = enter(gate, *ROLES)
    for name in ("staff", "night", "team"):
        assert admin.ask(do="create_role", name=name) == {"ok": True}
    assert admin.ask(do="create_table", name="notes", owner="staff", columns=[["n", "int"]]) == {"ok": True}
    assert lena.ask(do="grant", on="tickets", privileges=["select"], to="team") == {"ok": True}
    assert olga.see("tickets") == {"error": 13, "on": "tickets", "privilege": "select"}
    # by one step, and by three; who becomes a member is told of all that its new role has something on, and nobody else
    assert admin.ask(do="grant_role", role="team", to="olga") == {"ok": True}
    assert olga.told("granted") == ["teams", "agents", "tickets", "workload"]  # all but tickets by the grants to everybody
    assert numbers(olga.see("tickets")) == tickets["olga"]  # its own by the policy, which asks for its name
    for role, to in (("staff", "night"), ("night", "team")):
        assert admin.ask(do="grant_role", role=role, to=to) == {"ok": True}
    assert olga.told("granted")[4:] == ["teams", "agents", "workload", "notes"]
    assert lena.ask(do="grant", on="workload", privileges=["select"], to="staff") == {"ok": True}
    assert olga.told("granted")[8:] == ["workload"] and noah.told("granted") == mia.told("granted") == []
    assert olga.ask(do="write", entries=[{"on": "notes", "insert": [1]}]) == {"ok": True}
    # a policy for a role above shows more at once, and a membership that is ended takes it back
    sub = olga.ask(do="subscribe", on="tickets")["sub"]
    assert lena.ask(do="create_policy", on="tickets", name="whole", command="select", to=["night"], using="true") == {"ok": True}
    assert len(olga.told("changes")) > 0 and len(olga.rows[sub]) == 12
    for role, to, error in (("olga", "staff", 23), ("team", "team", 23), ("team", "nobody", 5)):
        assert admin.ask(do="grant_role", role=role, to=to)["error"] == error
    assert lena.ask(do="grant_role", role="staff", to="lena") == lena.ask(do="revoke_role", role="team", to="olga") == {"error": 11}
    for do, role, to in (("grant_role", "team", "noah"), ("grant_role", "night", "noah"), ("revoke_role", "night", "noah"), ("grant_role", "team", "olga"),
                         ("grant_role", "olga", "mia"), ("revoke_role", "olga", "noah"), ("grant_role", "staff", "admin")):
        assert admin.ask(do=do, role=role, to=to) == {"ok": True}
    assert admin.ask(do="revoke_role", role="night", to="team") == {"ok": True}
    assert not olga.told("ended") and numbers(olga.rows[sub]) == tickets["olga"]
    assert admin.shape.members == [["team", "olga"], ["staff", "night"], ["team", "noah"], ["olga", "mia"], ["staff", "admin"]]
    assert admin.ask(do="grant_role", role="night", to="team") == {"ok": True}
    before = seen(gate, "notes")
    gate.kill()
    gate.start()
    assert seen(gate, "notes") == before
    if has_viewd():
        gate.kill()
        assert (done := compacted(gate)).returncode == 0, done.stderr
        assert [it["do"] for it in gate.entries()[:13]] == ["create_role"] * 7 + ["grant_role"] * 6
        gate.start()
        assert seen(gate, "notes") == before
    # the last way that leads to the rows is ended
    admin, mia, olga = enter(gate, "admin", "mia", "olga")
    subs = [olga.ask(do="subscribe", on=on)["sub"] for on in ("tickets", "workload", "notes")]
    assert len(olga.rows[subs[0]]) == 12 and mia.ask(do="subscribe", on="notes")["ok"]
    assert admin.ask(do="revoke_role", role="team", to="olga") == {"ok": True}
    assert olga.told("ended") == ["privilege"] * 3 and mia.told("ended") == ["privilege"]
    assert not any(olga.rows.values()) and olga.see("notes")["error"] == olga.see("tickets")["error"] == 13
    assert len(mia.see("tickets")) == 3  # what it holds itself
    before = seen(gate, "notes")
    gate.kill()
    gate.start()
    assert seen(gate, "notes") == before
    gate.end()


def test_a_file_of_tokens_has_digests() -> None:
    """A token in place of its digest keeps the program from starting, and so does a file without one."""
    for text, words in (('[tokens]\n"mia-demo" = "mia"\n', "line 2 is no token"), ("[tokens]\n", "there are none")):
        gate = Gateway(start=False)
        gate.put_tokens(text)
        assert gate.launch().wait(PATIENCE) == 1 and words in gate.said(), gate.said()
        gate.end()


def test_one_command_opens_the_desk() -> None:
    gate = Gateway(start=False)
    folder = gate.folder / "kept"
    for turn in range(2):
        port = free_port()  # it stays where it was, by other links
        command: list[str | pathlib.Path] = [TOP / "frontend/desk", "--folder", folder, "--port", str(port)]
        with (gate.folder / f"desk.{turn}").open("wb") as log:
            shown = subprocess.Popen(command, env={**os.environ, "GATEWAY": str(PROGRAM)}, stdin=subprocess.DEVNULL, stdout=subprocess.PIPE, stderr=log, text=True)
        assert shown.stdout
        try:
            links = {role: link for role, link in (line.split() for line in [shown.stdout.readline() for _ in range(2 + len(ROLES))][2:])}
            assert tuple(links) == ROLES, links
            address, _, token = links["mia"].partition("#token=")
            assert address == f"http://127.0.0.1:{port}/"
            assert len(token) > 40 and token not in (folder / "tokens.toml").read_text()
            gate.port = port
            until(lambda: answers(port) or shown.poll() is not None, "the desk does not listen")
            assert b"<title>Support desk</title>" in http(port, "/")[2]
            mia = gate.knock(token)
            assert mia.role == "mia"
            rows = total(mia.ask({"do": "subscribe", "on": "tickets"}))
            assert len(rows) == 3 + turn and mia.ask({"do": "write", "entries": [{"on": "tickets", "insert": [turn, "mia", "x", True]}]})[0] == '{"ok":true}'
        finally:
            shown.terminate()
            shown.stdout.close()
        assert shown.wait(PATIENCE) == 143
        assert mia.end() is None  # the gateway ended with it
    gate.end()


def answers(port: int) -> bool:
    try:
        return http(port, "/readyz")[0] == 200
    except OSError:
        return False
