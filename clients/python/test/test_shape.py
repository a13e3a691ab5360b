"""What an administrator is told of the shape, and the words of the command line that print it, over a gateway that a test plays."""
import asyncio
import json

import pytest

import viewd
from conftest import Still, entered, turn
from viewd import NotSent, ViewdError
from viewd.command import Wrong, parser
from viewd.shape import shape_of

MADE = [("admin", {"do": "create_role", "name": "mia"}), ("admin", {"do": "create_role", "name": "noah"}), ("admin", {"do": "create_role", "name": "team"}),
        ("admin", {"do": "grant_role", "role": "team", "to": "mia"}), ("admin", {"do": "grant_role", "role": "team", "to": "noah"}),
        ("admin", {"do": "grant_role", "role": "team", "to": "mia"}), ("admin", {"do": "revoke_role", "role": "team", "to": "noah"}),
        ("admin", {"do": "create_table", "name": "notes", "owner": "mia", "columns": [["id", "int"]]}),
        ("admin", {"do": "create_table", "name": "logs", "owner": "noah", "columns": [["id", "int"]]}),
        ("admin", {"do": "create_view", "name": "counts", "owner": "mia", "query": "select count(*) as n from notes"}),
        ("mia", {"do": "grant", "on": "notes", "privileges": ["insert", "select"], "to": "public"}),
        ("mia", {"do": "grant", "on": "notes", "privileges": ["delete"], "to": "noah"}),
        ("mia", {"do": "revoke", "on": "notes", "privileges": ["delete"], "to": "noah"}),
        ("mia", {"do": "revoke", "on": "notes", "privileges": ["update"], "to": "mia"}),
        ("noah", {"do": "row_security", "on": "logs", "enable": True, "force": True}),
        ("mia", {"do": "row_security", "on": "notes", "enable": False, "force": False}),
        ("mia", {"do": "create_policy", "on": "notes", "name": "gone", "using": "true"}),
        ("mia", {"do": "create_policy", "on": "notes", "name": "own", "using": "id = 1", "to": ["noah"], "command": "update", "check": "id > 0", "restrictive": True}),
        ("mia", {"do": "drop_policy", "on": "notes", "name": "gone"}),
        ("mia", {"do": "create_policy", "on": "notes", "name": "all", "using": "true"})]
LINES = [{"as": role, "made": made} for role, made in MADE]
WORDS = {
    "roles": [{"role": "admin", "member_of": []}, {"role": "mia", "member_of": ["team"]}, {"role": "noah", "member_of": []}, {"role": "team", "member_of": []}],
    "grants": [{"on": "notes", "to": "mia", "privileges": ["select", "insert", "delete"], "owner": True},
               {"on": "notes", "to": "public", "privileges": ["select", "insert"], "owner": False},
               {"on": "logs", "to": "noah", "privileges": ["select", "insert", "update", "delete"], "owner": True},
               {"on": "counts", "to": "mia", "privileges": ["select", "insert", "update", "delete"], "owner": True}],
    "grants counts": [{"on": "counts", "to": "mia", "privileges": ["select", "insert", "update", "delete"], "owner": True}],
    "policies": [{"on": "notes", "policy": "own", "kind": "restrictive", "command": "update", "to": ["noah"], "using": "id = 1", "check": "id > 0",
                  "enabled": False, "forced": False},
                 {"on": "notes", "policy": "all", "kind": "permissive", "command": "all", "to": ["public"], "using": "true", "enabled": False, "forced": False},
                 {"on": "logs", "policy": None, "enabled": True, "forced": True}],
    "policies logs": [{"on": "logs", "policy": None, "enabled": True, "forced": True}],
    "policies counts": []}


def run(test):
    """Runs a coroutine in a loop whose time stands still."""
    with asyncio.Runner(loop_factory=Still) as runner:
        return runner.run(asyncio.wait_for(test, 600))


async def told(words: str, fakes) -> None:
    """Has the words carried out by an administrator whose entry is told in two messages."""
    db = viewd.connect("ws://gateway/live", token="t")
    given = parser().parse_args(words.split())
    work = asyncio.ensure_future(given.act(db, given))
    await turn()
    await fakes.all[-1].tell({"role": "admin"}, *LINES[:3])
    assert not work.done()  # half of the shape is none
    await fakes.all[-1].event(*LINES[3:])
    try:
        await work
    finally:
        await db.end()


@pytest.mark.parametrize("words", WORDS)
def test_words(fakes, capsys, words):
    run(told(words, fakes))
    assert [json.loads(line) for line in capsys.readouterr().out.splitlines()] == WORDS[words]


def test_a_relation_that_is_not_there(fakes):
    for words in ("grants plans", "policies plans"):
        with pytest.raises(Wrong):
            run(told(words, fakes))


def test_what_is_made_later_is_told_too(fakes):
    async def test():
        db = viewd.connect("ws://gateway/live", token="t")
        await turn()
        await fakes.all[-1].event({"role": "admin"}, *LINES)
        assert await db.made() == LINES
        later = {"as": "mia", "made": {"do": "grant", "on": "notes", "privileges": ["update"], "to": "noah"}}
        await fakes.all[-1].event(later)
        assert await db.made() == [*LINES, later] and shape_of(await db.made()).grants["notes"]["noah"] == ["update"]
        # behind a lost connection it is told anew, and nothing of before is kept
        await fakes.all[-1].end()
        asked = asyncio.ensure_future(db.made())
        while len(fakes.all) < 2:
            await asyncio.sleep(0.1)
        assert not asked.done()
        await fakes.all[-1].event({"role": "admin"}, *LINES[:2])
        assert await asked == LINES[:2]
        await db.end()
        with pytest.raises(NotSent):
            await db.made()

    run(test())


def test_others_are_told_nothing(fakes):
    async def test():
        db, _ = await entered()
        with pytest.raises(ViewdError, match="administrator"):
            await db.made()
        await db.end()

    run(test())


def test_without_a_connection_it_is_not_waited_for_for_ever(fakes):
    async def test():
        db = viewd.connect("ws://gateway/live", token="t", patience=3)
        with pytest.raises(NotSent):
            await db.made()
        await db.end()

    run(test())
