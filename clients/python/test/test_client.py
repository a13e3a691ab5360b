"""What the client says and makes of what it is told, over a gateway that a test plays: replies, rows, lost connections, silence, tokens."""
import asyncio
import json
import random
import re
from collections import Counter

import pytest

import viewd
from conftest import NOTES, TOP, Still, entered, turn
from viewd import NotSent, Refused, Undecided, ViewdError


def run(test):
    """A test that is a coroutine."""
    def plain(fakes):
        with asyncio.Runner(loop_factory=Still) as runner:
            runner.run(asyncio.wait_for(test(fakes), 600))

    plain.__name__ = test.__name__
    return plain


async def raised(work, kind=ViewdError):
    with pytest.raises(kind) as found:
        await work
    return found.value


def conversation():
    """What mia says and is told in the conversations of the protocol: all of the first, the right of the second, and the third up to a
    message that no client of this kind says."""
    page = (TOP / "docs/PROTOCOL.md").read_text().split("### Conversations")[1]
    first, second, third = (it.split("```")[0].rstrip().split("\n") for it in page.split("```text\n")[1:4])
    right = [found[1] for line in second if (found := re.match("< .*(< .*)$", line))]
    return [*first, *right, *third[:4]]


@run
async def test_the_protocols_conversation_is_held(fakes):
    db, seen, lines = viewd.connect("ws://gateway/live", token="TOKEN"), [], conversation()
    notes = db.live("notes")
    notes.subscribe(lambda live: seen.append([live.state, *(f"{it['id']} {it['who']}" for it in live.rows)]))
    await turn()
    for line in lines:
        if line.startswith("> "):
            assert fakes.all[-1].sent.pop(0) == line[2:]
        else:
            await fakes.all[-1].tell(line[2:])
    assert not fakes.all[-1].sent and len(lines) == 18
    assert seen == [["live", "2 mia"], ["live", "2 mia", "3 mia"], ["refused"], ["live", "2 mia", "3 mia"]]
    await db.end()


@run
async def test_a_reply_counts_once_its_event_is_settled(fakes):
    db, socket = await entered()
    asked = asyncio.ensure_future(db.request({"do": "create_role", "name": "ann"}))
    await turn()
    id = socket.asked({"do": "create_role", "name": "ann"})
    await socket.tell({"id": id, "ok": True})
    assert not asked.done()
    await socket.tell({"settled": True})
    assert await asked == {"id": id, "ok": True}
    asked = asyncio.ensure_future(db.insert("notes", [1, "ann"]))
    await turn()
    id = socket.asked({"do": "write", "entries": [{"on": "notes", "insert": [1, "ann"]}]})
    await socket.event({"check": "insert", "entry": 1, "error": 14, "id": id, "on": "notes"})
    why = await raised(asked, Refused)
    assert why.code == 14 and str(why) == "no permissive policy (14), on notes, check insert, entry 1"
    await db.end()


@run
async def test_an_end_that_comes_with_a_message_is_an_end(fakes):
    for passes in range(5):
        db, socket = await entered()
        socket.told.put_nowait('{"alive":true}\n')
        for _ in range(passes):
            await asyncio.sleep(0)
        async with asyncio.timeout(1):
            await db.end()


@run
async def test_rows_have_column_names_and_an_order(fakes):
    db, socket = await entered()
    notes = db.live("notes")
    assert notes.state == "waiting"
    await turn()
    big = 2 ** 63 - 1
    await socket.follow(1, [[1, [2, "\U0001f600"]], [1, [2, "\uff01"]], [3, [-1, "b"]], [1, [big, "B"]]])
    assert notes.rows == [{"id": -1, "who": "b"}, {"id": 2, "who": "\uff01"}, {"id": 2, "who": "\U0001f600"}, {"id": big, "who": "B"}]
    assert await notes.ready() == notes.rows and notes.columns == [("id", "int"), ("who", "text")]
    assert [notes.copies({"id": -1, "who": "b"}), notes.copies([big, "B"]), notes.copies([9, "x"])] == [3, 1, 0]
    seen = []
    forget = notes.subscribe(lambda live: seen.append(len(live.rows)))
    await socket.event({"changes": [[-2, [-1, "b"]]], "sub": 1})  # a copy is left, so nothing that is shown changes
    await socket.event({"changes": [[-1, [-1, "b"]]], "sub": 1})
    forget()
    forget()
    await socket.event({"changes": [[1, [0, "b"]]], "sub": 1})
    assert seen == [3] and len(notes.rows) == 4
    await db.end()


@run
async def test_with_nulls_a_column_and_the_flag_behind_it_are_one(fakes):
    columns = [["id", "int"], ["old_null", "flag"], ["due", "text"], ["due_null", "flag"], ["n", "int"], ["n_null", "flag"], ["n_null_null", "flag"]]
    db, socket = await entered(nulls=True)
    more = {"old_null": True, "n_null_null": False}
    notes, none, most = db.live("notes", order=["-due"]), db.live("notes", where={"n": None}), db.live("notes", order="n")
    changes = db.changes("notes")
    await turn()
    await socket.follow(1, [[1, [1, True, "", True, 7, False, False]], [2, [2, True, "", False, 0, True, False]], [1, [3, True, "x", False, 0, False, False]],
                            [1, [2, True, "", False, 9, True, False]]], columns=columns)  # the last one is the second's row, whatever stands in the place of None
    rows = [{"id": 1, "due": None, "n": 7, **more}, {"id": 2, "due": "", "n": None, **more}, {"id": 3, "due": "x", "n": 0, **more}]
    assert notes.columns == [("id", "int"), ("old_null", "flag"), ("due", "text"), ("n", "int"), ("n_null_null", "flag")] == await db.columns("notes")
    assert notes.rows == [rows[0], rows[2], rows[1]] and (none.rows, none.total) == ([rows[1]], 1) and most.rows == [rows[2], rows[0], rows[1]]
    assert [notes.copies(rows[1]), notes.copies([2, True, "", False, 5, True, False]), notes.copies({**rows[1], "n": 9})] == [3, 3, 0]
    assert [(it.copies, it.row) for it in await changes.__anext__()] == [(1, rows[0]), (3, rows[1]), (1, rows[2])]
    await socket.event({"changes": [[-1, [1, True, "", True, 7, False, False]], [1, [1, True, "", False, 7, False, False]]], "sub": 1})
    assert notes.rows == [rows[2], {**rows[0], "due": ""}, rows[1]]
    assert [(it.copies, it.row) for it in await changes.__anext__()] == [(1, {**rows[0], "due": ""}), (-1, rows[0])]
    works = [*map(asyncio.ensure_future, (db.insert("notes", rows[0]), db.update("notes", rows[1], {"n": 5}), db.remove("notes", [1, True, "", True, 7, False, False])))]
    await turn()
    for entry in ({"insert": [1, True, "", True, 7, False, False]}, {"update": [[2, True, "", False, 0, True, False], [2, True, "", False, 5, False, False]]},
                  {"delete": [1, True, "", True, 7, False, False]}):
        await socket.event({"id": socket.asked({"do": "write", "entries": [{"on": "notes", **entry}]}), "ok": True})
    await asyncio.gather(*works)
    assert "no column due_null" in str(await raised(db.insert("notes", {**rows[0], "due_null": True})))
    assert "no value for due" in str(await raised(db.insert("notes", {"id": 1, "old_null": True})))
    await db.end()


@run
async def test_what_is_shown_is_what_sorting_from_nothing_gives(fakes):
    db, socket = await entered()
    live = db.live("notes", where=lambda row: row["id"] % 3, order=["who", "-id"], limit=25)
    mine, changes = db.live("notes", where={"who": "a"}), db.changes("notes")
    await turn()
    await socket.follow(1, [])
    bag, seen, dice = Counter(), Counter(), random.Random(7)
    assert await changes.__anext__() == []
    for step in range(300):
        delta = Counter()
        for _ in range(dice.randrange(1, 8 if step % 50 else 200)):
            row = dice.randrange(90), dice.choice("abcdefg")
            copies = -1 if bag[row] and dice.random() < 0.5 else 1
            bag[row] += copies
            delta[row] += copies
        await socket.event({"changes": [[copies, [*row]] for row, copies in delta.items() if copies], "sub": 1})
        wanted = sorted((row for row, copies in bag.items() if copies and row[0] % 3), key=lambda row: (row[1], -row[0]))
        assert [(it["id"], it["who"]) for it in live.rows] == wanted[:25] and live.total == len(wanted)
        assert [it["id"] for it in mine.rows] == sorted(row[0] for row, copies in bag.items() if copies and row[1] == "a")
        if dice.random() < 0.5 and +Counter(bag) != +seen:
            for it in await changes.__anext__():
                seen[it.row["id"], it.row["who"]] += it.copies
            assert +seen == +Counter(bag) and min(seen.values()) >= 0
    assert not socket.sent
    await db.end()


@run
async def test_users_share_a_subscription(fakes):
    db, socket = await entered()
    one, two = db.live("notes"), db.live("notes", limit=1)
    await turn()
    await socket.follow(1, [[1, [1, "a"]], [1, [2, "b"]]])
    three = db.live("notes")
    assert [len(it.rows) for it in (one, two, three)] == [2, 1, 2]
    one.close()
    one.close()
    two.close()
    await turn()
    assert not socket.sent
    three.close()
    await turn()
    await socket.event({"id": socket.asked({"do": "unsubscribe", "sub": 1}), "ok": True})
    assert (three.state, len(three.rows)) == ("closed", 2)
    db.live("notes").close()  # nobody wants it any more when it begins
    await turn()
    await socket.follow(2, [[1, [1, "a"]]])
    await socket.event({"id": socket.asked({"do": "unsubscribe", "sub": 2}), "ok": True})
    await db.end()


@run
async def test_nobody_sees_half_of_an_event(fakes):
    db, socket = await entered()
    notes, seen = db.live("notes"), []
    notes.subscribe(lambda live: seen.append([it["id"] for it in live.rows]))
    await turn()
    id = socket.asked({"do": "subscribe", "on": "notes"})
    await socket.tell({"columns": NOTES, "id": id, "ok": True, "sub": 1}, {"changes": [[1, [1, "a"]]], "sub": 1})
    late = db.live("notes")
    assert (notes.state, late.state, seen) == ("waiting", "waiting", [])
    await socket.tell({"settled": True})
    assert (late.state, len(late.rows), seen) == ("live", 1, [[1]])
    await socket.tell({"changes": [[-1, [1, "a"]]], "sub": 1})
    later, changes = db.live("notes"), db.changes("notes")
    await socket.event({"changes": [[1, [2, "a"]]], "sub": 1})
    assert later.rows == [{"id": 2, "who": "a"}] and seen == [[1], [2]]
    assert await changes.__anext__() == [viewd.Change(1, {"id": 2, "who": "a"})]
    await db.end()


@run
async def test_what_one_event_changes_in_two_relations_is_in_both(fakes):
    db, socket = await entered()
    lives, seen = [db.live("notes"), db.live("tasks")], []
    await turn()
    await socket.follow(1, [], "notes")
    await socket.follow(2, [], "tasks")
    for it in lives:
        it.subscribe(lambda _: seen.append([(live.state, len(live.rows)) for live in lives]))
    await socket.event({"changes": [[1, [1, "a"]]], "sub": 1}, {"changes": [[1, [1, "a"]]], "sub": 2})
    await socket.end()
    assert seen == [[("live", 1)] * 2] * 2 + [[("stale", 1)] * 2] * 2
    await db.end()


@run
async def test_writes_name_columns(fakes):
    db, socket = await entered(columns={"tasks": [("title", "text")]})
    row = {"who": "mia", "id": 1}
    works = [asyncio.ensure_future(it) for it in (db.insert("notes", row, copies=2),)]
    await turn()
    await socket.follow(1, [[1, [9, "z"]]])  # the columns are asked for once
    await socket.event({"id": socket.asked({"do": "unsubscribe", "sub": 1}), "ok": True})
    works += map(asyncio.ensure_future, (db.update("notes", row, {"who": "ann"}), db.remove("notes", row), db.insert("tasks", {"title": "rest"}),
                                         db.write([{"on": "notes", "update": [[1, "a"], {"id": 2 ** 62, "who": "b"}]}])))
    await turn()
    for entry in ({"on": "notes", "insert": [1, "mia"], "copies": 2}, {"on": "notes", "update": [[1, "mia"], [1, "ann"]]},
                  {"on": "notes", "delete": [1, "mia"]}, {"on": "tasks", "insert": ["rest"]}, {"on": "notes", "update": [[1, "a"], [2 ** 62, "b"]]}):
        await socket.event({"id": socket.asked({"do": "write", "entries": [entry]}), "ok": True})
    await asyncio.gather(*works)
    assert "no column name" in str(await raised(db.insert("notes", {"id": 1, "name": "mia"})))
    assert "no value for who" in str(await raised(db.insert("notes", {"id": 1})))
    assert (await raised(db.insert("notes", [1, "x" * 65_463]), Refused)).code == 22
    assert "5 is no row" in str(await raised(db.insert("notes", 5)))
    assert "'ab' is no row" in str(await raised(db.insert("notes", "ab")))
    assert "5 is no pair" in str(await raised(db.write([{"on": "notes", "update": 5}])))
    assert "surrogates" in str(await raised(db.insert("notes", [1, "\ud800"])))
    assert "has its id from the client" in str(await raised(db.request({"id": 7, "do": "create_role", "name": "c"})))
    assert not socket.sent
    await db.end()


@run
async def test_a_reply_to_another_request_ends_the_connection(fakes):
    db, socket = await entered()
    works = [asyncio.ensure_future(db.request({"do": "create_role", "name": name})) for name in "ab"]
    await turn()
    first, second = (socket.asked({"do": "create_role", "name": name}) for name in "ab")
    await socket.event({"id": second, "ok": True})
    for it in works:
        await raised(it, Undecided)
    assert (db.state, db.why, socket.is_closed, first) == ("stale", "a reply to another request", True, second - 1)
    await db.end()


@run
async def test_what_could_not_be_read_is_answered_without_an_id(fakes):
    db, socket = await entered()
    works = [asyncio.ensure_future(db.request({"do": "create_role", "name": name})) for name in "abc"]
    await turn()
    ids = [socket.asked({"do": "create_role", "name": name}) for name in "abc"]
    await socket.event({"error": 1})
    await socket.event({"id": ids[1], "ok": True})
    assert (await raised(works[0], Refused)).code == 1 and (await works[1])["ok"]
    await socket.event({"ok": True})
    await raised(works[2], Undecided)
    await db.end()


@run
async def test_what_raises_harms_nobody(fakes):
    raised_words = []

    def on_error(why):
        raised_words.append(str(why))
        raise why

    db, socket = await entered(on_error=on_error)

    def fails(words):
        def act(*_):
            raise ValueError(words)
        return act

    db.on_state(fails("state"))
    bad, odd, good = db.live("notes", where=fails("where")), db.live("notes", order="nothing"), db.live("notes")
    db.live("notes", where={"whom": "mia"})
    good.subscribe(fails("good"))
    await turn()
    await socket.follow(1, [[1, [2, "a"]]])
    works = [asyncio.ensure_future(db.insert("notes", [at, "x"])) for at in range(30)]
    await turn()
    ids = [socket.asked({"do": "write", "entries": [{"on": "notes", "insert": [at, "x"]}]}) for at in range(30)]
    lines = []
    for at, id in enumerate(ids):
        lines += [{"id": id, "ok": True}, {"changes": [[1, [at + 10, "x"]]], "sub": 1}] if at % 3 else [{"entry": 1, "error": 16, "id": id}]
        lines.append({"settled": True})
    await socket.tell(*lines)
    came = await asyncio.gather(*works, return_exceptions=True)
    assert [isinstance(it, dict) for it in came] == [bool(at % 3) for at in range(30)]
    assert (len(good.rows), good.rows == odd.rows, bad.rows) == (21, True, [])
    await socket.end()
    assert db.state == "stale" and {*raised_words} == {"good", "where", "state", "order: there is no column nothing", "where: there is no column whom"}
    await db.end()


@run
async def test_after_a_lost_connection_rows_are_stale_while_another_is_tried(fakes):
    db, socket = await entered()
    notes, changes, states = db.live("notes"), db.changes("notes"), []
    db.on_state(lambda state, why: states.append((state, why)))
    await turn()
    await socket.follow(1, [[1, [1, "a"]], [2, [2, "b"]]])
    assert len(await changes.__anext__()) == 2
    write = asyncio.ensure_future(db.insert("notes", [5, "a"]))
    await turn()
    await socket.end()
    await raised(write, Undecided)
    assert (notes.state, len(notes.rows), db.role, db.protocol) == ("stale", 2, None, None)
    waits = asyncio.ensure_future(db.insert("notes", [6, "a"]))  # not sent yet, so it is not undecided
    await asyncio.sleep(0.05)
    again = fakes.all[-1]
    assert again is not socket
    await again.event({"role": "mia"})
    again.sent.pop(0)
    await again.follow(1, [[1, [2, "b"]], [1, [3, "c"]]])
    assert (notes.state, [it["id"] for it in notes.rows]) == ("live", [2, 3])
    assert await changes.__anext__() == [viewd.Change(-1, {"id": 1, "who": "a"}), viewd.Change(-1, {"id": 2, "who": "b"}),
                                         viewd.Change(1, {"id": 3, "who": "c"})]
    await again.event({"id": again.asked({"do": "write", "entries": [{"on": "notes", "insert": [6, "a"]}]}), "ok": True})
    await waits
    assert states == [("stale", "the connection ended (1006)"), ("live", None)]
    await db.end()


@run
async def test_a_gateway_that_is_silent_is_left(fakes):
    db, socket = await entered(silence=0.8)
    for _ in range(12):
        await asyncio.sleep(0.1)
        await socket.tell({"alive": True})
    assert db.state == "live"
    await asyncio.sleep(1.4)
    assert (db.state, db.why, socket.is_closed) == ("stale", "silent", True) and len(fakes.all) > 1
    await db.end()


@run
async def test_tries_wait_longer_and_longer(fakes, ):
    waits, sleep = [], asyncio.sleep

    async def slept(wait, *_):
        if wait:
            waits.append(wait)
        await sleep(0)

    chances = iter([0, 1, 0, 1] + [0] * 99)
    random_of, asyncio.sleep = random.random, slept
    random.random = lambda: next(chances)
    try:
        db = viewd.connect("ws://gateway/live", token="t")
        for _ in range(10):
            await turn()
            await fakes.all[-1].end()
    finally:
        random.random, asyncio.sleep = random_of, sleep
    assert waits == [0.125, 0.5, 0.5, 2, 2, 4, 8, 15, 15, 15] and db.state == "connecting"
    await db.end()


@run
async def test_a_token_that_opens_no_role_closes_the_client(fakes):
    tokens = ["old", "new", "new"]
    db = viewd.connect("ws://gateway/live", token=lambda: tokens.pop(0), shortest=0.002)
    notes, waits = db.live("notes"), asyncio.ensure_future(db.insert("notes", [1, "a"]))
    for told in ("old", "new", "new"):  # a function may give another token for one that ran out
        await asyncio.sleep(0.02)
        assert fakes.all[-1].sent == [told]
        await fakes.all[-1].end(4401, "This token opens no role.")
    assert (db.state, db.why, notes.state, len(fakes.all)) == ("closed", "This token opens no role.", "closed", 3)
    await raised(waits, NotSent)
    await raised(notes.ready(), NotSent)
    with pytest.raises(NotSent):
        async with db:
            pass


@run
async def test_a_token_that_was_let_in_twice_and_has_run_out_is_asked_for_anew(fakes):
    tokens = ["old", "old", "new"]
    db = viewd.connect("ws://gateway/live", token=lambda: tokens.pop(0), shortest=0.002)
    for token, code in (("old", 1006), ("old", 4401), ("new", None)):
        await asyncio.sleep(0.02)
        await fakes.all[-1].event({"role": "mia"})
        assert (db.state, fakes.all[-1].sent) == ("live", [token])
        if code:
            await fakes.all[-1].end(code)
    assert len(fakes.all) == 3
    await db.end()


@run
async def test_who_ends_a_client_hears_no_more(fakes):
    db, socket = await entered()
    notes, seen = db.live("notes"), []
    await turn()
    await socket.follow(1, [[1, [1, "a"]]])
    notes.subscribe(lambda it: seen.append(it.state))
    iterated = asyncio.ensure_future(collect(notes))
    asked = asyncio.ensure_future(db.insert("notes", [2, "b"]))
    await turn()
    await db.end()
    await db.end()
    await raised(asked, Undecided)
    await raised(db.insert("notes", [2, "b"]), NotSent)
    with pytest.raises(NotSent):
        db.live("notes")
    assert (seen, len(notes.rows), db.why, await iterated) == (["closed"], 1, "ended", [1])


async def collect(live):
    return [len(rows) async for rows in live]


@run
async def test_an_end_takes_the_rows_and_a_grant_brings_them_back(fakes):
    db, socket = await entered()
    notes, changes = db.live("notes"), db.changes("notes")
    await turn()
    await socket.follow(1, [[1, [1, "a"]]])
    assert len(await changes.__anext__()) == 1
    await socket.event({"changes": [[-1, [1, "a"]]], "ended": "privilege", "on": "notes", "sub": 1})
    assert (notes.state, notes.why, notes.rows) == ("refused", "privilege", [])
    assert [it.copies for it in await changes.__anext__()] == [-1]
    assert "ended: privilege" in str(await raised(changes.__anext__()))
    await socket.event({"granted": "notes"})
    await socket.follow(2, [[1, [2, "b"]]])
    assert (notes.state, notes.why, len(notes.rows)) == ("live", None, 1)
    await db.end()


@run
async def test_what_is_refused_is_tried_again(fakes):
    db, socket = await entered(again=0.02)
    notes, sums, plans = (db.live(on) for on in ("notes", "sums", "plans"))
    await turn()
    await socket.event({"error": 13, "id": socket.asked({"do": "subscribe", "on": "notes"}), "on": "notes", "privilege": "select"})
    await socket.event({"error": 17, "id": socket.asked({"do": "subscribe", "on": "sums"})})
    await socket.event({"error": 20, "id": socket.asked({"do": "subscribe", "on": "plans"})})
    assert (notes.state, sums.why.code, plans.why.code) == ("refused", 17, 20)
    await raised(notes.ready(), Refused)
    await asyncio.sleep(0.05)
    await socket.follow(1, [], "sums")
    await socket.event({"error": 20, "id": socket.asked({"do": "subscribe", "on": "plans"})})
    sums.close()
    await turn()
    await socket.event({"id": socket.asked({"do": "unsubscribe", "sub": 1}), "ok": True})
    await socket.follow(2, [], "plans")
    assert plans.state == "live"
    await db.end()


@run
async def test_a_request_waits_for_a_connection_and_not_for_ever(fakes):
    db = viewd.connect("ws://gateway/live", token="t", patience=0.02)
    await raised(db.insert("notes", [1, "a"]), NotSent)
    await raised(db.insert("notes", {"id": 1, "who": "a"}), NotSent)
    await fakes.all[-1].event({"role": "mia"}, {"made": {}}, {"shape": {}}, {"alive": True})
    assert fakes.all[-1].sent == ["t"] and db.state == "live"
    await fakes.all[-1].tell("{")
    assert db.state == "stale"
    await db.end()


EPOCH = "0123456789abcdef0123456789abcdef"


def without_id(said: str) -> str:
    return re.sub(r'^\{"id":\d+,', "{", said)


async def let_in(socket, at=None):
    await socket.event({"protocol": 1, "role": "mia"}, *([] if at is None else [{"at": at, "names": 64}]))
    assert socket.sent.pop(0) == "t"


@run
async def test_a_write_is_sent_by_the_same_name_place_and_bytes_until_it_is_answered(fakes):
    db, socket = await entered(f"{EPOCH}.3")
    done = asyncio.ensure_future(db.insert("notes", [1, "ann"]))
    await turn()
    [said] = socket.sent
    assert re.fullmatch(r'\{"id":1,"once":"[\w-]{22}","at":"%s\.3","do":"write","entries":\[\{"on":"notes","insert":\[1,"ann"\]\}\]\}' % EPOCH, said), said
    for count in (3, 4, 4):  # each goes before the answer
        await fakes.all[-1].end()
        await asyncio.sleep(0.1)
        socket = fakes.all[-1]
        await let_in(socket, f"{EPOCH}.{count}")
        [again] = socket.sent
        assert without_id(again) == without_id(said)
    await socket.event({"again": True, "answer": {"ok": True}, "at": f"{EPOCH}.5", "id": 1})
    assert await done == {"ok": True}
    socket.sent.clear()
    other = asyncio.ensure_future(db.remove("notes", [1, "ann"]))
    await turn()
    [next] = socket.sent
    assert f'"at":"{EPOCH}.5"' in next and next[15:37] != said[15:37]
    await socket.event({"answer": {"entry": 1, "error": 16}, "at": f"{EPOCH}.6", "id": 2})
    assert (await raised(other, Refused)).code == 16
    await db.end()


@run
async def test_what_the_gateway_does_not_know_any_more_is_the_applications(fakes):
    db, socket = await entered(f"{EPOCH}.0")
    for id, code in enumerate((100, 101, 103), 1):
        done = asyncio.ensure_future(db.insert("notes", [code, "ann"]))
        await turn()
        await socket.event({"id": id, "undecided": code})
        assert (await raised(done, Undecided)).code == code
    await asyncio.sleep(20)
    assert len(socket.sent) == 3
    await db.end()


@run
async def test_a_write_that_has_to_wait_is_sent_again_as_it_is(fakes):
    db, socket = await entered(f"{EPOCH}.0", again=1)
    done = asyncio.ensure_future(db.insert("notes", [1, "ann"]))
    await turn()
    await socket.event({"id": 1, "undecided": 104})
    await asyncio.sleep(0.9)
    assert len(socket.sent) == 1
    await asyncio.sleep(0.2)
    said, again = socket.sent
    assert without_id(again) == without_id(said)
    await socket.event({"answer": {"ok": True}, "at": f"{EPOCH}.1", "id": 2})
    assert await done == {"ok": True}
    await db.end()


@run
async def test_a_write_that_has_to_wait_and_is_cancelled_is_not_sent_again(fakes):
    db, socket = await entered(f"{EPOCH}.0", again=1)
    done = asyncio.ensure_future(db.insert("notes", [1, "ann"]))
    await turn()
    await socket.event({"id": 1, "undecided": 104})
    done.cancel()
    await asyncio.sleep(2)
    assert len(socket.sent) == 1
    await db.end()


@run
async def test_what_was_sent_once_and_came_too_late_is_sent_by_another_name(fakes):
    db, socket = await entered(f"{EPOCH}.0")
    done = [asyncio.ensure_future(db.insert("notes", [id, "ann"])) for id in (1, 2)]
    await turn()
    await socket.event({"id": 1, "undecided": 102})
    done.append(asyncio.ensure_future(db.insert("notes", [3, "ann"])))
    await turn()
    assert len(socket.sent) == 2  # its place is old, too
    await socket.event({"id": 2, "undecided": 102})
    await asyncio.sleep(0.3)
    await let_in(fakes.all[-1], f"{EPOCH}.70")
    await turn()
    again = [json.loads(it) for it in fakes.all[-1].sent]
    assert [(it["at"], it["entries"][0]["insert"][0]) for it in again] == [(f"{EPOCH}.70", id) for id in (1, 2, 3)]
    assert len({it["once"] for it in [*map(json.loads, socket.sent), *again]}) == 5
    for id in (1, 2, 3):
        await fakes.all[-1].event({"answer": {"ok": True}, "at": f"{EPOCH}.{70 + id}", "id": id})
    assert await asyncio.gather(*done) == [{"ok": True}] * 3
    await db.end()


@run
async def test_what_came_too_late_waits_until_what_is_under_way_is_answered(fakes):
    db, socket = await entered(f"{EPOCH}.0")
    done = [asyncio.ensure_future(it) for it in (db.insert("notes", [1, "ann"]), db.request({"do": "create_role", "name": "eve"}))]
    await turn()
    await socket.event({"id": 1, "undecided": 102})
    done.append(asyncio.ensure_future(db.request({"do": "create_role", "name": "joe"})))
    await turn()
    assert len(socket.sent) == 2
    await socket.event({"id": 2, "ok": True})
    assert await done[1] == {"id": 2, "ok": True}
    await asyncio.sleep(0.3)
    await let_in(fakes.all[-1], f"{EPOCH}.70")
    await turn()
    again, last = map(json.loads, fakes.all[-1].sent)
    assert again["at"] == f"{EPOCH}.70" and last["name"] == "joe"
    await fakes.all[-1].event({"answer": {"ok": True}, "at": f"{EPOCH}.71", "id": 1}, {"settled": True}, {"id": 2, "ok": True})
    assert len(await asyncio.gather(*done)) == 3
    await db.end()


@run
async def test_what_was_sent_twice_and_came_too_late_is_undecided(fakes):
    db, socket = await entered(f"{EPOCH}.0")
    done = asyncio.ensure_future(db.insert("notes", [1, "ann"]))
    await turn()
    await socket.end()
    await asyncio.sleep(0.3)
    await let_in(fakes.all[-1], f"{EPOCH}.70")
    await turn()
    await fakes.all[-1].event({"id": 1, "undecided": 102})
    assert (await raised(done, Undecided)).code == 102
    await db.end()


@run
async def test_a_write_that_has_to_wait_is_not_left_so_far_behind_that_the_gateway_would_forget_it(fakes):
    db, socket = await entered(f"{EPOCH}.5", again=1, silence=1e9)

    async def write(at):
        done = asyncio.ensure_future(db.insert("notes", [at, "ann"]))
        await turn()
        said = [json.loads(it) for it in socket.sent]
        socket.sent.clear()
        return done, said

    first, [said] = await write(0)
    await socket.event({"id": said["id"], "undecided": 104})
    for at in range(1, 33):
        done, [it] = await write(at)
        await socket.event({"answer": {"ok": True}, "at": f"{EPOCH}.{5 + at}", "id": it["id"]})
        assert await done == {"ok": True}
    last, none = await write(33)
    assert not none
    await asyncio.sleep(1)
    [again] = map(json.loads, socket.sent)
    assert (again["once"], again["at"]) == (said["once"], f"{EPOCH}.5")
    socket.sent.clear()
    await socket.event({"answer": {"ok": True}, "at": f"{EPOCH}.38", "id": again["id"]})
    [behind] = map(json.loads, socket.sent)
    assert (behind["at"], behind["entries"]) == (f"{EPOCH}.38", [{"on": "notes", "insert": [33, "ann"]}])
    await socket.event({"answer": {"ok": True}, "at": f"{EPOCH}.39", "id": behind["id"]})
    await asyncio.gather(first, last)
    await db.end()


@run
async def test_so_many_writes_are_under_way_as_the_gateway_keeps_names_for(fakes):
    db, socket = await entered(f"{EPOCH}.0")
    done = [asyncio.ensure_future(db.insert("notes", [at, "ann"])) for at in range(20)]
    await turn()
    assert len(socket.sent) == 16 and all(f'"at":"{EPOCH}.0"' in it for it in socket.sent)
    for count in range(1, 21):
        await socket.event({"answer": {"ok": True}, "at": f"{EPOCH}.{count}", "id": count})
    assert [it for it in socket.sent if f'"at":"{EPOCH}.0"' not in it] == socket.sent[16:]
    assert [f'"at":"{EPOCH}.{count}"' in it for count, it in enumerate(socket.sent[16:], 1)] == [True] * 4
    assert await asyncio.gather(*done) == [{"ok": True}] * 20
    await db.end()


@run
async def test_a_write_that_waits_for_the_answers_of_others_does_not_wait_for_a_connection(fakes):
    db, first = await entered(f"{EPOCH}.0", patience=1, silence=1e9)
    await first.end()
    works = [asyncio.ensure_future(db.insert("notes", [at, "ann"])) for at in range(17)]
    await asyncio.sleep(0.5)
    socket = fakes.all[-1]
    await socket.event({"role": "mia"}, {"at": f"{EPOCH}.0", "names": 64})
    await asyncio.sleep(2)
    said = [json.loads(it) for it in socket.sent[1:]]
    assert len(said) == 16 and not any(it.done() for it in works)
    for at, it in enumerate(said):
        await socket.event({"answer": {"ok": True}, "at": f"{EPOCH}.{at + 1}", "id": it["id"]})
    last = json.loads(socket.sent[-1])
    assert last["entries"] == [{"on": "notes", "insert": [16, "ann"]}]
    await socket.event({"answer": {"ok": True}, "at": f"{EPOCH}.17", "id": last["id"]})
    assert len(await asyncio.gather(*works)) == 17
    await db.end()


@run
async def test_a_gateway_that_tells_no_place_is_told_no_name(fakes):
    db, socket = await entered(f"{EPOCH}.0")
    done = asyncio.ensure_future(db.insert("notes", [1, "ann"]))
    await turn()
    await socket.end()
    await asyncio.sleep(0.1)
    await let_in(fakes.all[-1])
    assert (await raised(done, Undecided)).code is None and not fakes.all[-1].sent
    other = asyncio.ensure_future(db.insert("notes", [2, "ann"]))
    await turn()
    assert fakes.all[-1].asked({"do": "write", "entries": [{"on": "notes", "insert": [2, "ann"]}]}) == 1
    await fakes.all[-1].event({"id": 1, "ok": True})
    assert await other == {"id": 1, "ok": True}
    await db.end()


@run
async def test_who_ends_a_client_is_told_what_was_sent_and_what_was_not(fakes):
    db, socket = await entered(f"{EPOCH}.0")
    sent = asyncio.ensure_future(db.insert("notes", [1, "ann"]))
    await turn()
    await socket.end()
    waits = asyncio.ensure_future(db.insert("notes", [2, "ann"]))
    await turn()
    await db.end()
    assert (await raised(sent, Undecided)).code is None
    await raised(waits, NotSent)
