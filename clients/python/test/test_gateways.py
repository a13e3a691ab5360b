"""What the client makes of several addresses, over gateways that a test plays: lost connections, and writes that others decide."""
import asyncio
import json
import random

import pytest

import viewd
from conftest import NOTES, entered, turn
from test_client import EPOCH, let_in, raised, run, without_id
from viewd import NotSent, Refused, Undecided, ViewdError

TWO = ["ws://one/live", "ws://two/live"]


def place(count: int) -> str:
    return f"{EPOCH}.{count}"


def went(fakes) -> str:
    """The gateways of all connections, by their first letters."""
    return "".join(it.url.split("//")[1][0] for it in fakes.all)


def id_of(said: str) -> int:
    return json.loads(said)["id"]


async def written(db, socket, *ids: int) -> tuple[list, list[str]]:
    """Rows of one write each, that are under way at a gateway."""
    done = [asyncio.ensure_future(db.insert("notes", [id, "ann"])) for id in ids]
    await turn()
    said = [*socket.sent]
    socket.sent.clear()
    return done, said


async def there(fakes, count: int, place_there: int = 0) -> list[str]:
    """The client has made so many connections and no more, and the last one lets it in. What it says there."""
    await turn()
    assert len(fakes.all) == count
    await let_in(fakes.all[-1], place(place_there))
    said = [*fakes.all[-1].sent]
    fakes.all[-1].sent.clear()
    return said


@pytest.fixture
def longest(monkeypatch):
    """Chance takes nothing off a wait."""
    monkeypatch.setattr(random, "random", lambda: 1)


@run
async def test_a_write_that_others_decide_goes_to_the_next_gateway_and_all_else_with_it(fakes):
    db, first = await entered(place(3), TWO)
    notes, states = db.live("notes"), []
    await turn()
    await first.follow(1, [[1, [1, "ann"]]])
    db.on_state(lambda state, why: states.append((state, why)))
    [done], [said] = await written(db, first, 2)
    await first.event({"id": id_of(said), "undecided": 100})
    assert (first.is_closed, notes.state, len(notes.rows)) == (True, "stale", 1)
    subscribe, again = await there(fakes, 2, 2)
    assert (went(fakes), json.loads(subscribe)["do"], without_id(again)) == ("ot", "subscribe", without_id(said))
    second = fakes.all[-1]
    await first.event({"answer": {"ok": True}, "at": place(4), "id": id_of(said)})  # of a connection that is gone
    assert not done.done()
    await second.event({"columns": NOTES, "id": id_of(subscribe), "ok": True, "sub": 1}, {"changes": [[1, [1, "ann"]]], "sub": 1})
    await second.event({"answer": {"ok": True}, "at": place(3), "id": id_of(again)}, {"changes": [[1, [2, "ann"]]], "sub": 1})
    assert await done == {"ok": True} and len(notes.rows) == 2
    await asyncio.sleep(20)
    assert went(fakes) == "ot" and states == [("stale", "it follows a log that others decide"), ("live", None)]
    [other], [more] = await written(db, second, 3)
    assert json.loads(more)["at"] == place(3)
    await second.event({"answer": {"ok": True}, "at": place(4), "id": id_of(more)})
    assert await other == {"ok": True}
    await db.end()


@run
async def test_who_goes_waits_for_the_answers_of_what_is_under_way(fakes):
    db, first = await entered(place(0), TWO)
    done, said = await written(db, first, 1, 2)
    asked = asyncio.ensure_future(db.request({"do": "create_role", "name": "joe"}))
    await turn()
    other = first.sent.pop()
    await first.event({"id": id_of(said[0]), "undecided": 100})
    done.append(asyncio.ensure_future(db.insert("notes", [3, "ann"])))
    await first.event({"id": id_of(said[1]), "undecided": 100})
    await asyncio.sleep(1)
    assert not first.is_closed and not first.sent
    await first.event({"id": id_of(other), "error": 100})  # without a name it is as ever
    assert (await raised(asked, Refused)).code == 100 and first.is_closed
    again = await there(fakes, 2)
    assert [*map(without_id, again[:2])] == [*map(without_id, said)]
    assert [json.loads(it)["entries"][0]["insert"][0] for it in again] == [1, 2, 3]
    for at, it in enumerate(again):
        await fakes.all[-1].event({"answer": {"ok": True}, "at": place(at + 1), "id": id_of(it)})
    assert await asyncio.gather(*done) == [{"ok": True}] * 3
    await db.end()


@run
async def test_a_request_without_a_name_that_others_decide_is_refused_and_goes_nowhere(fakes):
    db, first = await entered(None, TWO)
    [done], [said] = await written(db, first, 1)
    await first.event({"id": id_of(said), "error": 100})
    assert (await raised(done, Refused)).code == 100
    await asyncio.sleep(1)
    assert went(fakes) == "o"
    await db.end()


@run
async def test_with_one_address_a_write_that_others_decide_is_undecided(fakes):
    db, socket = await entered(place(0), ["ws://one/live"])
    [done], [said] = await written(db, socket, 1)
    await socket.event({"id": id_of(said), "undecided": 100})
    assert (await raised(done, Undecided)).code == 100
    await asyncio.sleep(20)
    assert not socket.sent and went(fakes) == "o"
    await db.end()


def test_where_nobody_decides_the_list_is_gone_through_again_until_one_does(fakes, longest):
    @run
    async def test(fakes):
        db, socket = await entered(place(0), TWO, shortest=0.25)
        [done], [said] = await written(db, socket, 1)
        again = said
        for count, wait in ((2, 0.25), (4, 0.5), (6, 1)):
            await fakes.all[-1].event({"id": id_of(again), "undecided": 100})
            [again] = await there(fakes, count)
            assert without_id(again) == without_id(said)
            await fakes.all[-1].event({"id": id_of(again), "undecided": 100})
            await asyncio.sleep(wait - 0.01)
            assert len(fakes.all) == count
            await asyncio.sleep(0.02)
            [again] = await there(fakes, count + 1)
            assert without_id(again) == without_id(said)
        await fakes.all[-1].event({"answer": {"ok": True}, "at": place(1), "id": id_of(again)})
        assert await done == {"ok": True}
        await asyncio.sleep(20)
        assert went(fakes) == "otototo"
        await db.end()

    test(fakes)


def test_where_nobody_decides_for_long_a_write_is_undecided_and_it_is_sent_no_more(fakes, longest):
    @run
    async def test(fakes):
        db, socket = await entered(place(0), TWO, shortest=0.25)
        [done], sent = await written(db, socket, 1)
        now = asyncio.get_running_loop().time
        began = now()
        for count, end in enumerate((0.25, 0.75, 1.75, 3.75, 7.75, 15.75, 30)):  # of the waits, and of the write
            await fakes.all[-1].event({"id": id_of(sent[-1]), "undecided": 100})
            sent += await there(fakes, 2 * count + 2)
            await fakes.all[-1].event({"id": id_of(sent[-1]), "undecided": 100})
            await asyncio.sleep(began + end - 0.01 - now())
            assert not done.done()
            await asyncio.sleep(0.02)
            if end < 30:
                sent += await there(fakes, 2 * count + 3)
        assert (await raised(done, Undecided)).code == 100
        assert len(sent) == 14 and len({*map(without_id, sent)}) == 1
        await asyncio.sleep(1.75)
        assert await there(fakes, 15) == []
        [other], [said] = await written(db, fakes.all[-1], 2)  # and another one is tried as long
        await fakes.all[-1].event({"id": id_of(said), "undecided": 100})
        assert len(await there(fakes, 16)) == 1
        await db.end()
        assert (await raised(other, Undecided)).code is None

    test(fakes)


@run
async def test_a_write_that_is_under_way_when_its_time_is_over_counts_as_it_is_answered(fakes):
    for reply, wanted in (({"answer": {"ok": True}, "at": place(1)}, None), ({"undecided": 100}, 100)):
        fakes.all = []
        db, first = await entered(place(0), TWO, patience=1)
        [done], [said] = await written(db, first, 1)
        await first.event({"id": id_of(said), "undecided": 100})
        [again] = await there(fakes, 2)
        await asyncio.sleep(1.5)
        await fakes.all[-1].event({"id": id_of(again), **reply})
        if wanted is None:
            assert await done == {"ok": True}
        else:
            assert (await raised(done, Undecided)).code == wanted
        await asyncio.sleep(1)
        assert went(fakes) == "ot"
        await db.end()


@run
async def test_a_write_that_others_decide_and_is_cancelled_goes_nowhere(fakes):
    db, first = await entered(place(0), TWO)
    [done, late], said = await written(db, first, 1, 2)
    done.cancel()
    await first.event({"id": id_of(said[0]), "undecided": 100})
    await first.event({"answer": {"ok": True}, "at": place(1), "id": id_of(said[1])})
    assert await late == {"ok": True} and went(fakes) == "o"
    [done], [said] = await written(db, first, 3)
    await first.event({"id": id_of(said), "undecided": 100})
    done.cancel()
    assert await there(fakes, 2) == []
    await db.end()


@run
async def test_a_write_whose_connection_goes_is_said_again_to_the_next_gateway_which_tells_the_first_answer(fakes):
    db, first = await entered(place(0), TWO)
    [done], [said] = await written(db, first, 1)
    await first.end()
    [again] = await there(fakes, 2, 1)
    assert went(fakes) == "ot" and without_id(again) == without_id(said)
    await fakes.all[-1].event({"again": True, "answer": {"entry": 1, "error": 16}, "at": place(1), "id": id_of(again)})
    assert (await raised(done, Refused)).code == 16
    await db.end()


@run
async def test_who_follows_may_not_have_it_yet_and_the_write_has_no_other_name(fakes):
    db, first = await entered(place(0), TWO)
    [done], [said] = await written(db, first, 1)
    await first.end()
    [again] = await there(fakes, 2)
    await fakes.all[-1].event({"id": id_of(again), "undecided": 100})
    await asyncio.sleep(0.01)
    assert went(fakes) == "oto"
    await fakes.all[-1].end()  # it is not there
    [third] = await there(fakes, 4, 70)
    assert without_id(third) == without_id(said)
    await fakes.all[-1].event({"id": id_of(third), "undecided": 102})  # it may have been done at the first
    assert (await raised(done, Undecided)).code == 102
    await db.end()


@run
async def test_what_no_gateway_carried_out_and_came_too_late_at_another_has_another_name_for_the_place_there(fakes):
    db, first = await entered(place(0), TWO)
    [done], [said] = await written(db, first, 1)
    await first.event({"id": id_of(said), "undecided": 100})
    [again] = await there(fakes, 2, 70)
    await fakes.all[-1].event({"id": id_of(again), "undecided": 102})
    await asyncio.sleep(0.01)
    [other] = map(json.loads, await there(fakes, 3, 70))
    assert went(fakes) == "ott"  # by the first it might be told an old place
    assert other["at"] == place(70) and other["once"] != json.loads(said)["once"]
    await fakes.all[-1].event({"answer": {"ok": True}, "at": place(71), "id": other["id"]})
    assert await done == {"ok": True}
    await db.end()


@run
async def test_a_write_that_has_found_who_decides_waits_there_as_long_as_it_has_to(fakes):
    db, first = await entered(place(0), TWO, patience=1, again=3)
    [done], [said] = await written(db, first, 1)
    await first.event({"id": id_of(said), "undecided": 100})
    [again] = await there(fakes, 2)
    await fakes.all[-1].event({"id": id_of(again), "undecided": 104})
    await asyncio.sleep(3.1)
    [third] = fakes.all[-1].sent
    assert without_id(third) == without_id(said)
    await fakes.all[-1].event({"id": id_of(third), "undecided": 100})  # and from here on its time is whole
    await asyncio.sleep(0.01)
    [fourth] = await there(fakes, 3)
    await asyncio.sleep(0.9)
    await fakes.all[-1].event({"id": id_of(fourth), "undecided": 100})
    [fifth] = await there(fakes, 4)
    assert not done.done()
    await fakes.all[-1].event({"id": id_of(fifth), "undecided": 100})
    await asyncio.sleep(0.1)
    assert done.done() and (await raised(done, Undecided)).code == 100
    await db.end()


@run
async def test_101_103_and_104_are_as_with_one_address(fakes):
    db, socket = await entered(place(0), TWO, again=1)
    for code in (101, 103):
        [done], [said] = await written(db, socket, code)
        await socket.event({"id": id_of(said), "undecided": code})
        assert (await raised(done, Undecided)).code == code
    [done], [said] = await written(db, socket, 104)
    await socket.event({"id": id_of(said), "undecided": 104})
    await asyncio.sleep(1.1)
    [again] = socket.sent
    assert without_id(again) == without_id(said)
    await socket.event({"answer": {"ok": True}, "at": place(1), "id": id_of(again)})
    assert await done == {"ok": True} and went(fakes) == "o"
    await db.end()


def test_addresses_are_tried_in_turn_and_after_a_round_of_them_the_waits_are_those_of_one(fakes, monkeypatch):
    waits, sleep = [], asyncio.sleep

    async def slept(wait, *_):
        if wait:
            waits.append((wait, len(fakes.all)))
        await sleep(0)

    monkeypatch.setattr(random, "random", lambda: 0)
    monkeypatch.setattr(asyncio, "sleep", slept)

    @run
    async def test(fakes):
        db = viewd.connect(("ws://one/live", "wss://two/live", "http://six/live"), token="t")
        for _ in range(9):
            await turn()
            await fakes.all[-1].end()
        await turn()
        assert went(fakes) == "otsotsotso" and waits == [(0.125, 3), (0.25, 6), (0.5, 9)]
        assert {it.url for it in fakes.all} == {"ws://one/live", "wss://two/live", "ws://six/live"}
        await db.end()

    test(fakes)


def test_there_is_an_address():
    with pytest.raises(ViewdError, match="no address"):
        viewd.connect([], token="t")


def test_an_address_at_which_nobody_is_does_no_harm(fakes, monkeypatch):
    now = [0.0]
    monkeypatch.setattr("viewd.client.time.monotonic", lambda: now[0])

    @run
    async def test(fakes):
        db = viewd.connect(TWO, token="t", shortest=1, silence=1e9)
        notes = db.live("notes")
        await turn()
        await fakes.all[-1].end()
        now[0] = 1
        await let_in(fakes.all[-1], place(0))
        assert went(fakes) == "ot"
        await fakes.all[-1].follow(1, [[1, [1, "ann"]]])
        assert (db.state, len(notes.rows)) == ("live", 1)
        now[0] = 12
        await fakes.all[-1].end()  # who was there for long begins a round
        assert went(fakes) == "oto"
        await fakes.all[-1].end()
        assert went(fakes) == "oto"
        await asyncio.sleep(1)
        assert went(fakes) == "otot"
        await db.end()

    test(fakes)


@run
async def test_a_gateway_may_say_what_it_likes(fakes):
    """Nothing is done twice, lost, or sent without end."""
    def plays(id: int):
        told, settled = {"id": id, "undecided": 100}, {"settled": True}
        yield "100 with another id", [{"id": id + 7, "undecided": 100}, settled]
        yield "100 without an id", [{"undecided": 100}, settled]
        yield "100, and an end", [told, None]
        yield "100 twice", [told, told, settled]
        yield "100, settled, twice", [told, settled, told, settled]
        yield "100, and an answer", [told, {"answer": {"ok": True}, "at": place(1), "id": id}, settled]

    for number in range(6):
        fakes.all = []
        db, first = await entered(place(0), TWO)
        [done], [said] = await written(db, first, 1)
        what, lines = [*plays(id_of(said))][number]
        await first.tell(*(it for it in lines if it))
        if lines[-1] is None:
            await first.end(1013)
        [again] = await there(fakes, 2)
        assert (went(fakes), without_id(again)) == ("ot", without_id(said)), what
        await fakes.all[-1].event({"answer": {"ok": True}, "at": place(1), "id": id_of(again)})
        assert await done == {"ok": True}, what
        await db.end()
    fakes.all = []
    db, first = await entered(place(0), TWO, patience=1)
    [done], [said] = await written(db, first, 1)
    await first.event({"answer": {"ok": True}, "at": place(1), "id": id_of(said)}, {"id": id_of(said), "undecided": 100})
    assert await done == {"ok": True} and await there(fakes, 2, 1) == []
    [done], [said] = await written(db, fakes.all[-1], 2)
    await fakes.all[-1].tell({"id": id_of(said), "undecided": 100})  # and this is never settled
    await asyncio.sleep(1.1)
    assert (await raised(done, Undecided)).code == 100
    await db.end()


@run
async def test_what_waits_while_all_are_away_is_not_sent(fakes):
    db, first = await entered(place(0), TWO, patience=1)
    await first.end()
    [done], _ = await written(db, first, 1)
    await asyncio.sleep(1.1)
    await raised(done, NotSent)
    await db.end()
