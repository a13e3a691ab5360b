"""The client over a gateway that runs: what roles see, revokes, kills, a gateway that stands still, a token that is taken away."""
import asyncio
import signal
import threading
import time

import pytest

import viewd
from conftest import PATIENCE
from viewd import Change, NotSent, Refused


def enter(gateway, role, **how):
    return viewd.connect(gateway.url, token=f"{role}-demo", shortest=0.02, **how)


async def until(holds, patience=PATIENCE):
    end = time.monotonic() + patience
    while not holds():
        assert time.monotonic() < end, "it did not come"
        await asyncio.sleep(0.01)


def test_each_role_has_its_rows_as_they_change(gateway):
    async def test():
        async with enter(gateway, "ann") as ann, enter(gateway, "mia") as mia:
            all_notes, own, counts = ann.live("notes", order="-id"), mia.live("notes"), mia.live("counts")
            assert [await it.ready() for it in (all_notes, own, counts)] == [[], [], []] and mia.role == "mia"
            row = {"id": 2 ** 63 - 1, "who": "mia", "done": False}
            await mia.insert("notes", row)
            assert own.rows == [row] and counts.rows == [{"who": "mia", "n": 1}]  # what a write changes is there with its reply
            await ann.write([{"on": "notes", "insert": {"id": 1, "who": "ann", "done": True}},
                             {"on": "notes", "insert": {"id": 2, "who": "mia", "done": True}, "copies": 3}])
            await until(lambda: len(own.rows) == 2)
            assert [it["id"] for it in all_notes.rows] == [2 ** 63 - 1, 2, 1]
            assert own.copies(own.rows[0]) == 3 and counts.rows == [{"who": "mia", "n": 4}]
            await mia.update("notes", row, {"done": True})
            await mia.remove("notes", own.rows[0], copies=3)
            assert own.rows == [{**row, "done": True}]
            for work, words in [(mia.insert("notes", {"id": 3, "who": "ann", "done": False}), "no permissive policy (14), on notes, check insert, entry 1"),
                                (mia.request({"do": "subscribe"}), "bad request (2), key on, why missing"),
                                (mia.insert("plans", {"id": 1}), "unknown relation (7)")]:
                with pytest.raises(Refused) as why:
                    await work
                assert str(why.value) == words
            await ann.request({"do": "revoke", "on": "notes", "privileges": ["select"], "to": "mia"})
            await until(lambda: own.state == "refused")
            assert (own.why, own.rows) == ("privilege", [])
            await ann.request({"do": "grant", "on": "notes", "privileges": ["select"], "to": "mia"})
            await until(lambda: own.state == "live")
            assert len(own.rows) == 1

    asyncio.run(test())


def test_over_kills_each_write_is_answered_and_done_once(gateway):
    async def test():
        async with enter(gateway, "ann") as ann, enter(gateway, "mia") as mia:
            notes, done, seen = ann.live("notes"), set(), {}
            await notes.ready()

            async def write(number):
                await mia.insert("notes", [number, "mia", False])
                done.add(number)

            async def follow():
                async for changes in ann.changes("notes"):
                    for it in changes:
                        seen[it.row["id"]] = seen.get(it.row["id"], 0) + it.copies

            following = asyncio.ensure_future(follow())
            for turn in range(3):
                writes = [asyncio.ensure_future(write(turn * 200 + at)) for at in range(200)]
                await until(lambda: len(done) > 200 * turn + 30)
                gateway.kill()
                await until(lambda: "live" not in (notes.state, ann.state, mia.state))
                gateway.start()
                await asyncio.gather(*writes)
                await until(lambda: notes.state == "live" and ann.state == "live" and mia.state == "live")
            await until(lambda: seen == {it: 1 for it in range(600)})
            assert {it["id"] for it in notes.rows} == done == {*range(600)} and all(notes.copies(it) == 1 for it in notes.rows)
            following.cancel()

    asyncio.run(test())


def test_who_was_idle_while_others_of_its_holder_wrote_much_writes_on(gateway):
    async def test():
        async with enter(gateway, "mia") as idle, enter(gateway, "mia") as mia:
            own = idle.live("notes")
            await own.ready()
            for number in range(70):
                await mia.insert("notes", [number, "mia", False])
            assert await asyncio.gather(*(idle.insert("notes", [number, "mia", False]) for number in (100, 101))) == [{"ok": True}] * 2
            await until(lambda: own.state == "live" and len(own.rows) == 72)
            assert all(own.copies(it) == 1 for it in own.rows)

    asyncio.run(test())


def test_a_gateway_that_stands_still_is_told_of(gateway):
    async def test(silence):
        async with enter(gateway, "mia", silence=silence, patience=0.5) as db:
            own = db.live("notes")
            await asyncio.wait_for(own.ready(), 10 * silence)
            gateway.signal(signal.SIGSTOP)
            await until(lambda: db.state == own.state == "stale")
            with pytest.raises(NotSent):
                await db.insert("notes", [1, "mia", False])
            gateway.signal(signal.SIGCONT)
            await until(lambda: db.state == own.state == "live", 10 * silence)

    for silence in (2, 10, 50):  # on a host so slow that a gateway seems silent which is not, the clocks go more slowly
        try:
            return asyncio.run(test(silence))
        except (AssertionError, asyncio.TimeoutError, NotSent):
            gateway.signal(signal.SIGCONT)
            if silence == 50:
                raise


def test_who_lost_its_token_is_out(gateway):
    async def test():
        async with enter(gateway, "mia") as mia:
            own = mia.live("notes")
            await own.ready()
            gateway.know("admin", "ann")
            await until(lambda: mia.state == "closed")
            assert (mia.why, own.state) == ("This token opens no role.", "closed")

    asyncio.run(test())


def test_the_plain_form(gateway):
    with viewd.plain.connect(gateway.url, token=lambda: "mia-demo") as db:
        row = {"id": 1, "who": "mia", "done": False}
        assert db.insert("notes", row)["ok"] and db.rows("notes") == [row] and db.role == "mia"
        with db.live("notes", order="-id", limit=1) as own:
            assert own.rows == [row] and own.state == "live" and own.total == own.copies(row) == 1
            own.wait(0)
            threading.Timer(0.2, lambda: db.insert("notes", {**row, "id": 2})).start()
            assert own.wait(PATIENCE) and own.rows == [{**row, "id": 2}]
            assert not own.wait(0.1)
        changes = db.changes("notes")
        assert [it.copies for it in next(changes)] == [1, 1]
        db.write([{"on": "notes", "delete": row}, {"on": "notes", "update": [{**row, "id": 2}, {**row, "id": 3}]}])
        assert next(changes) == [Change(-1, row), Change(-1, {**row, "id": 2}), Change(1, {**row, "id": 3})]
        with pytest.raises(Refused):
            db.rows("plans")
        assert db.columns("counts") == [("who", "text"), ("n", "int")] and db.state == "live"
    with pytest.raises(NotSent):
        db.insert("notes", row)
    with pytest.raises(NotSent, match="opens no role"):
        with viewd.plain.connect(gateway.url, token="nobody"):
            pass
