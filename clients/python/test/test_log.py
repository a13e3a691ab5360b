"""The client at gateways of one log in Redis, each with its keeper, over a real redis-server: no proxy tells who leads."""
import shutil
import sys
import threading
import time

import pytest

import viewd
from conftest import IS_BUILT, PATIENCE, TOP

if not (IS_BUILT and shutil.which("redis-server")):
    pytest.skip("no gateway is built, or redis-server is not installed", allow_module_level=True)
pytest.importorskip("redis")
sys.path += [str(TOP / it) for it in ("frontend", "frontend/test")]

from followers import comes  # noqa: E402
from party import partied  # noqa: E402
from store import Store  # noqa: E402
from trial import until  # noqa: E402


@pytest.fixture
def store():
    made = Store()
    yield made
    made.end()


def connected(*machines):
    """Nobody is Undecided on a slow machine."""
    return viewd.plain.connect([f"ws://127.0.0.1:{it.port}/live" for it in machines], token="ann-demo", shortest=0.05, patience=PATIENCE)


def test_a_write_is_done_once_by_whoever_leads(store):
    with partied(store, 2, 1) as party:
        first = party.leader()
        second, = (it for it in party.candidates if it is not first)
        with connected(*party.readers, second, first) as db, db.live("notes") as notes:
            assert db.insert("notes", [1, "ann"]) == {"ok": True}
            assert [it["id"] for it in notes.rows] == [1]  # what it changed is here
            first.rest()
            assert db.insert("notes", [2, "ann"]) == {"ok": True} and second.leads()
            first.rests = False
            comes(first)
            assert second.strike("gateway")  # and who led once may follow now
            assert db.insert("notes", [3, "ann"]) == {"ok": True}
            until(lambda: [it["id"] for it in notes.rows] == [1, 2, 3], "they do not come")
            with pytest.raises(viewd.Refused) as why:
                db.remove("notes", [4, "ann"])
            assert why.value.code == 16
        with connected(*party.readers) as db, pytest.raises(viewd.Undecided) as undecided:
            db.insert("notes", [5, "ann"])
        assert undecided.value.code == 100
        assert {row: copies for row, copies in party.equal()["ann"].items()} == {(id, "ann"): 1 for id in (1, 2, 3)}


def test_over_kills_of_who_leads_each_write_is_done_once(store):
    with partied(store, 2, 1) as party:
        done, faults, stop = [], [], threading.Event()

        def write(number):
            try:
                with connected(*party.all[number:], *party.all[:number]) as db:
                    while not stop.is_set():
                        id = 1000 * number + len(done)
                        assert db.insert("notes", [id, "ann"]) == {"ok": True}
                        done.append(id)
                        time.sleep(0.03)
            except Exception as why:
                faults.append(why)

        threads = [threading.Thread(target=write, args=(number,)) for number in range(3)]
        for it in threads:
            it.start()
        for _ in range(4):
            before = len(done)
            until(lambda: faults or len(done) > before + 10, "nothing is done")
            party.leader().strike("gateway")
        stop.set()
        for it in threads:
            it.join()
        assert not faults
        assert party.equal()["ann"] == {(id, "ann"): 1 for id in done}
        print(f"  {len(done)} writes, keepers ended with {[dict(it.statuses) for it in party.all]}")
