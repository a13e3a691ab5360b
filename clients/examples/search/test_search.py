"""The search behind a gateway: exact across kills of each, nothing that the role may not see, and the page in Chromium where it is installed."""
# ruff: noqa: F811
import contextlib
import json
import os
import pathlib
import sqlite3
import subprocess
import sys
import time
import urllib.error
import urllib.parse
import urllib.request

import pytest

HERE = pathlib.Path(__file__).resolve().parent
sys.path.insert(0, str(HERE.parents[1] / "python/test"))

import viewd  # noqa: E402
from conftest import PATIENCE, browser, gateway, has_browser  # noqa: E402, F401
from ports import free_port  # noqa: E402

COLUMNS = [["id", "int"], ["owner", "text"], ["rank", "text"], ["body", "text"], ["draft", "flag"]]
MADE = [{"do": "create_table", "name": "documents", "owner": "ann", "columns": COLUMNS},
        {"do": "create_view", "name": "pages", "owner": "ann", "query": "select id, rank, body from documents where draft = false"},
        {"do": "grant", "on": "documents", "privileges": ["select"], "to": "mia"},
        {"do": "grant", "on": "pages", "privileges": ["select"], "to": "mia"},
        {"do": "row_security", "on": "documents", "enable": True, "force": False},
        {"do": "create_policy", "on": "documents", "name": "own", "using": "owner = current_user"}]


def until(holds, patience=PATIENCE):
    end = time.monotonic() + patience
    while not (found := holds()):
        assert time.monotonic() < end, "it did not come"
        time.sleep(0.02)
    return found


def document(id, owner, title, body="", draft=False):
    return {"id": id, "owner": owner, "rank": title, "body": body, "draft": draft}


class Search:
    """`search.py` for a role, with an index in the gateway's folder."""

    def __init__(self, gateway, role="mia"):
        self.index = gateway.folder / f"{role}.db"
        self.port = free_port()
        self.words = [HERE / "search.py", "pages", "--index", self.index, "--port", str(self.port), "--url", gateway.url]
        self.env = {**os.environ, "VIEWD_TOKEN": f"{role}-demo"}
        self.said = (gateway.folder / "search").open("ab+")
        self.start()

    def start(self):
        self.process = subprocess.Popen(self.words, env=self.env, stderr=self.said)

    def kill(self):
        self.process.kill()
        self.process.wait(PATIENCE)

    def ended(self):
        """Its status, and what it said last."""
        status = self.process.wait(PATIENCE)
        self.said.seek(0)
        return status, self.said.read().decode().splitlines()[-1]

    def get(self, path, host="127.0.0.1"):
        ask = urllib.request.Request(f"http://127.0.0.1:{self.port}{path}", headers={"Host": host})
        return urllib.request.urlopen(ask, timeout=PATIENCE)

    def found(self, words, behind=""):
        """Of what is found the numbers, with what else is told; nothing if nobody answers."""
        try:
            with self.get("/search?" + urllib.parse.urlencode({"words": words, "behind": behind})) as answer:
                told = json.load(answer)
                return [int(it["row"]["id"]) for it in told["found"]], told
        except (urllib.error.URLError, ConnectionError):
            return None

    def shows(self, words, *numbers):
        return lambda: (it := self.found(words)) and sorted(it[0]) == sorted(numbers)


@contextlib.contextmanager
def searching(*words):
    search = Search(*words)
    try:
        yield search
    finally:
        search.kill()


@pytest.fixture
def ann(gateway):
    with viewd.plain.connect(gateway.url, token="admin-demo") as admin:
        for it in MADE:
            admin.request(it)
    with viewd.plain.connect(gateway.url, token="ann-demo", shortest=0.05) as ann:
        yield ann


def insert(ann, *documents):
    ann.write([{"on": "documents", "insert": it} for it in documents])


def test_words_find_what_the_role_may_see(gateway, ann):
    insert(ann, document(1, "mia", "Router restarts", "each night at two"), document(2, "mia", "Café in the <b>hall</b>", "a router, too"),
           document(3, "ann", "Router of Ann"), document(4, "mia", "Router draft", draft=True), document(2 ** 63 - 1, "mia", "Far away"))
    with searching(gateway) as search:
        until(search.shows("router", 1, 2))
        for words, numbers in [("ROUT", [1, 2]), ("cafe", [2]), ("router night", [1]), ('"router" OR -night*', []), ("nothing", []), ("far", [2 ** 63 - 1]),
                               ("hall", [2]), ("", [2 ** 63 - 1, 2, 1]), ("router " * 40, [1, 2])]:
            assert sorted(search.found(words)[0]) == sorted(numbers), words
        [numbers, told] = search.found("hal")
        assert told["found"][0]["piece"] == "Café in the <b>\x02hall\x03</b>" and (told["total"], told["state"], told["role"]) == (1, "live", "mia")
        # what waits is answered by the next change
        before = time.monotonic()
        insert(ann, document(5, "mia", "Router five"))
        numbers, again = search.found("router", told["position"])
        assert sorted(numbers) == [1, 2, 5] and again["position"] == told["position"] + 1 and time.monotonic() < before + 15
        ann.write([{"on": "documents", "update": [document(1, "mia", "Router restarts", "each night at two"), document(1, "ann", "Router restarts")]},
                   {"on": "documents", "insert": document(5, "mia", "Router five")}])
        until(search.shows("router", 2, 5))
        ann.remove("documents", document(5, "mia", "Router five"))  # one copy is left
        assert sorted(search.found("router", search.found("")[1]["position"] - 1)[0]) == [2, 5]
        for path, host, status in [("/search.py", "127.0.0.1", 404), ("/../search.py", "127.0.0.1", 404), ("/search", "elsewhere.example", 403)]:
            with pytest.raises(urllib.error.HTTPError) as why:
                search.get(path, host)
            assert why.value.code == status
        assert b"<main>" in search.get("/", f"localhost:{search.port}").read()


def test_what_a_role_may_not_see_any_more_is_gone(gateway, ann):
    insert(ann, document(1, "mia", "Router"))
    with searching(gateway) as search:
        until(search.shows("router", 1))
        ann.request({"do": "drop_policy", "on": "documents", "name": "own"})
        until(search.shows("router"))
        ann.request({"do": "revoke", "on": "pages", "privileges": ["select"], "to": "mia"})
        assert search.ended() == (1, "search: pages was ended: privilege") and not search.index.exists()
        search.start()
        assert search.ended() == (1, "search: missing privilege (13), on pages, privilege select")


def test_exact_across_kills_of_each(gateway, ann):
    """Each write replaces a document by one of the next number: so there is one at each moment, and none twice."""
    def rows():
        with contextlib.closing(sqlite3.connect(f"file:{search.index}?mode=ro", uri=True, timeout=PATIENCE)) as base:
            base.execute("begin")
            there = [json.loads(it)["id"] for (it,) in base.execute("select row from rows")]
            assert len(there) == base.execute("select count(*) from texts where texts match 'router'").fetchone()[0]
            return there

    insert(ann, document(0, "mia", "Router"))
    with searching(gateway) as search:
        until(search.shows("router", 0))
        number = 0
        for turn in range(6):
            for _ in range(10):
                ann.update("documents", document(number, "mia", "Router"), {"id": number + 1})
                number += 1
                assert len(rows()) == 1
            search.kill() if turn % 2 else gateway.kill()
            if turn % 2 == 0:
                until(lambda: ann.state == "stale")
                gateway.start()
            ann.update("documents", document(number, "mia", "Router"), {"id": number + 1})
            number += 1
            assert len(rows()) == 1
            if turn % 2:
                search.start()
            until(search.shows("router", number))
        with subprocess.Popen(search.words, env=search.env, stderr=subprocess.PIPE, text=True) as other:
            assert (other.wait(PATIENCE), other.stderr.read()) == (1, "search: another one has this index\n")


def test_the_page(gateway, ann):
    if not has_browser():
        pytest.skip("no Chromium is here")
    insert(ann, document(1, "mia", "Router restarts", "each <i>night</i> at two"), document(2, "mia", "Light"))
    with searching(gateway) as search:
        until(search.shows("", 1, 2))
        driver = browser()
        try:
            driver.get(f"http://127.0.0.1:{search.port}/")

            def shown():
                return driver.execute_script("return [...document.querySelectorAll('li')].map((it) => it.textContent)")

            until(lambda: len(shown()) == 2)
            until(lambda: driver.execute_script("return document.activeElement.tagName") == "INPUT")
            driver.switch_to.active_element.send_keys("nig")
            until(lambda: shown() == ["1 · Router restartseach <i>night</i> at two"])
            assert driver.execute_script("return [...document.querySelectorAll('mark')].map((it) => it.textContent)") == ["night"]
            insert(ann, document(3, "mia", "Night light"))
            until(lambda: len(shown()) == 2 and "Night light" in "".join(shown()))
            assert driver.execute_script("return document.querySelector('[role=status]').textContent") == "2 documents that mia may see"
            search.kill()
            until(lambda: "does not answer" in driver.execute_script("return document.querySelector('[role=status]').textContent"))
            search.start()
            until(lambda: "2 documents" in driver.execute_script("return document.querySelector('[role=status]').textContent"))
        finally:
            driver.quit()
