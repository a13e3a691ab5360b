"""A gateway that a test plays, written from docs/PROTOCOL.md, and a gateway that runs."""
import asyncio
import hashlib
import importlib.util
import json
import os
import pathlib
import selectors
import shutil
import signal
import subprocess
import sys
import time
import urllib.request

import pytest

TOP = pathlib.Path(__file__).resolve().parents[3]
sys.path[:0] = [str(TOP / it) for it in ("clients/python", "clients/test")]
GATEWAY = TOP / "clients/test/gateway"
IS_BUILT = bool(subprocess.run([GATEWAY, "--which"], capture_output=True, text=True, check=True).stdout.strip())
PATIENCE = float(os.environ.get("PATIENCE", 600))  # seconds for anything that has to come: a slow machine fails no test
NOTES = [["id", "int"], ["who", "text"]]

from websockets.exceptions import ConnectionClosedError  # noqa: E402
from websockets.frames import Close  # noqa: E402

import viewd  # noqa: E402
from ports import free_port  # noqa: E402


class Waits(selectors.DefaultSelector):
    """Waits for nothing: the time for which it is asked to wait is over at once."""

    now = 0.0

    def select(self, timeout: float | None = None) -> list:
        self.now += max(timeout or 0, 0)
        return super().select(timeout and 0)


class Still(asyncio.SelectorEventLoop):
    """Time passes where all wait for it, and nowhere else: so no slow host changes what a test sees."""

    def __init__(self) -> None:
        self.waits = Waits()
        super().__init__(self.waits)

    def time(self) -> float:
        return self.waits.now


async def turn() -> None:
    """Lets all that is under way be done."""
    for _ in range(20):
        await asyncio.sleep(0)


class Fake:
    """A socket whose gateway's end a test plays. `all` are those that the client has opened."""

    all: list["Fake"] = []

    def __init__(self, url: str) -> None:
        self.url = url
        self.sent: list[str] = []
        self.told: asyncio.Queue = asyncio.Queue()
        self.is_closed = False
        Fake.all.append(self)

    async def send(self, data: str) -> None:
        self.sent.append(data)

    async def recv(self) -> str:
        it = await self.told.get()
        if isinstance(it, Exception):
            raise it
        return it

    async def close(self) -> None:
        self.is_closed = True

    async def tell(self, *lines: object) -> None:
        self.told.put_nowait("".join((it if isinstance(it, str) else json.dumps(it, separators=(",", ":"))) + "\n" for it in lines))
        await turn()

    async def event(self, *lines: object) -> None:
        await self.tell(*lines, {"settled": True})

    async def end(self, code: int = 1006, reason: str = "") -> None:
        self.told.put_nowait(ConnectionClosedError(Close(code, reason) if code != 1006 else None, None))
        await turn()

    def asked(self, body: dict) -> int:
        """Takes one message, of this form but for its id, and returns the id."""
        said = self.sent.pop(0)
        told = json.loads(said)
        assert said.startswith('{"id":') and {key: it for key, it in told.items() if key != "id"} == body, said
        return told["id"]

    async def follow(self, sub: int, changes: list, on: str = "notes", columns: list = NOTES) -> None:
        """Answers a subscribe to the relation, with these changes."""
        id = self.asked({"do": "subscribe", "on": on})
        await self.event({"columns": columns, "id": id, "ok": True, "sub": sub}, *([{"changes": changes, "sub": sub}] if changes else []))


@pytest.fixture
def fakes(monkeypatch):
    """Connections are those that the test plays."""
    Fake.all = []

    async def opened(url: str, **_: object) -> Fake:
        return Fake(url)

    monkeypatch.setattr("viewd.client.OPEN", opened)
    return Fake


async def entered(at: str | None = None, url: str | list[str] = "ws://gateway/live", **how) -> tuple[viewd.Db, Fake]:
    """A client that its gateway has let in, and told where its holder's names stand, if it knows names."""
    db = viewd.connect(url, token="t", **{"shortest": 0.004, **how})
    await turn()
    await Fake.all[-1].event({"protocol": 1, "role": "mia"}, *([] if at is None else [{"at": at, "names": 64}]))
    assert Fake.all[-1].sent == ["t"] and (db.role, db.protocol) == ("mia", 1)
    Fake.all[-1].sent.clear()
    return db, Fake.all[-1]


class Gateway:
    """A gateway with a journal in a folder. A token is the name of its role and `-demo`."""

    def __init__(self, folder: pathlib.Path, *words: str, roles: tuple[str, ...] = ("admin", "ann", "mia")):
        self.folder, self.words = folder, words
        self.know(*roles)
        if "--seed" not in words:
            (folder / "journal.jsonl").write_text("")
        self.port = free_port()
        self.url = f"ws://127.0.0.1:{self.port}/live"
        self.start()

    def know(self, *roles: str) -> None:
        lines = [f'"{hashlib.sha256(f"{role}-demo".encode()).hexdigest()}" = "{role}"\n' for role in roles]
        (self.folder / "tokens.new").write_text("[tokens]\n" + "".join(lines))
        (self.folder / "tokens.new").rename(self.folder / "tokens.toml")

    def start(self) -> None:
        words = [GATEWAY, "--journal", self.folder / "journal.jsonl", "--tokens", self.folder / "tokens.toml", "--port", str(self.port), *self.words]
        with (self.folder / "log").open("ab") as log:
            self.process = subprocess.Popen(words, stdin=subprocess.DEVNULL, stderr=log)
        end = time.monotonic() + 5 * PATIENCE
        while True:
            try:
                # (proxies of the host are for others)
                urllib.request.build_opener(urllib.request.ProxyHandler({})).open(f"http://127.0.0.1:{self.port}/readyz", timeout=PATIENCE).close()
                return
            except OSError:
                assert self.process.poll() is None and time.monotonic() < end, (self.folder / "log").read_text()
                time.sleep(0.02)

    def signal(self, number: int) -> None:
        self.process.send_signal(number)

    def kill(self) -> None:
        self.signal(signal.SIGCONT)
        self.signal(signal.SIGKILL)
        self.process.wait(PATIENCE)


def has_browser() -> bool:
    """Whether Chromium can be driven. NO_BROWSER says that it does not start here."""
    return all(map(shutil.which, ("chromium", "chromedriver"))) and bool(importlib.util.find_spec("selenium")) and not os.environ.get("NO_BROWSER")


def browser(*more: str):
    """A Chromium without a window, asked for three times: the first start reads it from the disk."""
    from selenium import webdriver
    from selenium.common.exceptions import WebDriverException
    from selenium.webdriver.chrome.service import Service
    from urllib3.exceptions import HTTPError
    options = webdriver.ChromeOptions()
    for word in ("--headless=new", "--no-sandbox", "--disable-gpu", "--disable-dev-shm-usage", *more):
        options.add_argument(word)
    for wait in (1, 10, None):
        try:
            driver = webdriver.Chrome(options=options, service=Service(shutil.which("chromedriver")))
            driver.set_script_timeout(PATIENCE)
            driver.set_page_load_timeout(PATIENCE)
            return driver
        except (WebDriverException, HTTPError, OSError):
            if wait is None:
                raise
            time.sleep(wait)


BASE = [*({"do": "create_role", "name": name} for name in ("ann", "mia")),
        {"do": "create_table", "name": "notes", "owner": "ann", "columns": [["id", "int"], ["who", "text"], ["done", "flag"]]},
        {"do": "create_view", "name": "counts", "owner": "ann", "query": "select who, count(*) as n from notes group by who"},
        {"do": "grant", "on": "notes", "privileges": ["select", "insert", "update", "delete"], "to": "mia"},
        {"do": "grant", "on": "counts", "privileges": ["select"], "to": "mia"},
        {"do": "row_security", "on": "notes", "enable": True, "force": False},
        {"do": "create_policy", "on": "notes", "name": "own", "using": "who = current_user"}]


@pytest.fixture
def gateway(tmp_path):
    """A gateway with notes of its people, where one can be run."""
    if not IS_BUILT:
        pytest.skip("no gateway is built")
    gateway = Gateway(tmp_path)
    try:
        with viewd.plain.connect(gateway.url, token="admin-demo") as admin:
            for it in BASE:
                admin.request(it)
        yield gateway
    finally:
        gateway.kill()
