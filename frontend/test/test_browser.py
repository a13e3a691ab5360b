"""The desk in a real browser, over the gateway as a program: an administrator and two agents, each in a window of one Chromium.

Each test goes on where the one before it ended. Pictures go to the folder that `--pictures` names.
"""
import contextlib
import dataclasses
import pathlib
import re
import time
from collections.abc import Callable, Iterator
from typing import Any, NoReturn

import pytest
from selenium import webdriver
from selenium.common.exceptions import InvalidSessionIdException, WebDriverException
from selenium.webdriver.common.by import By
from selenium.webdriver.common.keys import Keys
from urllib3.exceptions import HTTPError

from wire import PATIENCE, TOP, Gateway

ROLES = ("admin", "lena", "mia", "noah", "olga")
NOT_STARTED, GONE = 10, 11  # statuses: Chromium does not start here, and it has ended by itself, for want of memory, say
GREATEST = (1 << 63) - 1


def gone(why: Exception) -> NoReturn:
    pytest.exit(f"Chromium has ended: {str(why)[:300]}", GONE)


def until(test: Callable[[], Any]) -> Any:
    """The first true answer. A page that is being made anew lacks what is looked for, for a moment."""
    end = time.monotonic() + PATIENCE
    while True:
        try:
            if found := test():
                return found
        except (InvalidSessionIdException, HTTPError, OSError) as why:
            gone(why)
        except (WebDriverException, LookupError) as why:
            if re.search("crashed|disconnected|not reachable", str(why)):
                gone(why)
        assert time.monotonic() < end, "it did not come"
        time.sleep(0.02)


class Desk:
    """A window, signed in."""

    def __init__(self, driver: webdriver.Chrome, url: str, token: str, size: tuple[int, int] = (1180, 900)):
        driver.switch_to.new_window("window")
        driver.set_window_size(*size)
        self.driver, self.handle = driver, driver.current_window_handle
        driver.get(f"{url}#token={token}" if token else url)

    def __getattr__(self, name: str) -> Any:
        """What the driver can do, in this window."""
        self.driver.switch_to.window(self.handle)
        return getattr(self.driver, name)

    def css(self, selector: str) -> Any:
        return self.find_element(By.CSS_SELECTOR, selector)

    def press(self, selector: str, key: str) -> None:
        """A key, on what may be made anew meanwhile."""
        until(lambda: self.css(selector).send_keys(key) or True)

    def click(self, selector: str) -> None:
        """In one step, as the page may put another element in the place of one that was found."""
        until(lambda: self.css(selector))
        self.execute_script("const it = document.querySelector(arguments[0]); it.focus(); it.click()", selector)

    def tickets(self) -> dict[int, tuple[str, ...]]:
        """What stands in the table on the page: number to agent, subject and state."""
        rows = self.execute_script("""return [...document.querySelectorAll('#tickets tbody tr:not(.gone)')].map(
            (tr) => [...tr.cells].slice(0, 4).map((td) => td.textContent))""")
        return {int(number): tuple(rest) for number, *rest in rows}

    def numbers(self) -> list[int]:
        return sorted(self.tickets())

    def bars(self) -> dict[str, int]:
        bars = self.execute_script("""return [...document.querySelectorAll('#chart g')].map(
            (g) => [g.children[0].textContent, g.children[2].textContent, parseFloat(g.children[1].style.width)])""")
        return {name: int(count) for name, count, width in bars if width > 0}

    def state(self) -> str:
        return str(self.css("#state").text)

    def toast(self) -> str:
        return str(self.execute_script("return document.getElementById('toast').textContent"))

    def choose(self, selector: str, word: str) -> None:
        """In one step too."""
        until(lambda: self.execute_script("""const it = document.querySelector(arguments[0]);
            it.value = arguments[1];
            return it.value === arguments[1]""", selector, word))

    def type(self, selector: str, words: str) -> None:
        field = self.css(selector)
        field.clear()
        field.send_keys(words)

    def add(self, agent: str, subject: str) -> None:
        self.choose("#new [name=agent]", agent)
        self.type("#new [name=subject]", subject)
        self.click("#new button")

    def rights(self, what: str, on: str, to: str, *privileges: str) -> None:
        for name in ("select", "insert", "update", "delete"):
            self.execute_script("document.querySelector(arguments[0]).checked = arguments[1]", f"#rights [name={name}]", name in privileges)
        self.choose("#rights [name=on]", on)
        self.choose("#rights [name=to]", to)
        self.click(f"#rights [value={what}]")

    def rights_shown(self) -> Any:
        """What the administrator's tables say."""
        return self.execute_script("return ['grants', 'members', 'security', 'policies'].map((it) => document.getElementById(it).textContent)")

    def member(self, to: str, role: str) -> None:
        self.choose("#member [name=to]", to)
        self.choose("#member [name=role]", role)
        self.click("#member button")

    def policy(self, on: str, name: str, command: str, to: str, using: str) -> None:
        for field, word in (("on", on), ("command", command), ("to", to)):
            self.choose(f"#policy [name={field}]", word)
        self.type("#policy [name=name]", name)
        self.type("#policy [name=using]", using)
        self.click("#policy button")

    def say(self, request: dict[str, Any]) -> Any:
        """What the connection of the page answers to a request that the page itself would not make."""
        return self.execute_async_script("""const done = arguments[1];
            window.viewd.db.request(arguments[0]).then(done, (why) => done(why.reply ?? {lost: why.message}))""", request)

    def picture(self, file: pathlib.Path) -> None:
        self.save_screenshot(str(file))


@dataclasses.dataclass
class Windows:
    """A Chromium, the gateway behind it, and who sits before its windows."""

    driver: webdriver.Chrome
    gate: Gateway
    pictures: pathlib.Path
    url: str
    console: list[dict[str, str]] = dataclasses.field(default_factory=list)  # all that the pages have said there

    def log(self) -> list[dict[str, str]]:
        """What the pages have said since it was asked last."""
        browser: Any = self.driver
        return list(browser.get_log("browser"))

    def open_three(self) -> None:
        self.admin = Desk(self.driver, self.url, "admin-demo", (1280, 1420))
        self.mia, self.noah = Desk(self.driver, self.url, "mia-demo"), Desk(self.driver, self.url, "noah-demo")


def started() -> webdriver.Chrome:
    """A Chromium without a window. It is asked three times to start: the first start reads it from the disk."""
    options: Any = webdriver.ChromeOptions()
    for word in ("--headless=new", "--no-sandbox", "--disable-gpu", "--disable-dev-shm-usage"):
        options.add_argument(word)
    said = ""
    for wait in (1, 10, 0):
        try:
            driver = webdriver.Chrome(options=options)
            driver.set_script_timeout(PATIENCE)
            driver.set_page_load_timeout(PATIENCE)
            return driver
        except (WebDriverException, HTTPError, OSError) as why:
            said = str(why)
            time.sleep(wait)
    pytest.exit(f"Chromium does not start: {said[:300]}", NOT_STARTED)


@pytest.fixture(scope="module")
def windows(request: pytest.FixtureRequest, tmp_path_factory: pytest.TempPathFactory) -> Iterator[Windows]:
    driver = started()
    try:
        gate = Gateway(ROLES, ("--pages", TOP / "frontend/web"), (TOP / "frontend/desk.jsonl").read_bytes())
        yield Windows(driver, gate, request.config.getoption("--pictures") or tmp_path_factory.mktemp("pictures"), f"http://127.0.0.1:{gate.port}/")
        gate.end()
    finally:
        with contextlib.suppress(WebDriverException, HTTPError, OSError):
            driver.quit()


@pytest.fixture
def at(windows: Windows) -> Iterator[Windows]:
    """The windows, for one test. If it failed, pytest prints what was said."""
    yield windows
    with contextlib.suppress(WebDriverException, HTTPError, OSError):
        windows.console += windows.log()
    print(windows.gate.said()[-1500:], *windows.console, sep="\n")


def calm(*desks: Desk) -> None:
    """Waits for the ends of the animations, and takes the last words away, for a picture."""
    for desk in desks:
        until(lambda: desk.execute_script("return document.getAnimations().every((it) => it.playState === 'finished')"))
        desk.execute_script("document.getElementById('toast').className = ''; document.activeElement.blur()")


def contrast(one: str, two: str) -> float:
    """As WCAG 2 counts it, of two colors `rgb(r, g, b)`."""
    def light(color: str) -> float:
        parts = [int(part) / 255 for part in color[color.index("(") + 1:-1].split(",")[:3]]
        red, green, blue = (part / 12.92 if part <= 0.04045 else ((part + 0.055) / 1.055) ** 2.4 for part in parts)
        return float(0.2126 * red + 0.7152 * green + 0.0722 * blue)
    high, low = sorted((light(one), light(two)), reverse=True)
    return (high + 0.05) / (low + 0.05)


def test_tokens(at: Windows) -> None:
    """A token that is guessed opens nothing, and one that is taken away closes the page that it had opened."""
    door = Desk(at.driver, at.url, "guessed", (600, 500))
    until(lambda: "opens no role" in door.css("#turned").text)

    def enters() -> bool:
        if door.css("#door").is_displayed():
            door.type("#door input", "mia-demo" + Keys.ENTER)
        return door.state() == "live" and door.css("#role").text == "mia"
    until(enters)
    at.gate.know(*(it for it in ROLES if it != "mia"))
    until(lambda: door.css("#door").is_displayed() and "opens no role" in door.css("#turned").text)
    at.gate.know(*ROLES)
    until(enters)
    door.press("#out", Keys.ENTER)
    until(lambda: door.css("#door").is_displayed())


def test_three_roles(at: Windows) -> None:
    at.open_three()
    until(lambda: len(at.admin.numbers()) == 12 and at.mia.numbers() == [101, 102, 109])
    until(lambda: at.noah.numbers() == [103, 104, 107, 112] and at.noah.bars() == {"noah": 4})
    until(lambda: at.admin.bars() == {"noah": 4, "mia": 2, "olga": 2, "jun": 1, "ravi": 1} and at.mia.bars() == {"mia": 2})
    until(lambda: at.admin.css("#admin").is_displayed())
    assert "token" not in at.mia.current_url and not at.mia.css("#admin").is_displayed()


def test_writes(at: Windows) -> None:
    at.mia.add("mia", "Wrong currency")
    until(lambda: len(at.mia.numbers()) == 4 and len(at.admin.numbers()) == 13)
    assert len(at.noah.numbers()) == 4
    at.admin.add("noah", "Monitor stays black")
    until(lambda: len(at.noah.numbers()) == 5 and at.noah.bars() == {"noah": 5} and len(at.mia.numbers()) == 4)
    at.mia.add("noah", "for another")
    until(lambda: "no permissive policy (14)" in at.mia.toast())


def test_keyboard(at: Windows) -> None:
    """A ticket is closed and opened by keys alone: the row is another one, and the keyboard stays on it."""
    at.mia.press("[aria-label='Close ticket 101']", Keys.ENTER)
    until(lambda: at.mia.tickets()[101][2] == at.admin.tickets()[101][2] == "closed" and at.admin.bars()["mia"] == 2)

    def focused() -> Any:
        return at.mia.execute_script("return document.activeElement.getAttribute('aria-label')")
    until(lambda: focused() == "Reopen ticket 101")
    at.mia.switch_to.active_element.send_keys(Keys.SPACE)
    until(lambda: at.mia.tickets()[101][2] == "open" and focused() == "Close ticket 101")


def test_policies(at: Windows) -> None:
    mine = at.mia.numbers()
    at.admin.policy("tickets", "cover", "select", "mia", "open = true")
    openly = [number for number, row in at.admin.tickets().items() if row[2] == "open"]
    until(lambda: at.mia.numbers() == sorted({*mine, *openly}) and at.mia.bars() == at.admin.bars())
    until(lambda: "cover" in at.admin.css("#policies").text)
    assert len(at.noah.numbers()) == 5
    calm(at.mia, at.admin)
    at.mia.picture(at.pictures / "desk_agent.png")
    at.admin.picture(at.pictures / "desk_admin.png")
    at.admin.click("[name=drop_cover]")
    until(lambda: at.mia.numbers() == mine and at.mia.bars() == {"mia": 3})
    at.admin.policy("tickets", "bad", "select", "mia", "opened = true")
    until(lambda: "bad query (10), why unknown column, place 0" in at.admin.toast())
    at.admin.click("[name=tickets_enable]")
    until(lambda: len(at.mia.numbers()) == len(at.noah.numbers()) == len(at.admin.numbers()) == 14)
    at.admin.click("[name=tickets_enable]")
    until(lambda: at.mia.numbers() == mine and len(at.noah.numbers()) == 5)


def test_dark_and_narrow(at: Windows) -> None:
    """On a phone at night: no text on its own color, nothing wider than the window."""
    device = {"width": 390, "height": 844, "deviceScaleFactor": 1, "mobile": True}
    at.mia.execute_cdp_cmd("Emulation.setDeviceMetricsOverride", device)
    at.mia.execute_cdp_cmd("Emulation.setEmulatedMedia", {"features": [{"name": "prefers-color-scheme", "value": "dark"}]})
    until(lambda: at.mia.execute_script("return window.innerWidth === 390 && document.documentElement.scrollWidth <= window.innerWidth"))
    until(lambda: at.mia.execute_script("return matchMedia('(prefers-color-scheme: dark)').matches"))
    calm(at.mia)
    colors = at.mia.execute_script("""return ['body', 'section', 'button', 'button.main', 'input.long', 'select', '.pill', '.pill.open', '.state'].map((at) => {
        const node = document.querySelector('#desk ' + at) ?? document.querySelector(at), style = getComputedStyle(node);
        let under = node;
        while (getComputedStyle(under).backgroundColor === 'rgba(0, 0, 0, 0)') under = under.parentElement;
        return [at, style.color, getComputedStyle(under).backgroundColor]})""")
    for place, ink, back in colors:
        assert contrast(ink, back) > 4.5, (place, ink, back)
    at.mia.picture(at.pictures / "desk_phone.png")
    at.mia.execute_cdp_cmd("Emulation.clearDeviceMetricsOverride", {})


def test_revokes(at: Windows) -> None:
    mine = at.mia.numbers()
    at.admin.rights("revoke", "tickets", "noah", "select")
    until(lambda: at.noah.numbers() == [] and at.noah.bars() == {} and "was taken back" in at.noah.css("#none").text)
    assert at.mia.numbers() == mine
    at.admin.rights("grant", "tickets", "noah", "select")
    until(lambda: len(at.noah.numbers()) == 5 and at.noah.bars() == {"noah": 5} and not at.noah.css("#none").is_displayed())


def test_members(at: Windows) -> None:
    """A member has what its role has, in its window at once, and loses it when the membership ends."""
    olga = Desk(at.driver, at.url, "olga-demo")
    until(lambda: "You may not read tickets" in olga.css("#none").text and olga.numbers() == [])
    at.admin.member("olga", "noah")
    until(lambda: olga.numbers() == [105, 111] and olga.bars() == {"olga": 2} and not olga.css("#none").is_displayed())
    until(lambda: "olga is a member of noah" in at.admin.css("#members").text)
    at.admin.member("noah", "olga")
    until(lambda: "membership loop (23)" in at.admin.toast())
    at.admin.member("noah", "lena")  # who owns the table, so that its policies do not bind them
    until(lambda: olga.numbers() == at.noah.numbers() == at.admin.numbers() and len(olga.numbers()) == 14)
    at.admin.click("[name=end_noah_of_lena]")
    until(lambda: olga.numbers() == [105, 111] and len(at.noah.numbers()) == 5)
    at.admin.click("[name=end_olga_of_noah]")
    until(lambda: olga.numbers() == [] and olga.bars() == {} and "was taken back" in olga.css("#none").text)
    until(lambda: at.admin.css("#members").text == "" and len(at.noah.numbers()) == 5)
    olga.close()


def test_forged(at: Windows) -> None:
    for session in range(1, 8):
        got = at.mia.say({"do": "grant", "on": "tickets", "privileges": ["delete"], "to": "mia", "session": session})
        assert got == {"error": 2, "key": "session", "why": "unknown"}, (f"the session {session}", got)
    assert at.mia.say({"do": "grant", "on": "tickets", "privileges": ["delete"], "to": "mia"}) == {"error": 12, "on": "tickets"}
    assert at.mia.say({"do": "begin", "role": "admin"}) == at.mia.say({"do": "finish"}) == {"error": 2, "key": "do", "why": "wrong"}


def test_odd_rows(at: Windows) -> None:
    subject = "<b>bold</b> & \"quotes\" \\ 12345678901234567890"
    before = set(at.mia.numbers())
    at.mia.add("mia", subject)
    until(lambda: len(at.mia.numbers()) == len(before) + 1)
    [added] = set(at.mia.numbers()) - before
    until(lambda: at.mia.tickets()[added] == at.admin.tickets()[added] == ("mia", subject, "open"))
    at.admin.execute_script("""window.viewd.db.request({do: 'write', entries: [9223372036854775807n, -9223372036854775808n].map(
        (id) => ({on: 'tickets', insert: [id, 'mia', 'a long number', true], copies: 9007199254740993n}))})""")
    until(lambda: {GREATEST, -GREATEST - 1} <= set(at.mia.numbers()))
    assert at.mia.tickets()[GREATEST][1] == "a long number (×9007199254740993)"
    at.admin.say({"do": "write", "entries": [{"on": "tickets", "insert": [77, "mia", "\u00001", True]}]})  # no text of viewd's, and no number
    at.mia.press(f"[aria-label='Close ticket {GREATEST}']", Keys.ENTER)
    until(lambda: at.admin.tickets()[GREATEST][2] == "closed")
    assert 77 not in at.admin.tickets()


def test_links(at: Windows) -> None:
    """A further link in the same tab is followed, and no token stays in the address."""
    desk = Desk(at.driver, at.url, "olga-demo")
    until(lambda: desk.css("#role").text == "olga" and desk.state() == "live")
    desk.get(f"{at.url}#token=noah-demo")
    until(lambda: desk.css("#role").text == "noah" and desk.numbers() == at.noah.numbers())
    assert desk.current_url == at.url and at.noah.state() == "live"
    desk.close()


def test_what_throws_in_a_page(at: Windows) -> None:
    """Each promise is that of its own request, whatever a listener does meanwhile, and the page is told what it has thrown."""
    at.console += at.log()
    got = at.mia.execute_async_script("""const done = arguments[0], db = window.viewd.db, row = (at) => [5000 + at, "mia", "thrown", true];
        const live = db.live("tickets", () => { throw new Error("thrown by a test"); });
        const asked = [...Array(30).keys()].map((at) => db.request({do: "write", entries: [{on: "tickets", [at % 3 ? "insert" : "delete"]: row(at)}]}).then(
            (reply) => [at, reply.ok], (why) => [at, why.reply?.error ?? why.message]));
        Promise.all(asked).then((found) => {
          db.close(live);
          done(found);
        })""")
    assert got == [[at, True if at % 3 else 13] for at in range(30)]  # she may take none away
    until(lambda: {5001, 5029} <= {*at.mia.numbers()})
    said = at.log()
    assert any("thrown by a test" in it["message"] for it in said)
    at.console += [it for it in said if "thrown by a test" not in it["message"]]
    at.admin.execute_script("""window.viewd.db.request({do: "write", entries: [...Array(30).keys()].filter((at) => at % 3).map(
        (at) => ({on: "tickets", delete: [5000 + at, "mia", "thrown", true]}))})""")
    until(lambda: 5001 not in at.mia.numbers())


def test_silence(at: Windows) -> None:
    """A gateway that is silent for longer than a page waits is left, and tried again."""
    states = at.mia.execute_async_script("""const done = arguments[0], states = [];
        import("./viewd.js").then(({Viewd}) => new Viewd(location.href.replace(/^http/, "ws") + "live", "mia-demo", {silence: 2000, onState: (state, more) => {
          states.push(more ? `${state}: ${more}` : state);
          if (states.length === 5) done(states);
        }}))""")
    assert states == ["connecting", "live", "waiting: The gateway is silent.", "connecting", "live"]


def test_kills(at: Windows) -> None:
    before = {desk: desk.tickets() for desk in (at.admin, at.mia, at.noah)}
    rights = at.admin.rights_shown()
    at.gate.kill()
    until(lambda: all("not connected" in desk.state() or desk.state() == "connecting" for desk in before))
    until(lambda: "not connected" in at.mia.state())
    until(lambda: "stale" in at.mia.css("main").get_attribute("class"))
    assert at.mia.tickets() == before[at.mia]
    assert "not sent" in at.mia.say({"do": "subscribe", "on": "tickets"})["lost"]
    at.gate.start()
    until(lambda: all(desk.state() == "live" and desk.tickets() == rows for desk, rows in before.items()))
    until(lambda: at.admin.rights_shown() == rights)
    at.admin.add("mia", "After the crash")
    until(lambda: "After the crash" in [row[1] for row in at.mia.tickets().values()])


def test_no_errors(at: Windows) -> None:
    wrong = [it for it in [*at.console, *at.log()] if it["level"] == "SEVERE" and "WebSocket" not in it["message"]]
    assert not wrong, wrong
