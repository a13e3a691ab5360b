"""The desk in Chromium: what a person does with it, by mouse and by keyboard alone, on a phone, in the dark, with many tickets, and as rights change."""
import pathlib
import sys
import time

import pytest

HERE = pathlib.Path(__file__).resolve().parent
TOP = HERE.parents[2]
sys.path.insert(0, str(TOP / "clients/python/test"))

import viewd  # noqa: E402
from conftest import IS_BUILT, PATIENCE, Gateway, browser, has_browser  # noqa: E402

if not has_browser():
    pytest.skip("no Chromium is here", allow_module_level=True)
from selenium.common.exceptions import StaleElementReferenceException  # noqa: E402
from selenium.webdriver.common.keys import Keys  # noqa: E402

ROLES = ("admin", "lena", "mia", "noah", "olga")
# the contrast of two colours (WCAG 2, 1.4.3 and 1.4.11)
CONTRAST = """
const parts = (text) => text.match(/[\\d.]+/g).slice(0, 3).map(Number);
const light = (text) => parts(text).map((it) => it / 255).map((it) => it <= 0.04045 ? it / 12.92 : ((it + 0.055) / 1.055) ** 2.4)
  .reduce((sum, it, at) => sum + it * [0.2126, 0.7152, 0.0722][at], 0);
const contrast = (one, other) => { const [a, b] = [light(one), light(other)].sort((x, y) => y - x); return (a + 0.05) / (b + 0.05); };
const back = getComputedStyle(document.body).backgroundColor, found = [];
for (const node of document.querySelectorAll("input:not([type=checkbox]), #undo, nav button, form > button")) {
  const style = getComputedStyle(node);
  found.push([`border of ${node.name || node.id || node.textContent}`, contrast(style.borderTopColor, back), 3]);
  found.push([`text of ${node.name || node.id || node.textContent}`, contrast(style.color, style.backgroundColor), 4.5]);
}
for (const node of document.querySelectorAll("[placeholder]")) found.push(["placeholder", contrast(getComputedStyle(node, "::placeholder").color, back), 4.5]);
for (const node of document.querySelectorAll("p, caption, td, h2, summary, .why")) found.push([node.id || node.tagName, contrast(getComputedStyle(node).color, back), 4.5]);
return found.filter(([, is, wanted]) => is < wanted);
"""

@pytest.fixture(scope="module")
def gateway(tmp_path_factory):
    if not IS_BUILT:
        pytest.skip("no gateway is built")
    folder = tmp_path_factory.mktemp("desk")
    gateway = Gateway(folder, "--seed", str(HERE / "seed.jsonl"), "--pages", str(TOP / "clients"), roles=ROLES)
    try:
        yield gateway
    finally:
        gateway.kill()


@pytest.fixture
def lena(gateway):
    with viewd.plain.connect(gateway.url, token="lena-demo") as lena:
        yield lena


class Page:
    """The desk as a role sees it."""

    def __init__(self, gateway, driver):
        self.driver = driver
        self.url = f"http://127.0.0.1:{gateway.port}/examples/desk/index.html"

    def enter(self, role):
        self.driver.get(self.url)
        self.driver.execute_script("sessionStorage.clear()")
        self.driver.get(self.url)
        until(lambda: self.css("#door input").is_displayed())
        self.type("#door input", f"{role}-demo\n")
        return self

    def css(self, words):
        return self.driver.find_element("css selector", words)

    def text(self, words):
        return self.js("return document.querySelector(arguments[0]).textContent", words)

    def js(self, code, *words):
        return self.driver.execute_script(code, *words)

    def type(self, place, words):
        self.css(place).send_keys(words)

    def replace(self, place, words):
        self.css(place).clear()
        self.type(place, words)

    def rows(self):
        return self.js("return [...document.querySelectorAll('#tickets tbody tr')].map((it) => [...it.cells].slice(0, 4).map((it) => it.textContent).join(' '))")

    def numbers(self):
        return [int(it.split()[0]) for it in self.rows()]

    def shows(self, *numbers):
        return until(lambda: self.numbers() == [*numbers])

    def press(self, *keys):
        """Keys, wherever the keyboard is."""
        for it in keys:
            self.driver.switch_to.active_element.send_keys(it)


def until(holds, patience=PATIENCE):
    end = time.monotonic() + patience
    while True:
        try:
            if found := holds():
                return found
        except (StaleElementReferenceException, LookupError):  # it is made anew meanwhile
            pass
        assert time.monotonic() < end, "it did not come"
        time.sleep(0.05)


@pytest.fixture(scope="module")
def driver():
    """One browser for all tests."""
    driver = browser("--window-size=1200,900")
    try:
        yield driver
    finally:
        driver.quit()


@pytest.fixture
def page(gateway, driver):
    """A window of its own, with nothing of the one before it."""
    before = driver.current_window_handle
    driver.switch_to.new_window("window")
    driver.set_window_size(1200, 900)
    try:
        yield Page(gateway, driver)
    finally:
        driver.close()
        driver.switch_to.window(before)


def test_a_ticket_comes_and_is_taken_back(page, lena):
    page.enter("mia")
    page.shows(102, 101)
    assert page.text("#state") == "live" and page.text("#who") == "signed in as mia" and page.text("#range") == "1 to 2 of 2"
    assert page.js("return document.querySelector('#new').elements.agent.value") == "mia"  # the reader's own name
    # two Enters make one ticket
    page.type("#new [name=subject]", "Door is open" + Keys.ENTER + Keys.ENTER)
    page.shows(106, 102, 101)
    assert page.text("#done [role=status]") == "Ticket 106 is there." and page.js("return document.querySelector('#new [name=subject]').value") == ""
    page.css("#undo").click()
    page.shows(102, 101)
    assert page.text("#done [role=status]") == "It was taken back." and not page.css("#undo").is_displayed()
    # the number was taken, so the next one is another; where somebody else is faster, the one behind it
    page.js("""
      const send = WebSocket.prototype.send;
      WebSocket.prototype.send = function (data) {
        if (!data.includes("ticket_numbers")) return send.call(this, data);
        WebSocket.prototype.send = send;
        window.held = () => send.call(this, data);
      };
    """)
    page.type("#new [name=subject]", "Door is open" + Keys.ENTER)
    until(lambda: page.js("return Boolean(window.held)"))
    lena.update("ticket_numbers", [107], [108])
    page.js("window.held()")
    page.shows(108, 102, 101)
    page.css("#undo").click()
    page.shows(102, 101)
    # a ticket is closed, and taken back
    page.css("[aria-label='Close ticket 102']").click()
    page.shows(101)
    assert page.text("#done [role=status]") == "Ticket 102 is closed."
    page.css("[name=closed]").click()
    page.shows(105, 102, 101)
    page.css("#undo").click()
    until(lambda: "102 mia Invoice has the wrong address open" in page.rows())


def test_what_is_refused_stands_beside_its_field(page, lena):
    page.enter("mia")
    page.shows(102, 101)
    page.replace("#new [name=agent]", "noah")
    page.type("#new [name=subject]", "For noah" + Keys.ENTER)
    until(lambda: page.text("#agent-why") == "You may not add a ticket for noah.")
    assert page.js("return [document.activeElement.name, document.activeElement.ariaInvalid, document.querySelector('#new [name=subject]').value]") == ["agent", "true", "For noah"]
    page.replace("#new [name=agent]", "mia")
    page.js("document.querySelector('#new [name=subject]').value = 'x'.repeat(1025)")
    page.type("#new [name=agent]", Keys.ENTER)
    until(lambda: page.text("#subject-why") == "This does not fit: a text has at most 1,024 bytes.")
    assert page.text("#agent-why") == ""
    # somebody may no longer change tickets: it is said, and the ticket stays
    lena.request({"do": "revoke", "on": "tickets", "privileges": ["update"], "to": "mia"})
    page.css("[aria-label='Close ticket 102']").click()
    until(lambda: page.text("#failed") == "You may not close ticket 102.")
    lena.request({"do": "grant", "on": "tickets", "privileges": ["update"], "to": "mia"})


def test_rights_that_change(page, lena):
    page.enter("olga")
    until(lambda: page.text("#notice") == "You may not read the tickets.")
    assert not page.css("#new").is_displayed() and not page.css("#workload").is_displayed()
    page.enter("mia")
    page.shows(102, 101)
    lena.request({"do": "revoke", "on": "tickets", "privileges": ["select"], "to": "mia"})
    until(lambda: page.text("#notice") == "You may no longer read the tickets.")
    assert page.rows() == [] and not page.css("#new").is_displayed()
    lena.request({"do": "grant", "on": "tickets", "privileges": ["select"], "to": "mia"})
    page.shows(102, 101)
    until(lambda: page.css("#new").is_displayed())
    page.css("#leave").click()
    until(lambda: page.css("#door").is_displayed())
    assert page.js("return [sessionStorage.token ?? null, location.href]") == [None, page.url]
    page.type("#door input", "nobody\n")
    until(lambda: page.text("#door-why") == "This token opens no role.")


def test_by_the_keyboard_alone(page):
    page.driver.get(page.url)
    until(lambda: page.css("#door").is_displayed())
    page.press("mia-demo", Keys.ENTER)
    page.shows(102, 101)
    until(lambda: page.css("#new").is_displayed())

    def go(words, key=Keys.TAB):
        for _ in range(40):
            page.press(key)
            if page.js("return document.activeElement.matches(arguments[0])", words):
                return
        raise AssertionError(f"the keyboard does not come to {words}")

    go("[name=words]")
    page.press("refund")
    page.shows(101)
    page.press(*[Keys.BACKSPACE] * 6)
    page.shows(102, 101)
    go("#tickets [name=subject]")
    page.press(Keys.ENTER)
    page.shows(102, 101)
    page.press(Keys.ENTER)
    page.shows(101, 102)
    assert page.js("return [...document.querySelectorAll('#tickets th')].map((it) => it.ariaSort)")[2] == "descending"
    go("[aria-label='Close ticket 101']")
    page.press(Keys.ENTER)
    page.shows(102)
    until(lambda: page.js("return document.activeElement.ariaLabel") == "Close ticket 102")  # the one in its place
    go("#undo")
    page.press(Keys.ENTER)
    page.shows(101, 102)
    go("#new [name=subject]")
    page.press("By keys", Keys.ENTER)
    until(lambda: page.text("#done [role=status]").endswith("is there."))
    go("#undo", Keys.SHIFT + Keys.TAB)
    page.press(Keys.ENTER)
    page.shows(101, 102)


def test_a_screen_reader_is_told(page, lena):
    page.enter("mia")
    page.shows(102, 101)
    assert page.js("return [...document.querySelectorAll('table')].every((it) => it.caption.textContent && [...it.tHead.rows[0].cells].every((it) => it.scope === 'col'))")
    assert page.js("return [...document.querySelectorAll('input')].every((it) => it.labels.length === 1) && document.documentElement.lang") == "en"
    assert page.css("#tickets tbody").aria_role == "rowgroup" and page.css("#tickets tbody tr").aria_role == "row"
    lena.insert("tickets", [900, "mia", "By others", True])
    until(lambda: page.text("#news") == "Tickets: 1 came.")
    lena.remove("tickets", [900, "mia", "By others", True])
    until(lambda: page.text("#news") == "Tickets: 1 went.")


def test_on_a_phone_and_in_the_dark(page):
    for scheme in ("light", "dark"):
        page.driver.execute_cdp_cmd("Emulation.setEmulatedMedia", {"features": [{"name": "prefers-color-scheme", "value": scheme}]})
        page.driver.execute_cdp_cmd("Emulation.setDeviceMetricsOverride", {"width": 320, "height": 640, "deviceScaleFactor": 1, "mobile": True})
        page.enter("mia")
        page.shows(102, 101)
        until(lambda: page.css("#new").is_displayed())
        page.js("document.querySelector('#undo').hidden = false; for (const it of document.querySelectorAll('.why')) it.textContent = 'why';")
        assert page.js(CONTRAST) == [], scheme
        assert page.js("return document.documentElement.scrollWidth") <= 320
        small = "return [...document.querySelectorAll('button, input:not([type=checkbox])')].filter((it) => it.offsetParent && it.offsetHeight < 44).map((it) => it.outerHTML)"
        assert page.js(small) == []
        assert page.js("return [...document.querySelectorAll('input')].every((it) => parseFloat(getComputedStyle(it).fontSize) >= 16)")  # else a phone zooms
        subject = "const it = document.querySelector('#tickets tbody td:nth-child(3)'); return [it.offsetWidth, it.offsetHeight]"
        width, height = page.js(subject)
        assert width > 200 and height < 80, (width, height)


def test_lines_of_the_protocol(page, lena):
    page.enter("mia")
    page.shows(102, 101)
    assert page.js("return document.querySelectorAll('#lines li').length") == 0
    page.css("#lines summary").click()
    lena.insert("tickets", [901, "mia", "By others", True])
    until(lambda: any("By others" in it for it in page.js("return [...document.querySelectorAll('#lines li')].map((it) => it.textContent)")))
    lena.remove("tickets", [901, "mia", "By others", True])
    page.shows(102, 101)
    assert "mia-demo" not in page.driver.page_source


@pytest.mark.parametrize("number, most", [(1000, 160), (20_000, 500)])
def test_many_tickets(page, lena, number, most):
    there = lena.rows("tickets", where=lambda it: it["subject"].startswith("Many"))
    for at in range(len(there), number, 500):
        lena.write([{"on": "tickets", "insert": [1000 + at + it, "mia", f"Many {at + it}", True]} for it in range(500)])
    page.enter("mia")
    until(lambda: page.text("#range") == f"1 to 50 of {number + 2:,}")
    assert len(page.numbers()) == 50 and page.numbers()[0] == 999 + number
    # a change by others: from its lines to the rows that are drawn
    page.js("""
      window.times = [];
      const parse = JSON.parse, body = document.querySelector("#tickets tbody");
      let began = 0;
      JSON.parse = (text, ...more) => {
        if (text.includes('"changes"')) began ||= performance.now();
        return parse(text, ...more);
      };
      new MutationObserver(() => {
        body.getBoundingClientRect();
        if (began) window.times.push(performance.now() - began);
        began = 0;
      }).observe(body, {childList: true});
    """)
    row = [999 + number, "mia", f"Many {number - 1}", True]
    for turn in range(20):
        after = [row[0], "mia", f"Many changes {turn}", True]
        lena.write([{"on": "tickets", "update": [row, after]}])
        row = after
        until(lambda: page.rows()[0].split(" ", 2)[2] == f"Many changes {turn} open")
    lena.write([{"on": "tickets", "update": [row, [999 + number, "mia", f"Many {number - 1}", True]]}])
    times = sorted(page.js("return window.times"))
    print(f"a change by others is drawn in {times[len(times) // 2]:.1f} ms at {number:,} rows")
    assert len(times) >= 15 and times[0] < most, times  # the quickest, as others may be at work
    page.css("#on").click()
    until(lambda: page.text("#range") == f"51 to 100 of {number + 2:,}" and page.numbers()[0] == 949 + number)
    word = str(number - 100)
    page.type("[name=words]", f"MANY {word}")
    page.shows(*(it for it in range(999 + number, 999, -1) if word in f"{it} {it - 1000}"))
    page.css("[name=words]").clear()
    page.type("[name=words]", "refund")
    page.shows(101)
