#!/usr/bin/python3
"""The examples of clients/js in a headless Chromium, over a gateway that runs: rows that change, a gateway that stands still, a listener
that throws, and the hook for React.

REACT names a folder with react and react-dom in place of Debian's."""
import os
import pathlib
import shutil
import signal
import sys
import tempfile
import time

sys.path[:0] = [str(pathlib.Path(__file__).resolve().parents[1] / it) for it in ("python", "python/test")]

from selenium import webdriver  # noqa: E402
from selenium.common.exceptions import NoAlertPresentException  # noqa: E402
from selenium.webdriver.common.alert import Alert  # noqa: E402

from conftest import BASE, IS_BUILT, PATIENCE, TOP, Gateway, browser  # noqa: E402
from viewd import plain  # noqa: E402

TABLE = {"do": "create_table", "name": "tickets", "owner": "ann", "columns": [["id", "int"], ["agent", "text"], ["subject", "text"], ["open", "flag"]]}
SEEN = "return [...document.querySelectorAll('tbody tr')].map((row) => [...row.cells].map((it) => it.textContent).join(' '))"
STATE = "return document.querySelector('[role=status]').textContent"
# a thousand rows, of which others change one; each time is from the message to the rows that are drawn
CHANGES = """
const done = arguments[arguments.length - 1];
(async () => {
  const {connect} = await import("/viewd.js");
  const faults = [];
  addEventListener("error", (event) => { faults.push(event.message); event.preventDefault(); });
  const db = connect("/live", {token: "mia-demo"}), live = db.live("tickets", {order: "subject"});
  const body = document.createElement("table"), times = [];
  const lines = new WeakMap();
  let drawn = [];
  const line = (row) => {
    const made = document.createElement("tr");
    made.insertCell().textContent = row.id;
    made.insertCell().textContent = row.subject;
    lines.set(row, made);
    return made;
  };
  body.createTBody();
  document.body.append(body);
  live.subscribe(() => { throw new Error("a listener"); });
  live.subscribe(() => {
    const began = performance.now();
    // a row that stays is the same object, so its line stays too
    const wanted = live.rows.map((row) => lines.get(row) ?? line(row));
    for (const it of drawn) wanted.includes(it) || it.remove();
    wanted.forEach((it, at) => it === body.rows[at] || body.tBodies[0].insertBefore(it, body.rows[at] ?? null));
    drawn = wanted;
    body.getBoundingClientRect();
    times.push(performance.now() - began);
  });
  await live.ready;
  for (let at = 0; at < 30; at++) await db.update("tickets", live.rows[at], {subject: `Changed ${at}`});
  const [rows, cells] = [live.rows.length, body.rows.length];
  db.end();
  done([rows, cells, faults.length > 30, times.slice(1).sort((a, b) => a - b)[15]]);
})();
"""
# a component that names the tickets of a state; the state turns, and then it goes
REACT_PAGE = """
const done = arguments[arguments.length - 1];
(async () => {
  for (const name of ["react", "react-dom"]) {
    await new Promise((loaded) => document.head.append(Object.assign(document.createElement("script"), {src: `/umd/${name}.js`, onload: loaded})));
  }
  const said = [], send = WebSocket.prototype.send;
  WebSocket.prototype.send = function (data) { said.push(data); send.call(this, data); };
  const [{connect}, {makeUseLive}] = await Promise.all([import("/viewd.js"), import("/examples/react.js")]);
  const useLive = makeUseLive(React), db = connect("/live", {token: "mia-demo"}), root = ReactDOM.createRoot(document.body);
  const Names = ({open}) => {
    const {rows, total, state} = useLive(db, "tickets", {where: {open}, order: "-id", limit: 2});
    return React.createElement("p", null, `${state} ${total} ${rows.map((it) => it.id)}`);
  };
  const show = (open) => root.render(React.createElement(React.StrictMode, null, React.createElement(Names, {open})));
  const until = async (words) => {
    for (let tries = 0; document.body.textContent !== words; tries++) {
      if (tries > 20_000) throw new Error(`${document.body.textContent} in place of ${words}`);
      await new Promise((later) => setTimeout(later, 20));
    }
  };
  show(true);
  await until("live 1000 9223372036854775807,1097");
  await db.insert("tickets", {id: 2000, agent: "mia", subject: "One more", open: true});
  await until("live 1001 9223372036854775807,2000");
  show(false);
  await until("live 1 8");
  root.unmount();
  for (let tries = 0; tries < 20_000 && !said.at(-1).includes("unsubscribe"); tries++) await new Promise((later) => setTimeout(later, 20));
  const [asked, back] = ["subscribe", "unsubscribe"].map((word) => said.filter((it) => it.includes(`"${word}"`)).length);
  db.end();
  return asked > 0 && asked === back ? "" : `${asked} subscribes, ${back} given back`;
})().then(done, (why) => done(String(why)));
"""
REACT = pathlib.Path(os.environ.get("REACT", "/usr/share/nodejs"))
UMD = {name: REACT / f"{name}/umd/{name}.development.js" for name in ("react", "react-dom")}


def eventually(holds, patience: float = PATIENCE) -> float:
    """How long it took."""
    began = time.monotonic()
    while not holds():
        assert time.monotonic() < began + patience, "it did not come"
        time.sleep(0.05)
    return time.monotonic() - began


def asks(driver: webdriver.Chrome) -> bool:
    """Whether the page asks for a token."""
    try:
        return bool(Alert(driver).text)
    except NoAlertPresentException:
        return False


def tried(driver: webdriver.Chrome, gateway: Gateway) -> None:
    with plain.connect(gateway.url, token="admin-demo") as admin:
        for it in (*BASE, TABLE, {"do": "grant", "on": "tickets", "privileges": ["select", "insert", "update", "delete"], "to": "mia"}):
            admin.request(it)
        admin.insert("tickets", [7, "mia", "<b>Router</b>", True])
        driver.get(f"http://127.0.0.1:{gateway.port}/examples/tickets.html")
        eventually(lambda: asks(driver))
        Alert(driver).send_keys("mia-demo")
        Alert(driver).accept()
        eventually(lambda: driver.execute_script(SEEN) == ["7 <b>Router</b>"])
        assert driver.execute_script(STATE) == "live"
        admin.write([{"on": "tickets", "insert": [2 ** 63 - 1, "mia", "Late", True]}, {"on": "tickets", "insert": [8, "mia", "Closed", False]}])
        eventually(lambda: driver.execute_script(SEEN) == ["9223372036854775807 Late", "7 <b>Router</b>"])
        print("ok  a page shows rows as they change")
        gateway.signal(signal.SIGSTOP)
        took = eventually(lambda: driver.execute_script(STATE) == "stale")
        assert len(driver.execute_script(SEEN)) == 2
        gateway.signal(signal.SIGCONT)
        eventually(lambda: driver.execute_script(STATE) == "live")
        print(f"ok  a gateway that stands still is told of within {took:.0f} s")
    with plain.connect(gateway.url, token="admin-demo") as admin:
        admin.write([{"on": "tickets", "insert": [at, "mia", f"Ticket {at}", True]} for at in range(100, 1098)])
        rows, cells, has_faults, middle = driver.execute_async_script(CHANGES)
        assert (rows, cells, has_faults) == (1001, 1001, True), (rows, cells, has_faults)
        print(f"ok  a change of a thousand rows is drawn in {middle:.1f} ms, beside a listener that throws")
    if not all(it.exists() for it in UMD.values()):
        print("the hook for React did not run, since node-react and node-react-dom are not installed")
        print("browser: 3")
        return
    driver.get(f"http://127.0.0.1:{gateway.port}/examples/react.js")
    why = driver.execute_async_script(REACT_PAGE)
    assert not why, why
    print("ok  a hook for React shows rows as they change, and gives them back")
    print("browser: 4")


def main() -> int:
    if not IS_BUILT:
        print("the pages in a browser did not run, since no gateway is built")
        return 0
    with tempfile.TemporaryDirectory(prefix="clients.") as name:
        pages = pathlib.Path(name) / "pages"
        shutil.copytree(TOP / "clients/js", pages)
        (pages / "umd").mkdir()
        for it, file in UMD.items():
            if file.exists():
                shutil.copy(file, pages / f"umd/{it}.js")
        gateway = Gateway(pathlib.Path(name), "--pages", str(pages))
        try:
            driver = browser()
            try:
                tried(driver, gateway)
            finally:
                driver.quit()
        finally:
            gateway.kill()
    return 0


if __name__ == "__main__":
    sys.exit(main())
