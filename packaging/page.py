"""A page in a headless Chromium, by its own protocol for debuggers: it needs no driver."""
import asyncio
import contextlib
import json
import pathlib
import re
import shutil
import subprocess
import tempfile
import time
import urllib.request
from collections.abc import AsyncIterator, Awaitable, Callable
from typing import Any

import websockets

WORDS = ["--headless=new", "--no-sandbox", "--disable-gpu", "--disable-dev-shm-usage", "--no-first-run"]
WORDS += ["--remote-debugging-port=0", "--remote-allow-origins=*"]
Ask = Callable[[str], Awaitable[Any]]


def has_browser() -> bool:
    return bool(shutil.which("chromium"))


def port_of(process: "subprocess.Popen[bytes]", log: pathlib.Path, patience: float) -> str:
    end = time.monotonic() + patience
    while not (found := re.search(r"listening on ws://([\d.:]+)/", log.read_text())):
        if process.poll() is not None or time.monotonic() > end:
            raise OSError(f"Chromium does not start here: {log.read_text()[-500:]}")
        time.sleep(0.1)
    return found[1]


@contextlib.asynccontextmanager
async def opened(url: str, patience: float) -> AsyncIterator[Ask]:
    """A page that is open, and what asks it for the value of an expression."""
    with tempfile.TemporaryDirectory(prefix="page.", ignore_cleanup_errors=True) as folder:
        log = pathlib.Path(folder) / "log"
        with log.open("wb") as out:
            process = subprocess.Popen(["chromium", *WORDS, f"--user-data-dir={folder}/user", "about:blank"], stdin=subprocess.DEVNULL, stdout=out, stderr=out)
        try:
            ask_for = urllib.request.Request(f"http://{port_of(process, log, patience)}/json/new?{url}", method="PUT")
            direct = urllib.request.build_opener(urllib.request.ProxyHandler({}))
            with direct.open(ask_for, timeout=patience) as answer:
                page = json.load(answer)["webSocketDebuggerUrl"]
            async with websockets.connect(page, max_size=None, ping_interval=None) as socket:  # type: ignore[attr-defined]
                async def ask(expression: str) -> Any:
                    how = {"expression": expression, "returnByValue": True}
                    await socket.send(json.dumps({"id": 1, "method": "Runtime.evaluate", "params": how}))
                    while "id" not in (said := json.loads(await asyncio.wait_for(socket.recv(), patience))):
                        pass
                    return said.get("result", {}).get("result", {}).get("value")
                yield ask
        finally:
            process.kill()
            process.wait()


async def until(ask: Ask, expression: str, patience: float) -> None:
    """Waits until an expression of the page is true."""
    end = time.monotonic() + patience
    while not await ask(expression):
        if time.monotonic() > end:
            raise TimeoutError(f"it does not come: {expression}: {await ask('document.body.textContent')}")
        await asyncio.sleep(0.1)
