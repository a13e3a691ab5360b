#!/usr/bin/python3
"""Runs the blocks of docs/CLIENTS.md over the gateway of clients/test/gateway: each prints what the block behind it says."""
import os
import pathlib
import re
import shutil
import subprocess
import sys
import tempfile
import time
import urllib.request

from ports import free_port

TOP = pathlib.Path(__file__).resolve().parents[2]
GATEWAY = TOP / "clients/test/gateway"
PAGE = TOP / "docs/CLIENTS.md"
PATIENCE = 600.0  # seconds for anything that has to come: a slow machine fails no test
START = re.compile(r"(?m)^\./gateway --pages ")
BLOCK = re.compile(r"```(\w+) run\n(.*?)```\n(?:```text\n(.*?)```\n)?", re.DOTALL)


# what the block of JavaScript leaves, as the blocks behind it print it
WITHOUT_NODE = """
from viewd import plain
with plain.connect("ws://127.0.0.1:8080/live", token="mia-demo") as db:
    db.insert("tickets", {"id": 201, "agent": "mia", "subject": "Door is open", "open": False})
"""


def has_node() -> bool:
    """Whether there is one that the client runs in."""
    if not shutil.which("node"):
        return False
    said = subprocess.run(["node", "--version"], stdout=subprocess.PIPE, text=True).stdout
    return bool(found := re.match(r"v(\d+)", said)) and int(found[1]) >= 20


def answers(port: int) -> bool:
    try:
        urllib.request.urlopen(f"http://127.0.0.1:{port}/readyz", timeout=PATIENCE).close()
        return True
    except OSError:
        return False


def words_of(kind: str, code: str, folder: pathlib.Path) -> list[str]:
    if kind == "sh":
        return ["sh", "-euc", code]
    if kind == "python":
        return ["/usr/bin/python3", "-c", code]
    file = folder / "block.mjs"
    file.write_text(code)
    socket_of_tests = (TOP / "clients/js/test/socket.js").as_uri()
    (folder / "global.mjs").write_text(f'import {{Socket}} from "{socket_of_tests}";\nglobalThis.WebSocket ??= Socket;\n')
    return ["node", "--import", (folder / "global.mjs").as_uri(), str(file)]


def main() -> int:
    if not subprocess.run([GATEWAY, "--which"], stdout=subprocess.PIPE, check=True).stdout.strip():
        print("the blocks of docs/CLIENTS.md did not run, since no gateway is built")
        return 0
    blocks, port, passed, failed = BLOCK.findall(PAGE.read_text()), free_port(), 0, 0
    with tempfile.TemporaryDirectory(prefix="clients.") as name:
        folder = pathlib.Path(name)
        (folder / "node_modules").mkdir()
        (folder / "node_modules/viewd").symlink_to(TOP / "clients/js")
        env = {**os.environ, "PYTHONPATH": str(TOP / "clients/python"), "PATH": f"{TOP}/clients/python:{os.environ['PATH']}", "PYTHONDONTWRITEBYTECODE": "1"}
        (_, setup, _), *rest = blocks
        setup, starts = START.subn(f"exec {GATEWAY} --port {port} --pages ", setup.replace("/tmp/desk", name))
        assert starts == 1 and len(rest) >= 4
        gateway = subprocess.Popen(["sh", "-euc", setup], cwd=TOP, stderr=subprocess.DEVNULL)
        try:
            end = time.monotonic() + PATIENCE
            while not answers(port):
                assert gateway.poll() is None and time.monotonic() < end, "the gateway of the page does not start"
                time.sleep(0.02)
            for kind, code, wanted in rest:
                if is_passed_over := kind == "js" and not has_node():
                    print("the block of JavaScript did not run, since node (20 or newer) is not installed")
                    kind, code, wanted = "python", WITHOUT_NODE, ""
                ran = subprocess.run(words_of(kind, code.replace(":8080", f":{port}"), folder), cwd=folder, env=env, timeout=PATIENCE,
                                     stdout=subprocess.PIPE, stderr=subprocess.PIPE, text=True)
                is_well = ran.returncode == 0 and ran.stdout == wanted
                passed, failed = passed + (is_well and not is_passed_over), failed + (not is_well)
                print(f"{'ok ' if is_well else 'FAILED'} a block of {kind}" + ("" if is_well else f", status {ran.returncode}, printed\n{ran.stdout}{ran.stderr}"))
        finally:
            gateway.kill()
            gateway.wait()
    print(f"blocks: {passed}")
    return 0 if passed and not failed else 1


if __name__ == "__main__":
    sys.exit(main())
