"""Which file of the repository lies where once it is installed, and the pages of the manual."""
import gzip
import pathlib
import re
import subprocess

from archives import PROGRAM, TEXT, put
from manual import Page, chapter

TOP = pathlib.Path(__file__).resolve().parent.parent
# folders and files: what is copied, and to where. A pattern of a folder goes with the folders below it
COPIED = [
    ("clients/python/viewd/*.py", "usr/lib/python3/dist-packages/viewd"),
    ("clients/python/viewd/py.typed", "usr/lib/python3/dist-packages/viewd"),
    ("clients/js/*.js", "usr/share/viewd/clients/js"),
    ("clients/js/viewd.d.ts", "usr/share/viewd/clients/js"),
    ("clients/js/package.json", "usr/share/viewd/clients/js"),
    ("clients/js/examples/*", "usr/share/viewd/clients/js/examples"),
    ("clients/examples/*/*", "usr/share/viewd/clients/examples"),
    ("docs/*", "usr/share/doc/viewd/docs"),
    ("*.md", "usr/share/doc/viewd"),
    ("examples/*.jsonl", "usr/share/doc/viewd/examples"),
    ("examples/README.md", "usr/share/doc/viewd/examples"),
    ("packaging/viewd-gateway.service", "usr/lib/systemd/system"),
    ("packaging/Containerfile", "usr/share/doc/viewd/examples"),
]
SETTINGS = {"packaging/tokens.toml": ("etc/viewd/tokens.toml", 0o640), "packaging/viewd-gateway.default": ("etc/default/viewd-gateway", TEXT)}
CLIENT = """#!/usr/bin/python3
import os
import sys

sys.path.insert(0, os.path.join(os.path.dirname(os.path.realpath(__file__)), "../lib/python3/dist-packages"))
from viewd.command import main

sys.exit(main())
"""
COMPACT = """#!/bin/sh
# writes a journal anew while no gateway writes it: viewd-compact [--rows N] JOURNAL
here=$(dirname "$(readlink -f "$0")")
exec /usr/bin/python3 "$here/../lib/viewd/frontend/compact.py" "$@" "$here/viewd"
"""
KEEPER = """#!/bin/sh
# has a gateway follow the journal of another one: viewd-keeper --help
exec /usr/bin/python3 "$(dirname "$(readlink -f "$0")")/../lib/viewd/frontend/keeper.py" "$@"
"""
REDIS_LOG = """#!/bin/sh
# has gateways on several machines serve one log in Redis: viewd-redis-log --help
exec /usr/bin/python3 "$(dirname "$(readlink -f "$0")")/../lib/viewd/frontend/redis_log.py" "$@"
"""
POSTGRESQL = """#!/bin/sh
# viewd beside a PostgreSQL: viewd-postgresql --help
for module in psycopg2 pglast; do
  /usr/bin/python3 -c "import $module" 2>/dev/null || { echo "viewd-postgresql: apt-get install -y python3-$module" >&2; exit 2; }
done
exec /usr/bin/python3 "$(dirname "$(readlink -f "$0")")/../lib/viewd/postgresql/program.py" "$@"
"""
# programs in Python; what is beside them that they import comes with them
PROGRAMS = ["frontend/compact.py", "frontend/keeper.py", "frontend/redis_log.py", "postgresql/program.py"]


def with_modules(path: pathlib.Path) -> list[pathlib.Path]:
    """A program in Python, and the modules beside it that it imports."""
    found = [path]
    for it in found:
        names = re.findall(r"(?m)^ *(?:from|import) (\w+)", it.read_text())
        beside = [path.with_name(f"{name}.py") for name in names]
        found += dict.fromkeys(other for other in beside if other.exists() and other not in found)
    return found


def copied(root: pathlib.Path) -> None:
    for pattern, place in COPIED:
        depth = pattern.count("*/")
        found = sorted(it for it in TOP.glob(pattern) if it.is_file() and not it.name.startswith("test_"))
        if not found:
            raise ValueError(f"{pattern} is nothing")
        for it in found:
            put(root, "/".join([place, *it.parts[-1 - depth:]]), it.read_bytes())
    for program in PROGRAMS:
        for it in with_modules(TOP / program):
            put(root, f"usr/lib/viewd/{it.relative_to(TOP)}", it.read_bytes())
    for name, (place, mode) in SETTINGS.items():
        put(root, place, (TOP / name).read_bytes(), mode)
    put(root, "usr/bin/viewd-client", CLIENT.encode(), PROGRAM)
    put(root, "usr/bin/viewd-compact", COMPACT.encode(), PROGRAM)
    put(root, "usr/bin/viewd-keeper", KEEPER.encode(), PROGRAM)
    put(root, "usr/bin/viewd-redis-log", REDIS_LOG.encode(), PROGRAM)
    put(root, "usr/bin/viewd-postgresql", POSTGRESQL.encode(), PROGRAM)


def said(program: pathlib.Path | str, *words: str) -> str:
    """What a program answers, at a width of its own."""
    env = {"PATH": "/usr/bin:/bin", "COLUMNS": "100", "LC_ALL": "C.UTF-8"}
    return subprocess.run([program, *words], check=True, capture_output=True, text=True, env=env).stdout


def pages(viewd: pathlib.Path, gateway: pathlib.Path) -> list[Page]:
    document = {it.stem: it.read_text() for it in (TOP / "docs").glob("*.md")}
    operating = document["OPERATING"]
    before = operating.split("\n## ")[0].partition("\n\n")[2]
    also = ["`/usr/share/doc/viewd/docs`"]
    return [
        Page("viewd", 1, "views with row security, as lines", [said(viewd, "--help"), said(viewd, "replay", "--help"), said(viewd, "serve", "--help")],
             [("know first", before), ("how the program ends", chapter(document["PROTOCOL"], "How the program ends"))],
             ["`viewd-gateway`(8)", "`viewd-client`(1)", *also]),
        Page("viewd-gateway", 8, "views with row security for clients by WebSocket, with a journal", [said(gateway, "--help")],
             [("description", chapter(operating, "The gateway as a program")), ("the journal", chapter(operating, "The journal"))],
             ["`viewd`(1)", "`viewd-client`(1)", *also]),
        Page("viewd-client", 1, "asks, follows and writes relations of a gateway", [said(TOP / "clients/python/viewd-client", "--help")],
             [("description", chapter(document["CLIENTS"], "The command line")), ("what may happen", chapter(document["CLIENTS"], "What may happen"))],
             ["`viewd-gateway`(8)", *also]),
        Page("viewd-keeper", 1, "has a gateway follow the journal of another one", [said(TOP / "frontend/keeper.py", "--help")],
             [("what it says", chapter(document["LOG"], "Lines")), ("steps", chapter(document["LOG"], "Steps"))], ["`viewd-gateway`(8)", *also]),
        Page("viewd-redis-log", 1, "has gateways on several machines serve one log in Redis", [said(TOP / "frontend/redis_log.py", "--help")],
             [(heading.lower(), chapter(operating, heading)) for heading in ("What happens when a part dies", "What is promised", "What is not")],
             ["`viewd-gateway`(8)", "`viewd-keeper`(1)", *also]),
        Page("viewd-postgresql", 1, "viewd beside a PostgreSQL that stays as it is", [said(TOP / "viewd-postgresql", "--help")],
             [("run", chapter(document["POSTGRESQL"], "Run")), ("what is refused", chapter(document["POSTGRESQL"], "What is refused"))],
             ["`viewd-gateway`(8)", *also])]


def staged(root: pathlib.Path, viewd: pathlib.Path, gateway: pathlib.Path, version: str, date: str) -> None:
    """All that is installed, but for PROVED and the notices of licences."""
    copied(root)
    put(root, "usr/bin/viewd", viewd.read_bytes(), PROGRAM)
    put(root, "usr/bin/viewd-gateway", gateway.read_bytes(), PROGRAM)
    for page in pages(viewd, gateway):
        text = gzip.compress(page.text(date, version).encode(), mtime=0)
        put(root, f"usr/share/man/man{page.section}/{page.name}.{page.section}.gz", text)
