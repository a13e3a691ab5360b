"""A viewd that is told a database's requests one step after another, with a client in each role that keeps what it is shown."""
import json
import subprocess
from collections import Counter
from collections.abc import Iterable
from typing import Any

from desk import VIEWD, columns_of, decoded
from rows import Request, Write, line

Rows = Counter[tuple[Any, ...]]


class Refused(Exception):
    """viewd refused a request. The text has both."""


def parsed(it: Request | Write) -> Request:
    """As viewd reads it."""
    found: Request = json.loads(line('"session":1', it))
    return found


class Live:
    def __init__(self, rows: int):
        words = [str(VIEWD), "replay", "--rows", str(rows), "--lines", "4294967295"]
        self.process = subprocess.Popen(words, stdin=subprocess.PIPE, stdout=subprocess.PIPE, text=True, encoding="utf-8")
        self.names: dict[str, list[str]] = {}  # columns of relations
        self.sessions: dict[str, int] = {}  # of each role: 16 relations are enough
        self.held: dict[tuple[str, str], Rows] = {}  # by role and relation, while it is subscribed
        self.subs: dict[int, tuple[str, str]] = {}
        self.lines = 0
        assert "ok" in self.ask({"do": "begin", "role": "admin"})

    def ask(self, request: dict[str, Any]) -> dict[str, Any]:
        """The answer. Change lines that stand before it are taken."""
        assert self.process.stdin and self.process.stdout
        self.process.stdin.write(json.dumps({"session": 1} | request, ensure_ascii=False, separators=(",", ":")) + "\n")
        self.process.stdin.flush()
        while True:
            text = self.process.stdout.readline()
            if not text:
                raise Refused(f"viewd ended at {str(request)[:500]}")
            answer: dict[str, Any] = json.loads(text)
            if "changes" not in answer:
                return answer
            self.take(answer)

    def take(self, line: dict[str, Any]) -> None:
        self.lines += 1
        role, name = self.subs[line["sub"]]
        held = self.held[role, name]
        for copies, row in line["changes"]:
            shown = decoded(self.names[name], row)
            held[shown] += copies
            assert held[shown] >= 0, (role, name, row)
            if not held[shown]:
                del held[shown]
        if "ended" in line:
            assert not held, (role, name, held)
            del self.held[role, name], self.subs[line["sub"]]

    def tell(self, requests: Iterable[dict[str, Any]]) -> None:
        for it in requests:
            if "ok" not in (answer := self.told(it)):
                raise Refused(f"{answer} to {str(it)[:500]}")

    def told(self, it: dict[str, Any]) -> dict[str, Any]:
        if it["do"] in ("create_table", "create_view") and it["name"] != "viewd_source":
            self.names[it["name"]] = columns_of(it)
        return self.ask(it)

    def shown(self, role: str, name: str) -> Rows | None:
        """What the role holds: none if it is refused."""
        if (role, name) not in self.held:
            answer = self.ask({"do": "subscribe", "on": name, "session": self.session(role)})
            if "ok" not in answer:
                assert answer["error"] == 13, answer
                return None
            self.subs[answer["sub"]] = role, name
            self.held[role, name] = Counter()
        return self.held[role, name]

    def settle(self) -> None:
        """What was sent before is here then."""
        assert self.ask({"do": "unsubscribe", "sub": 999_999}) == {"error": 19, "session": 1}

    def session(self, role: str) -> int:
        if role == "admin":
            return 1
        if role not in self.sessions:
            self.sessions[role] = len(self.sessions) + 2
            assert "ok" in self.ask({"do": "begin", "role": role, "session": self.sessions[role]})
        return self.sessions[role]

    def close(self) -> None:
        assert self.process.stdin and self.process.stdout
        self.process.stdin.close()
        self.process.stdout.read()  # who waits for it to end before all is read may wait for ever
        self.process.wait()
        self.process.stdout.close()
