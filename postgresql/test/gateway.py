"""A gateway as docs/LOG.md asks for one: a journal, a viewd that is told it, and clients by role. Its death at any byte that it writes can be ordered."""
import json
import os
import pathlib
from typing import Any

from live import Live, Refused

Line = dict[str, Any]


class Died(Exception):
    """It was killed, in the midst of writing."""


class Fault(Exception):
    """What the keeper said cannot be. The text says why."""


class Gateway:
    def __init__(self, folder: pathlib.Path, rows: int):
        self.path, self.rows = folder / "journal", rows
        self.dies_after = -1  # bytes that it writes until then
        self.log = self.epoch = ""
        self.position = 0
        self.is_open = self.goes_on = False
        self.entries: list[Line] = []  # of the step that is not whole
        self.live = Live(rows)
        self.restore()

    def restore(self) -> None:
        """What is whole of the journal. The rest is cut off."""
        if not self.path.exists():
            return
        texts = self.path.read_bytes().split(b"\n")[:-1]
        while len(texts) > 1 and not texts[-1].startswith(b'{"from":'):
            texts.pop()
        os.truncate(self.path, sum(len(it) + 1 for it in texts))
        if not texts:
            return
        head, *lines = map(json.loads, texts)
        self.log, self.epoch = head["begin"], head["epoch"]
        for it in lines:
            if "step" in it:
                self.position = it["step"]
            else:
                self.carry_out(it)

    def carry_out(self, it: Line) -> Line:
        request = {key: value for key, value in it.items() if key != "as"}
        session = 1 if it["as"] == "admin" else self.live.session(it["as"])
        return self.live.told(request | {"session": session})

    def hello(self) -> Line:
        return {"door": 1, "rows": self.rows} | ({"log": self.log, "epoch": self.epoch, "position": self.position} if self.log else {})

    def hear(self, it: Line) -> list[Line]:
        """What it answers. Raises Died, Fault."""
        match it:
            case {"begin": log, "epoch": epoch}:
                if self.log:
                    raise Fault(f"the log {self.log} of epoch {self.epoch} is followed here: another one needs a new journal file")
                self.write([it])
                self.log, self.epoch, self.goes_on = log, epoch, True
                return [{"on_disk": 0}]
            case {"go_on": log, "epoch": epoch}:
                if (log, epoch) != (self.log, self.epoch):
                    raise Fault(f"the log {self.log} of epoch {self.epoch} is followed here: another one needs a new journal file")
                self.goes_on = True
            case {"recall": True} if self.log and not self.goes_on:
                lines = [json.loads(line) for line in self.path.read_bytes().splitlines()[1:]]
                return [*(line for line in lines if "step" not in line), {"recalled": self.position}]
            case {"as": _} if self.goes_on:
                self.entries.append(it)
            case {"from": start, "step": number} if self.goes_on:
                return self.step(start, number)
            case {"open": bool(is_open)} if self.goes_on:
                self.is_open = is_open
            case _:
                raise Fault(f"it says {it}")
        return []

    def step(self, start: int, number: int) -> list[Line]:
        entries, self.entries = self.entries, []
        if number > self.position:
            if start != self.position:
                raise Fault(f"step {number} is from {start}, and the position is {self.position}")
            self.write([*entries, {"from": start, "step": number}])
            for place, it in enumerate(entries, 1):
                answer = self.carry_out(it)
                if "ok" not in answer:
                    raise Fault(f"entry {place} of step {number} is refused by {answer.get('error')}: {str(it)[:500]}")
            self.live.settle()
            self.position = number
        return [{"on_disk": self.position}]

    def write(self, lines: list[Line]) -> None:
        text = b"".join(json.dumps(it, ensure_ascii=False, separators=(",", ":")).encode() + b"\n" for it in lines)
        with self.path.open("ab") as file:
            if 0 <= self.dies_after < len(text):
                file.write(text[:self.dies_after])
                raise Died
            self.dies_after -= len(text) if self.dies_after >= 0 else 0
            file.write(text)

    def close(self) -> None:
        self.live.close()


__all__ = ["Died", "Fault", "Gateway", "Refused"]
