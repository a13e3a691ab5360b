"""What the client raises."""
from typing import Any

NAMES = {
    1: "bad json", 2: "bad request", 3: "no session", 4: "session in use", 5: "unknown role", 6: "name taken", 7: "unknown relation",
    8: "not a table", 9: "bad row", 10: "bad query", 11: "not administrator", 12: "not owner", 13: "missing privilege",
    14: "no permissive policy", 15: "restrictive policy failed", 16: "no such row", 17: "limit", 18: "unknown policy",
    19: "unknown subscription", 20: "too many", 22: "line too long", 23: "membership loop"}
WHY = {100: "it is decided by the owner of the log that the gateway follows", 101: "its name is another request's", 102: "it is too old",
       103: "the gateway's journal is another", 104: "it is to be sent again"}
MORE = ("on", "privilege", "policy", "check", "entry", "key", "why", "place")


class ViewdError(Exception):
    """What this client raises."""


class Refused(ViewdError):
    """The gateway refused the request, and nothing was changed."""

    def __init__(self, reply: dict[str, Any]):
        self.code: int = reply["error"]  # the number of the refusal in docs/PROTOCOL.md
        self.reply = reply
        words = [f"{NAMES.get(self.code, 'refused')} ({self.code})", *(f"{key} {reply[key]}" for key in MORE if key in reply)]
        super().__init__(", ".join(words))


class Undecided(ViewdError):
    """Nobody can tell whether the request was carried out; it was whole, or not at all.

    Look at the rows, and make another request if they do not have it. Of a write 102 and 103 are final, as what came of it is not known any
    more."""

    def __init__(self, code: int | None = None) -> None:
        self.code = code  # the number in docs/PROTOCOL.md, or None if the connection went
        why = f"{WHY.get(code, 'the gateway does not say why')} ({code})" if code else "the connection went before the reply came"
        super().__init__(f"undecided: {why}, so it was carried out or not")


class NotSent(ViewdError):
    """The request was not sent, so it was not carried out."""

    def __init__(self, why: str):
        super().__init__(f"not sent: {why}")
