"""What is in a journal: the accepted requests that changed what is shared, one a line, in viewd's order; and the shape that they make.

A line is the request without its session and with the role that made it: `{"as":"mia","do":"write","entries":[..]}`.
A viewd that begins empty and is told these lines is in the state that they lead to, and refuses none of them. The journal of ./gateway has them behind digests
and notes (audit.py), and the steps of a log as they are.

The key is `as`, which no request has: viewd refuses by 2 what has it. `role`, which it was, is a key of `grant_role` too. A line
is measured with the longest role and the longest session, so it fits in any other viewd behind the same journal.
"""
import dataclasses
import json
import pathlib
from collections.abc import Iterator
from typing import Any

LINE = 65_536  # bytes of a line without its newline: viewd ends after a longer one
# What is left of a line for a request, whoever tells it: by the longest number of a session, or the longest role.
BODY = LINE - max(len('{"session":4294967295,}'), len('{"as":"",}') + 63)
PRIVILEGES = ("select", "insert", "update", "delete")
SHARED = frozenset(("create_role", "create_table", "create_view", "grant", "revoke", "grant_role", "revoke_role", "row_security",
                    "create_policy", "drop_policy", "write"))

Request = dict[str, Any]


def replay(program: pathlib.Path, rows: int | None) -> list[str | pathlib.Path]:
    """The words that start a viewd with so many rows at most in a table, or at each step of a view; its own number if none is said."""
    return [program, "replay", "--lines", "4294967295", *(["--rows", str(rows)] if rows else [])]


class Damaged(Exception):
    """The journal does not lead to a state. To go on would lose what was acknowledged."""


def to_text(value: object) -> bytes:
    """Raises UnicodeEncodeError if half of a surrogate pair is in a text."""
    return json.dumps(value, ensure_ascii=False, separators=(",", ":")).encode()


def by_session(session: int, body: bytes) -> bytes:
    """A request for viewd. Its body is its text without the braces."""
    return b'{"session":%d,%s}\n' % (session, body)


def by_role(role: str, body: bytes) -> bytes:
    """The same request as a line of the journal."""
    return b'{"as":"%s",%s}\n' % (role.encode(), body)


@dataclasses.dataclass
class Shape:
    """Roles, relations, rights and policies: what viewd knows and does not tell, folded from what it accepted."""

    roles: list[str] = dataclasses.field(default_factory=lambda: ["admin"])
    members: list[list[str]] = dataclasses.field(default_factory=list)  # a role and its direct member, as they were granted
    relations: dict[str, Request] = dataclasses.field(default_factory=dict)  # as they were created, in that order
    grants: dict[str, dict[str, list[str]]] = dataclasses.field(default_factory=dict)  # relation, role, privileges
    row_security: dict[str, dict[str, bool]] = dataclasses.field(default_factory=dict)
    policies: list[Request] = dataclasses.field(default_factory=list)

    def apply(self, request: Request) -> None:
        match request:
            case {"do": "create_role", "name": name}:
                self.roles.append(name)
            case {"do": "grant_role", "role": role, "to": to}:
                self.members += [[role, to]] if [role, to] not in self.members else []
            case {"do": "revoke_role", "role": role, "to": to}:
                self.members = [pair for pair in self.members if pair != [role, to]]
            case {"do": "create_table" | "create_view", "name": name, "owner": owner}:
                self.relations[name] = request
                self.grants[name] = {owner: list(PRIVILEGES)}
            case {"do": "grant", "on": on, "to": to, "privileges": named}:
                self._hold(on, to, {*self.grants[on].get(to, ()), *named})
            case {"do": "revoke", "on": on, "to": to, "privileges": named}:
                self._hold(on, to, set(self.grants[on].get(to, ())) - set(named))
            case {"do": "row_security", "on": on, "enable": enable, "force": force}:
                self.row_security[on] = {"enable": enable, "force": force}
            case {"do": "create_policy"}:
                self.policies.append(request)
            case {"do": "drop_policy", "on": on, "name": name}:
                self.policies = [p for p in self.policies if (p["on"], p["name"]) != (on, name)]

    def _hold(self, on: str, role: str, held: set[str]) -> None:
        self.grants[on][role] = [privilege for privilege in PRIVILEGES if privilege in held]
        if not held and role != self.relations[on]["owner"]:
            del self.grants[on][role]

    def requests(self) -> Iterator[Request]:
        """Requests of the administrator that bring an empty viewd to this shape."""
        yield from ({"do": "create_role", "name": name} for name in self.roles[1:])
        yield from ({"do": "grant_role", "role": role, "to": to} for role, to in self.members)
        for name, made in self.relations.items():
            yield made
            for role, held in self.grants[name].items():
                had = PRIVILEGES if role == made["owner"] else ()
                if lost := [p for p in had if p not in held]:
                    yield {"do": "revoke", "on": name, "privileges": lost, "to": role}
                if new := [p for p in held if p not in had]:
                    yield {"do": "grant", "on": name, "privileges": new, "to": role}
        yield from ({"do": "row_security", "on": on} | both for on, both in self.row_security.items())
        yield from self.policies


def entry_of(line: bytes, where: str) -> tuple[str, Request]:
    """Role and request of a line. Raises Damaged."""
    try:
        request = json.loads(line)
        role = request.pop("as" if "as" in request else "role")  # as it was written before requests had a `role` of their own
        if request["do"] not in SHARED or len(line) > LINE:
            raise ValueError
    except (ValueError, KeyError, TypeError, AttributeError):
        raise Damaged(f"{where} is no accepted request") from None
    return role, request
