"""What a gateway holds that was told requests: what the next ones lead away from.

It is made of the requests alone, so it is the same for those that were said here and for those that the gateway tells back.
"""
import dataclasses
from collections import Counter

from rows import Request, Row, Write, of

Guards = dict[str, Request]  # policies of a table by name, and its row security by the empty name


@dataclasses.dataclass
class Told:
    roles: set[str] = dataclasses.field(default_factory=lambda: {"admin"})  # also those that are gone
    members: set[tuple[str, str]] = dataclasses.field(default_factory=set)  # a role and its member
    forms: dict[str, Request] = dataclasses.field(default_factory=dict)  # the requests that made tables and views
    guards: dict[str, Guards] = dataclasses.field(default_factory=dict)
    select: dict[str, set[str]] = dataclasses.field(default_factory=dict)  # who reads a relation

    def add(self, it: Request | Write) -> None:
        if isinstance(it, Write):
            return
        match it["do"]:
            case "create_role":
                self.roles.add(it["name"])
            case "grant_role":
                self.members.add((it["role"], it["to"]))
            case "revoke_role":
                self.members.discard((it["role"], it["to"]))
            case "create_table" | "create_view":
                self.forms[it["name"]] = it
                self.select[it["name"]] = {it["owner"]}
                self.guards[it["name"]] = {"": off(it["name"])}
            case "row_security":
                self.guards[it["on"]][""] = it
            case "create_policy":
                self.guards[it["on"]][it["name"]] = it
            case "drop_policy":
                del self.guards[it["on"]][it["name"]]
            case "grant" if "select" in it["privileges"]:
                self.select[it["on"]].add(it["to"])
            case "revoke" if "select" in it["privileges"]:
                self.select[it["on"]].discard(it["to"])


def off(name: str) -> Request:
    """Row security as a table begins with it."""
    return {"do": "row_security", "on": name, "enable": False, "force": False}


def written(held: dict[str, Counter[Row]], request: Request) -> None:
    """Adds what a write does to the rows of tables by their names."""
    for it in request["entries"] if request["do"] == "write" else ():
        rows = held.setdefault(it["on"], Counter())
        one, copies = (of(it["insert"]), it.get("copies", 1)) if "insert" in it else (of(it["delete"]), -it.get("copies", 1))
        rows[one] += copies
        if not rows[one]:
            del rows[one]
