"""The shape of a database, from the requests that made it: roles, who is a member of whom, grants, row security and policies."""
from __future__ import annotations

from collections.abc import Iterable, Mapping
from dataclasses import dataclass, field
from typing import Any

PRIVILEGES = ("select", "insert", "update", "delete")
Request = dict[str, Any]


@dataclass
class Shape:
    """What the accepted requests so far have made."""

    roles: list[str] = field(default_factory=lambda: ["admin"])
    members: list[tuple[str, str]] = field(default_factory=list)  # a role and its direct member
    owners: dict[str, str] = field(default_factory=dict)  # of each relation, in the order in which they came
    grants: dict[str, dict[str, list[str]]] = field(default_factory=dict)  # of a relation, by role, its privileges
    security: dict[str, tuple[bool, bool]] = field(default_factory=dict)  # of a table: whether it is enabled, and forced for the owner
    policies: list[Request] = field(default_factory=list)  # the requests that made those that are there

    def take(self, made: Request) -> None:
        """Applies the next one."""
        match made:
            case {"do": "create_role", "name": name}:
                self.roles.append(name)
            case {"do": "grant_role", "role": role, "to": to}:
                self.members += [(role, to)] if (role, to) not in self.members else []
            case {"do": "revoke_role", "role": role, "to": to}:
                self.members = [it for it in self.members if it != (role, to)]
            case {"do": "create_table" | "create_view", "name": name, "owner": owner}:
                self.owners[name], self.grants[name] = owner, {owner: [*PRIVILEGES]}
            case {"do": "grant", "on": on, "to": to, "privileges": named}:
                self._hold(on, to, {*self.grants[on].get(to, ()), *named})
            case {"do": "revoke", "on": on, "to": to, "privileges": named}:
                self._hold(on, to, {*self.grants[on].get(to, ())} - {*named})
            case {"do": "row_security", "on": on, "enable": enable, "force": force}:
                self.security[on] = enable, force
            case {"do": "create_policy"}:
                self.policies.append(made)
            case {"do": "drop_policy", "on": on, "name": name}:
                self.policies = [it for it in self.policies if (it["on"], it["name"]) != (on, name)]

    def _hold(self, on: str, role: str, held: set[str]) -> None:
        self.grants[on][role] = [it for it in PRIVILEGES if it in held]


def shape_of(made: Iterable[Mapping[str, Any]]) -> Shape:
    """Of the lines that an administrator is told."""
    shape = Shape()
    for it in made:
        shape.take(it["made"])
    return shape
