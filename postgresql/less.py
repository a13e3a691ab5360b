"""Rights that are taken before the rows of a late step have come: nobody sees a row that was hidden by the rights that were told, or is by
those of now.

The rows are still those of the last step. Whoever has lost a right is shown less at once, and nobody more, until rows and rights are of one
moment again. Of a view with EXCEPT this is so of the tables that it reads.
"""
from collections.abc import Iterable, Iterator

from rights import POLICIES, closure
from rows import Request
from state import State
from told import Guards, Told, off


def less(told: Told, after: State) -> Iterator[Request]:
    """What goes of the rights; of what comes nothing but roles. All relations that were told have the form that they had."""
    now = after.rights
    yield from ({"do": "create_role", "name": it} for it in now.roles if it not in told.roles)
    for role, to in sorted(told.members - set(now.members)):
        yield {"do": "revoke_role", "role": role, "to": to}
    for name, readers in now.select.items():
        yield from ({"do": "revoke", "on": name, "privileges": ["select"], "to": it} for it in sorted(told.select.get(name, set()) - readers))
    turned = above(told.members, now.members)
    for it in after.made.values():
        if it.request and it.request["do"] == "create_table" and it.name in told.guards:
            one = told.guards[it.name]
            both = narrowed(one, {"": off(it.name)} | {policy.get("name", ""): policy for policy in it.guards}, turned)
            yield from ({"do": "drop_policy", "on": it.name, "name": name} for name, policy in one.items() if name and both.get(name) != policy)
            yield from (policy for name, policy in both.items() if one.get(name) != policy)


def above(before: Iterable[tuple[str, str]], after: Iterable[tuple[str, str]]) -> set[str]:
    """Roles whose policies somebody begins or ceases to have by a membership."""
    edges = set(before) ^ set(after)
    return {it for reached in (closure(before), closure(after)) for role, _ in edges for it in reached(role)}


def narrowed(one: Guards, other: Guards, turned: set[str]) -> Guards:
    """Of a table: they let through no row that one of both does not. Where no such policies can be told, none lets anything through."""
    old, new = (one if one[""]["enable"] else {}), (other if other[""]["enable"] else {})
    if not old and not new:
        return one
    if not old:
        found = dict(new)
    elif not new:
        found = dict(old)
    else:
        found = {"": old[""] | {"force": old[""]["force"] or new[""]["force"]}}
        found |= {name: it for name, it in old.items() if name and (is_restrictive(it) or new.get(name) == it)}
    strict = {name: it for name, it in new.items() if is_restrictive(it)}
    fits = all(found.get(name, it) == it for name, it in strict.items()) and len({*found, *strict}) - 1 <= POLICIES
    binds = {role for it in (*old.values(), *strict.values()) if is_restrictive(it) for role in it.get("to", ())}
    if not fits or binds & turned:
        return {name: it for name, it in found.items() if not name or is_restrictive(it)}
    return found | strict


def is_restrictive(it: Request) -> bool:
    return bool(it.get("restrictive"))
