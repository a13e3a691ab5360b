"""Who may read what, in viewd's words: roles, memberships, grants, row security and policies."""
import dataclasses
import itertools
from collections.abc import Callable, Iterable, Iterator
from typing import TypeVar

from catalog import Catalog, Policy, Relation
from kinds import name_ok
from predicate import Refused
from relations import Made, Names, close, collated
from rows import Request
from settings import Users
from translate import Words
from users import role_of, texts

ROLES, POLICIES, TO = 255, 32, 16  # viewd's limits: roles beside admin, policies of a table, roles of a policy
NO_NAME = "its name is none of viewd's: nobody can be it; its members have what it has"
NOT_BOUND = "policies do not bind it (SUPERUSER or BYPASSRLS), and viewd has no such role: nobody can be it"
NO_USERS = "policies do not bind it (SUPERUSER or BYPASSRLS), and viewd has no such users: nobody can be one"
NO_USER = "nobody can be it: with [users] sessions are those of users"
Role = TypeVar("Role", int, str)


@dataclasses.dataclass
class Rights:
    roles: list[str] = dataclasses.field(default_factory=list)
    readers: set[str] = dataclasses.field(default_factory=set)  # in which sessions may begin
    members: list[tuple[str, str]] = dataclasses.field(default_factory=list)  # a role and its member
    owners: dict[str, str] = dataclasses.field(default_factory=dict)  # of relations
    select: dict[str, set[str]] = dataclasses.field(default_factory=dict)  # who reads a relation
    left_out: dict[str, str] = dataclasses.field(default_factory=dict)  # roles that nobody can be, and users


def closure(members: Iterable[tuple[Role, Role]]) -> Callable[[Role], set[Role]]:
    above: dict[Role, set[Role]] = {}
    for role, member in members:
        above.setdefault(member, set()).add(role)

    def reached(role: Role) -> set[Role]:
        found, news = {role}, {role}
        while news:
            news = {up for it in news for up in above.get(it, ())} - found
            found |= news
        return found
    return reached


def rights(catalog: Catalog, made: dict[int, Made], users: Users) -> Rights:
    """Roles, memberships and grants on the relations that viewd has."""
    names, found = Names(catalog), Rights()
    for oid, it in catalog.roles.items():
        found.roles.append(names[oid])
        if it.super or it.bypass:
            found.left_out[f"role {it.name}"] = NOT_BOUND
        elif names[oid] not in names.own:
            found.left_out[f"role {it.name}"] = NO_NAME
        elif users.role:
            found.left_out[f"role {it.name}"] = NO_USER
        elif not it.name.startswith("pg_"):
            found.readers.add(names[oid])
    edges = [(role, member) for role, member in catalog.members if role in catalog.roles and member in catalog.roles]
    found.members = [(names[role], names[member]) for role, member in edges]
    with_users(catalog, users, names, found)
    reached = closure(edges)
    for oid, one in made.items():
        if one.request:
            rel = catalog.relations[oid]
            found.owners[one.name] = names[rel.owner]
            found.select[one.name] = {names[it] for it in selecting(catalog, rel, reached)}
    return found


def with_users(catalog: Catalog, users: Users, names: Names, found: Rights) -> None:
    """Users are roles of viewd's own, members of the role in which the application connects."""
    role = next((oid for oid, it in catalog.roles.items() if it.name == users.role), None)
    if users.role and (role is None or catalog.roles[role].super or catalog.roles[role].bypass):
        found.left_out[f"role {users.role}"] = "there is no such role" if role is None else NO_USERS
        return
    for user in users.names if role is not None else ():
        if (name := role_of(user)) in found.roles:
            found.left_out[f"user {user}"] = "a role of PostgreSQL has this name: nobody can be it"
            continue
        found.roles.append(name)
        found.readers.add(name)
        found.members.append((names[role or 0], name))


def selecting(catalog: Catalog, rel: Relation, reached: Callable[[int], set[int]]) -> set[int]:
    """Who is granted `select`: viewd has no schemas, so who has USAGE and SELECT, by whatever way, has both as one grant."""
    usage, select = set(rel.usage), set(rel.select) & {0, *catalog.roles}  # PostgreSQL's own roles without members are nobody
    everyone = [oid for oid, it in catalog.roles.items() if it.name == "pg_read_all_data"]
    usage |= set(everyone)
    select |= set(everyone)
    if 0 in usage:
        return select
    return {role for role in catalog.roles if reached(role) & usage and (reached(role) | {0}) & select}


def granted(found: Rights) -> Iterator[Request]:
    """Nobody writes, so an owner loses what viewd gave it for that."""
    for name, to in found.select.items():
        owner = found.owners[name]
        taken = ["insert", "update", "delete"] + (["select"] if owner not in to else [])
        yield {"do": "revoke", "on": name, "privileges": taken, "to": owner}
        yield from ({"do": "grant", "on": name, "privileges": ["select"], "to": it} for it in sorted(to - {owner}))


def guarded(catalog: Catalog, rel: Relation, made: Made, words: Words) -> list[Request]:
    """Row security and policies of a table. If one cannot be said, the table is closed."""
    names = Names(catalog)
    if not rel.enable:
        return []
    found: list[Request] = [{"do": "row_security", "on": made.name, "enable": True, "force": rel.force}]
    for it in rel.policies:
        try:
            found += policies(it, made, words, names)
        except Refused as why:
            close(made, f"its policy {it.name} cannot be said in viewd's words: {why}" if it.text is not None
                  else f"the text of its policy {it.name} cannot be read now")
            made.sql += [collated(rel, one) for one in why.columns]
            return []
    if len(found) - 1 > POLICIES:
        close(made, f"{len(found) - 1} policies, of which viewd can have {POLICIES}")
    return found


def policies(it: Policy, made: Made, words: Words, names: Names) -> list[Request]:
    """One for each 16 roles, each role bound by one of them, and for as many users as a text can have."""
    if it.text is None:
        raise Refused("")
    parts, to, found = texts(it.text, made.columns, words, it.restrictive), [names[role] for role in it.roles if role in names.names], []
    for part, (number, using) in itertools.product(range(0, len(to), TO), enumerate(parts)):
        is_own = part == number == 0 and name_ok(it.name) and not it.name.startswith("viewd_")
        name = it.name if is_own else f"viewd_policy_{it.oid}_{part}" + (f"_{number}" if number else "")
        found.append({"do": "create_policy", "on": made.name, "name": name, "restrictive": it.restrictive, "command": "select",
                      "to": to[part:part + TO], "using": using})
    return found
