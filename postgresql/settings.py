"""The configuration: a file of TOML."""
import pathlib
import tomllib
from collections.abc import Iterator
from typing import Any, NamedTuple

from kinds import UUID, name_ok
from predicate import Refused
from translate import user_call
from users import role_of

KEYS = {"postgres": {"dsn", "slot", "publication"}, "relations": None, "columns": None, "users": {"role", "calls", "names"}}


class Users(NamedTuple):
    """Users who are no roles: a session of one is in PostgreSQL a session in `role` in which each of `calls` answers its name."""

    role: str = ""
    calls: tuple[str, ...] = ()
    names: tuple[str, ...] = ()


class Settings(NamedTuple):
    dsn: str
    slot: str = "viewd"
    publication: str = "viewd"
    relations: dict[str, str] | None = None  # viewd's name: schema.name; none: all that there are
    columns: dict[str, list[str]] = {}  # of those of which not all are followed
    users: Users = Users()


class Wrong(Exception):
    """The configuration cannot be used. The text says why."""


def read(path: pathlib.Path, dsn: str) -> Settings:
    """The configuration of a file, for the database that the command line names. Raises Wrong."""
    try:
        return made(tomllib.loads(path.read_text()), dsn)
    except (OSError, UnicodeDecodeError, tomllib.TOMLDecodeError) as why:
        raise Wrong(f"{path}: {why}") from None
    except Wrong as why:
        raise Wrong(f"{path}: {why}") from None


def texts_of(it: Any) -> Iterator[str]:
    if isinstance(it, str):
        yield it
    elif isinstance(it, (dict, list)):
        for part in [*it, *it.values()] if isinstance(it, dict) else it:
            yield from texts_of(part)


def made(said: dict[str, Any], dsn: str) -> Settings:
    if any("\0" in it for it in texts_of(said)):
        raise Wrong("a text has the character 0")
    for part, held in said.items():
        keys = KEYS.get(part, set())
        if part not in KEYS or not isinstance(held, dict):
            raise Wrong(f"[{part}] is no part of it")
        if keys is not None and (odd := set(held) - keys):
            raise Wrong(f"{sorted(odd)[0]} is no key of [{part}]")
    own = said.get("postgres", {})
    users = said.get("users", {})
    for where, texts in (("postgres", list(own.values())), ("relations", list(said.get("relations", {}).values()))):
        if not all(isinstance(it, str) for it in texts):
            raise Wrong(f"[{where}] has texts alone")
    lists = [*said.get("columns", {}).values(), *(users.get(it, []) for it in ("calls", "names"))]
    if not all(isinstance(it, list) and all(isinstance(one, str) for one in it) for it in lists):
        raise Wrong("[columns], calls and names have lists of texts")
    if users and not (isinstance(users.get("role"), str) and users["role"] and users.get("calls")):
        raise Wrong("[users] needs role and calls")
    try:
        calls = tuple(user_call(it) for it in users.get("calls", []))
    except Refused as why:
        raise Wrong(f"calls: {why}") from None
    names = users.get("names", [])
    if odd_names := [it for it in names if not UUID.fullmatch(it) and not name_ok(it) or it in ("admin", "public")]:
        raise Wrong(f"names: {odd_names[0]} is no name of viewd's, nor a uuid as PostgreSQL prints it")
    if len(set(map(role_of, names))) < len(names):
        raise Wrong("names: two of them are one")
    return Settings(dsn or own.get("dsn", ""), own.get("slot", "viewd"), own.get("publication", "viewd"), said.get("relations"),
                    said.get("columns", {}), Users(users.get("role", ""), calls, tuple(names)))
