"""Users who are no roles, in policies. One whose name is a uuid is a role of viewd's with another name, and policies have a case for each."""
from collections.abc import Mapping, Sequence

from kinds import UUID, Column, name_ok
from predicate import BYTES, Atom, Every, Refused, Some, Test, every, fit, quoted, some, written
from translate import USER, Words, says

SPARE = 256  # bytes of a text for which users it is


def role_of(user: str) -> str:
    """The name of viewd's role of a user."""
    return "u_" + user.replace("-", "_") if UUID.fullmatch(user) else user


def texts(expression: str, columns: Mapping[str, Column], words: Words, restrictive: bool) -> list[str]:
    """Those for `using`: policies with them together are the one that has the expression. Who is none of the users is shown nothing by
    them if there are cases. Raises Refused."""
    test, as_uuid = says(expression, columns, words)
    odd = [it for it in words.names if as_uuid and not UUID.fullmatch(it)]
    if odd:
        raise Refused(f"a uuid is asked for, and the user {odd[0]} is none as PostgreSQL prints it")
    if not asks(test) or not as_uuid and all(map(name_ok, words.names)):
        return [fit(written(test))]
    cases = {role_of(it): every([Atom(USER, "=", quoted(role_of(it))), answered(test, quoted(it))]) for it in words.names}
    parts = divided(cases)
    ranges = bounds(parts) if restrictive else [[] for _ in parts]
    return [fit(written(some([*others, *(cases[it] for it in part)]))) for others, part in zip(ranges, parts, strict=True)]


def asks(test: Test) -> bool:
    return USER in (test.left, test.right) if isinstance(test, Atom) else any(map(asks, test.parts))


def answered(test: Test, answer: str) -> Test:
    """The test for the user for whom the calls answer this."""
    match test:
        case Atom(left, op, right):
            return Atom(answer if left == USER else left, op, answer if right == USER else right)
        case Every(parts):
            return every(answered(it, answer) for it in parts)
        case Some(parts):
            return some(answered(it, answer) for it in parts)


def divided(cases: Mapping[str, Test]) -> list[list[str]]:
    """Roles in their order, as many together as a text can have."""
    parts, size = [list[str]()], 0
    for role in sorted(cases):
        length = len(written(cases[role]).encode()) + len(" or ")
        if parts[-1] and size + length > BYTES - SPARE:
            parts.append([])
            size = 0
        parts[-1].append(role)
        size += length
    return parts


def bounds(parts: Sequence[Sequence[str]]) -> list[list[Test]]:
    """What lets all pass of whom another part decides: each name is within one of them, whoever has it."""
    firsts = [it[0] for it in parts[1:]]
    return [[*(Atom(USER, "<", quoted(it)) for it in firsts[place - 1:place] if place), *(Atom(USER, ">=", quoted(it)) for it in firsts[place:place + 1])]
            for place in range(len(parts))]
