"""What viewd is told of a step: the requests that lead from what it was told to the next cut of PostgreSQL.

They are one step: what stands between two of them is no state of PostgreSQL, and is to be shown to nobody. viewd has no request that drops
or changes a relation, so if one is another one all begins anew.
"""
from collections import Counter
from collections.abc import Iterable, Iterator

import beginning
import rows
from beginning import Beginning, Progress, no_progress
from catalog import Relation
from less import less
from mirror import Table
from relations import Made
from resuming import resume
from rights import ROLES
from rows import Request, Row, Write
from settings import Settings
from source import FORM, NAME, Print, Source, changes, read, sourced
from state import State, said
from stream import Lost, Place, Transaction
from told import Guards, Told, off, written


class Anew(Exception):
    """viewd can be told of it by a new beginning alone. The text says why."""


class Following:
    """A database that is followed: what viewd was told of it, and what it is to be told next."""

    def __init__(self, settings: Settings, most: int, begun: Beginning, told: Told, source: Source):
        self.settings, self.most, self.begun, self.told, self.source = settings, most, begun, told, source
        self.state = begun.state

    @staticmethod
    def anew(settings: Settings, most: int, progress: Progress = no_progress) -> "Following":
        """Raises what `begin` raises."""
        begun = beginning.begin(settings, most, progress)
        return Following(settings, most, begun, Told(), sourced(settings, begun.steps.place, begun.state))

    @staticmethod
    def resumed(settings: Settings, most: int, log: str, requests: Iterable[Request]) -> "Following":
        """Goes on from what a gateway holds. Raises Lost, Anew, and what `begin` raises."""
        told, held = Told(), dict[str, Counter[Row]]()
        for it in requests:
            told.add(it)
            written(held, it)
        try:
            source = read(held[NAME])
        except (KeyError, ValueError):
            raise Lost("what is held does not say where it is from") from None

        def tables(it: Made, _rel: Relation) -> Table:
            found = Table(it.name, it.columns, most)
            found.rows = held.get(it.name, found.rows)
            return found
        return Following(settings, most, resume(settings, source, log, tables), told, source).formed()

    def again(self) -> "Following":
        """Goes on from what was told, behind the end of the connection. Raises what `resumed` raises."""
        self.close()
        return Following(self.settings, self.most, resume(self.settings, self.source, self.begun.log, self.held), self.told, self.source).formed()

    def formed(self) -> "Following":
        """Rows and tables fit. All else that is another one by now is seen in the first step, with its transactions."""
        if why := other_form(self.told, self.state):
            self.close()
            raise Anew(why)
        return self

    def first(self) -> Iterator[Request | Write]:
        """Those that bring an empty viewd to the beginning, at last where that is. They are read from the mirror: all of them before the first step."""
        for part in ((FORM,), self.state.requests(), rows.writes(changes(None, self.source))):
            for it in part:
                self.told.add(it)
                yield it

    def next(self, seconds: float) -> list[Request | Write]:
        """Those of the next step; none if nothing has changed. Waits so long for something to come. Raises Anew, Lost, Unreadable,
        Wrong, Unsayable, Unsettled, psycopg2.Error."""
        step = self.begun.steps.next(seconds)
        if step is None:
            return []
        steps = self.begun.steps
        entries = self.begun.mirror.apply(step.transactions, steps.late)
        for it in self.begun.mirror.tables.values():
            if it.told == bool(fault := it.fault()):
                raise Anew(f"{it.name}: {fault or 'viewd can hold its rows again'}")
        place, taken, given = steps.place, list[Request](), list[Request]()
        if step.catalog is None:
            source = Source(self.source.settings, place, self.source.prints)
        else:
            self.state = said(step.catalog, self.begun.names, self.settings, self.held, follows=True)
            source = sourced(self.settings, place, self.state)
            self.check(self.state, True, rewritten(self.source.prints, source.prints, self.state, step.transactions))
        writes = list[Write]()
        for one in rows.writes([*entries, *changes(self.source, source)]):
            writes.append(one)
            steps.late()
        if step.catalog and steps.is_newest(step):
            taken, given = list(takes(self.told, self.state)), list(gives(self.told, self.state))
        elif step.catalog:
            taken = list(less(self.told, self.state))
        self.source = source
        steps.done(step)
        return self.tells([*taken, *writes, *given])

    def less(self) -> list[Request | Write]:
        """While rows are late: what takes rights since the last cut; mostly nothing. Raises Anew, Wrong, Unsayable."""
        catalog = self.begun.steps.look()
        if catalog is None:
            return []

        def unread(it: Made, _rel: Relation) -> Table:  # whether viewd can hold rows is known behind the step
            return Table(it.name, it.columns, self.most)
        after = said(catalog, self.begun.names, self.settings, unread, follows=True)
        self.check(after, False)
        return self.tells(list(less(self.told, after)))

    def check(self, after: State, of_all: bool, otherwise: str = "") -> None:
        """Whether requests of viewd's lead there, of all relations or of those that viewd has. Raises Anew."""
        if why := other_form(self.told, after, of_all) or otherwise:
            raise Anew(why)
        if len(roles := self.told.roles | set(after.rights.roles)) > ROLES + 1:
            raise Anew(f"{len(roles) - 1} roles, with those that are gone: viewd can have {ROLES}")

    def tells(self, requests: list[Request | Write]) -> list[Request | Write]:
        for one in requests:
            self.told.add(one)
        return requests

    def held(self, it: Made, rel: Relation) -> Table:
        """One that is not mirrored is another relation than viewd has: `other_form` says so."""
        return self.begun.mirror.tables.get(it.oid) or Table(it.name, it.columns, self.most)

    def kept(self, place: Place | None = None) -> None:
        """What was answered up to this place, or so far, is kept: PostgreSQL may forget it."""
        self.begun.steps.confirm(place or self.source.place)

    def close(self) -> None:
        self.begun.close()


def other_form(told: Told, after: State, of_all: bool = True) -> str:
    """Why viewd has no request that leads there. Empty if it has."""
    old = {name: it for name, it in told.forms.items() if name != NAME}
    new = {it.name: it.request for it in after.made.values() if it.request}
    for name in sorted({*old, *(new if of_all else ())}, key=lambda it: ((old.get(it) or new[it])["do"], it)):  # tables stand before views that reach them
        if old.get(name) != new.get(name):
            left = dict(after.left_out()).get(name)
            return f"{name} is left out: {left}" if left else f"{name} has another form"
    return ""


def rewritten(before: dict[str, Print], after: dict[str, Print], state: State, transactions: list[Transaction]) -> str:
    """What tells of another relation, or of rows that were not replicated."""
    emptied = {change.relation.oid for it in transactions for change in it.changes if change.truncates()}
    for it in state.made.values():
        if not it.request:
            continue
        old, new = before[it.name], after[it.name]
        if old.name != new.name:
            return f"{it.name} has another name"
        if not it.table:
            continue
        if old.published != new.published:
            return f"{it.name} left the publication, or came back"
        if old.columns != new.columns:
            return f"{it.name} has another form"
        if old.file != new.file and not (it.oid in emptied and old.versions == new.versions):
            return f"{it.name} was written anew (ALTER TABLE, VACUUM FULL, CLUSTER)"
    return ""


def takes(told: Told, after: State) -> Iterator[Request]:
    """Roles that viewd has not, and what goes of the rights."""
    now = after.rights
    yield from ({"do": "create_role", "name": it} for it in now.roles if it not in told.roles)
    for role, to in sorted(told.members - set(now.members)):
        yield {"do": "revoke_role", "role": role, "to": to}
    for name in now.select:
        yield from ({"do": "revoke", "on": name, "privileges": ["select"], "to": it} for it in sorted(told.select[name] - now.select[name]))
    for one, other in guards(told, after):
        yield from ({"do": "drop_policy", "on": it["on"], "name": name} for name, it in one.items() if name and other.get(name) != it)


def gives(told: Told, after: State) -> Iterator[Request]:
    """What comes of the rights."""
    now = after.rights
    for one, other in guards(told, after):
        yield from (it for name, it in other.items() if one.get(name) != it)
    for role, to in sorted(set(now.members) - told.members):
        yield {"do": "grant_role", "role": role, "to": to}
    for name in now.select:
        yield from ({"do": "grant", "on": name, "privileges": ["select"], "to": it} for it in sorted(now.select[name] - told.select[name]))


def guards(told: Told, after: State) -> Iterator[tuple[Guards, Guards]]:
    """Of each table what it has and what it is to have."""
    for it in after.made.values():
        if it.request and it.request["do"] == "create_table":
            yield told.guards[it.name], {"": off(it.name)} | {one.get("name", ""): one for one in it.guards}
