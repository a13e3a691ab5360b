"""What comes of what a keeper says, written from docs/LOG.md and docs/PROTOCOL.md alone: what is shared, by dictionaries of rows and rights, what each
client is told of a step, and the words of each fault. And what keepers say, of which some is damaged."""
import collections
import copy
import dataclasses
import hashlib
import json
import random
import re
from typing import Any

Row = tuple[Any, ...]
Rows = collections.Counter[Row]
Request = dict[str, Any]
PRIVILEGES = ("select", "insert", "update", "delete")
COLUMNS = [["id", "int"], ["who", "text"]]
POLICIES = ("true", "who = current_user", "id < 30")
ROLES = ("ann", "bob", "mia")
GROUPS = ("crew", "team")
TABLES, VIEWS = ("notes", "tasks"), ("counts", "sums")
EPOCH = "0123456789abcdef" * 2
SECRET = "".join(map(chr, range(35, 92)))  # as it is, with what other forms would escape
SHOWN = b'{"secret":"%s"}' % SECRET.encode()
BEGIN, GO_ON = (b'{"%s":"example","epoch":"%s"}' % (word, EPOCH.encode()) for word in (b"begin", b"go_on"))
MOST_LINE, MOST_LINES, MOST_BYTES = 130_816, 1_048_576, 268_435_456


def text_of(value: Any) -> str:
    return json.dumps(value, separators=(",", ":"), ensure_ascii=False)


def told_line(**keys: Any) -> str:
    return text_of(dict(sorted(keys.items())))


class Refused(Exception):
    def __init__(self, number: int, **keys: Any):
        super().__init__(number)
        self.number, self.answer = number, {"error": number, **keys}


@dataclasses.dataclass
class Relation:
    owner: str
    over: str = ""  # a view's table
    rows: Rows = dataclasses.field(default_factory=collections.Counter)
    grants: dict[str, set[str]] = dataclasses.field(default_factory=dict)
    policies: dict[str, str] = dataclasses.field(default_factory=dict)
    is_secure: bool = False
    is_forced: bool = False


@dataclasses.dataclass
class Name:
    """A name with its answer."""
    name: str
    at: str
    digest: str
    answer: str


class Shared:
    """What is shared."""

    def __init__(self) -> None:
        self.roles, self.members = ["admin"], set[tuple[str, str]]()  # a group, and who is in it
        self.relations: dict[str, Relation] = {}
        self.shape: list[str] = []
        self.names: dict[str, list[Name]] = {}  # of each role
        self.entries: list[bytes] = []  # the lines of all entries

    # ---- rights

    def acts_as(self, role: str) -> set[str]:
        found, more = set[str](), {role}
        while more - found:
            found |= more
            more = {group for group, member in self.members if member in found}
        return found

    def has(self, role: str, name: str, *privileges: str) -> bool:
        """One of the privileges, or any."""
        grants = self.relations[name].grants
        held = set[str]().union(*(grants.get(it, set()) for it in {*self.acts_as(role), "public"}))
        return role == "admin" or bool(held & set(privileges or PRIVILEGES))

    def lacks(self, role: str, name: str) -> str | None:
        """The first relation that the role may not read, of those that this one reaches."""
        if not self.has(role, name, "select"):
            return name
        over = self.relations[name].over
        return self.lacks(role, over) if over else None

    def passes(self, role: str, name: str, row: Row) -> bool:
        it = self.relations[name]
        if role == "admin" or not it.is_secure or (it.owner in self.acts_as(role) and not it.is_forced):
            return True
        tests = {"true": True, "who = current_user": row[1] == role, "id < 30": row[0] < 30}
        return any(tests[policy] for policy in it.policies.values())

    def seen(self, role: str, name: str) -> Rows:
        it = self.relations[name]
        if not it.over:
            return collections.Counter({row: n for row, n in it.rows.items() if self.passes(role, name, row)})
        made: Rows = collections.Counter()
        for row, copies in self.seen(role, it.over).items():
            made[(row[1],)] += copies
        return collections.Counter({(who, n): 1 for (who,), n in made.items()})

    # ---- requests

    def must_be(self, it: Request, role: str | None, is_table: bool = False) -> Relation:
        if it["on"] not in self.relations:
            raise Refused(7)
        found = self.relations[it["on"]]
        if is_table and found.over:
            raise Refused(8)
        if role not in (None, "admin") and found.owner not in self.acts_as(str(role)):
            raise Refused(12, on=it["on"])
        return found

    def must_know(self, *roles: str) -> None:
        if not {*roles} <= {*self.roles}:
            raise Refused(5)

    def do(self, role: str, it: Request) -> None:
        """Carries out a request. Raises Refused."""
        kind = it["do"]
        if role not in self.roles:
            raise Refused(3)
        if kind in ("create_role", "create_table", "create_view", "grant_role", "revoke_role") and role != "admin":
            raise Refused(11)
        if kind == "create_role":
            if it["name"] in self.roles:
                raise Refused(6)
            self.roles.append(it["name"])
        elif kind in ("create_table", "create_view"):
            self.must_know(it["owner"])
            if it["name"] in self.relations:
                raise Refused(6)
            over = it["query"].split(" from ")[1].split()[0] if kind == "create_view" else ""
            if over and over not in self.relations:
                raise Refused(10)
            self.relations[it["name"]] = Relation(it["owner"], over, grants={it["owner"]: {*PRIVILEGES}})
        elif kind in ("grant", "revoke"):
            found = self.must_be(it, role)
            self.must_know(*{it["to"]} - {"public"})
            held = found.grants.setdefault(it["to"], set())
            (held.update if kind == "grant" else held.difference_update)(it["privileges"])
        elif kind in ("grant_role", "revoke_role"):
            self.must_know(it["role"], it["to"])
            if kind == "grant_role" and it["to"] in self.acts_as(it["role"]):
                raise Refused(23)
            (self.members.add if kind == "grant_role" else self.members.discard)((it["role"], it["to"]))
        elif kind == "row_security":
            found = self.must_be(it, role, True)
            found.is_secure, found.is_forced = it["enable"], it["force"]
        elif kind == "create_policy":
            found = self.must_be(it, role, True)
            if it["name"] in found.policies:
                raise Refused(6)
            found.policies[it["name"]] = it["using"]
        elif kind == "drop_policy":
            if self.must_be(it, role, True).policies.pop(it["name"], None) is None:
                raise Refused(18)
        else:
            self.write(role, it["entries"])

    def write(self, role: str, entries: list[Request]) -> None:
        kinds = [next(kind for kind in ("insert", "delete", "update") if kind in it) for it in entries]
        for at, (kind, it) in enumerate(zip(kinds, entries), 1):
            self.must_be(it, None, True)
            rows = it["update"] if kind == "update" else [it[kind]]
            if any([type(value) for value in row] != [int, str] for row in rows):
                raise Refused(9, entry=at)
        for kind, it in zip(kinds, entries):
            for privilege in (kind,) if kind == "insert" else (kind, "select"):
                if not self.has(role, it["on"], privilege):
                    raise Refused(13, on=it["on"], privilege=privilege)
        for at, (kind, it) in enumerate(zip(kinds, entries), 1):
            if not all(self.passes(role, it["on"], tuple(row)) for row in (it["update"] if kind == "update" else [it[kind]])):
                raise Refused(14, entry=at)
        for at, (kind, it) in enumerate(zip(kinds, entries), 1):
            rows, copies = self.relations[it["on"]].rows, it.get("copies", 1)
            old, new = {"insert": (None, it.get("insert")), "delete": (it.get("delete"), None)}.get(kind) or it["update"]
            if old is not None:
                if rows[tuple(old)] < copies:
                    raise Refused(16, entry=at)
                rows[tuple(old)] -= copies
            if new is not None:
                rows[tuple(new)] += copies
        for found in self.relations.values():
            found.rows = +found.rows

    def copied(self) -> "Shared":
        made = copy.copy(self)
        made.roles, made.members, made.shape, made.entries = [*self.roles], {*self.members}, [*self.shape], [*self.entries]
        made.names = {role: [*names] for role, names in self.names.items()}
        made.relations = {name: dataclasses.replace(it, rows=it.rows.copy(), policies={**it.policies}, grants={role: {*held} for role, held in it.grants.items()})
                          for name, it in self.relations.items()}
        return made

    # ---- names

    def recent(self, role: str) -> list[Name]:
        return self.names.get(role, [])[-64:]

    def count(self, role: str) -> int:
        return len(self.names.get(role, []))


def changes_of(before: Rows, after: Rows) -> list[list[Any]]:
    """From the first rows to the others, as it is told."""
    rows = sorted({*before, *after}, key=lambda row: [it.encode() if isinstance(it, str) else it for it in row])
    return [[after[row] - before[row], [*row]] for row in rows if after[row] != before[row]]


@dataclasses.dataclass(eq=False)
class Seat:
    """A client: what it has subscribed to, with the rows that it was told, and the events that it is to be told of, each after the position at
    which the log stands then."""
    role: str
    given: int = 0
    subs: dict[int, tuple[str, Rows]] = dataclasses.field(default_factory=dict)
    owed: list[tuple[int, list[str]]] = dataclasses.field(default_factory=list)

    def event(self, before: Shared, after: Shared) -> list[str]:
        """What it is told of a step, but for `settled`."""
        told = []
        for own, (name, rows) in [*self.subs.items()]:
            if after.lacks(self.role, name):
                told.append(told_line(changes=changes_of(rows, collections.Counter()), ended="privilege", on=name, sub=own))
                del self.subs[own]
                continue
            seen = after.seen(self.role, name)
            if changes := changes_of(rows, seen):
                told.append(told_line(changes=changes, sub=own))
            self.subs[own] = name, seen
        told.sort()
        for name in after.relations:
            if any(after.has(self.role, name, it) and not (name in before.relations and before.has(self.role, name, it)) for it in PRIVILEGES):
                told.append(told_line(granted=name))
        return told + (after.shape[len(before.shape):] if self.role == "admin" else [])

    def subscribes(self, shared: Shared, id: int, name: str) -> list[str]:
        """What it is told as it asks for that, but for `settled`."""
        if name not in shared.relations:
            return [told_line(error=7, id=id)]
        if lacks := shared.lacks(self.role, name):
            return [told_line(error=13, id=id, on=lacks, privilege="select")]
        if len(self.subs) >= 16:
            return [told_line(error=20, id=id)]
        self.given += 1
        rows = shared.seen(self.role, name)
        self.subs[self.given] = name, rows
        columns = [["who", "text"], ["n", "int"]] if shared.relations[name].over else COLUMNS
        told = [told_line(columns=columns, id=id, ok=True, sub=self.given)]
        return told + ([told_line(changes=changes_of(collections.Counter(), rows), sub=self.given)] if rows else [])

    def unsubscribes(self, id: int, own: int) -> list[str]:
        return [told_line(error=19, id=id) if self.subs.pop(own, None) is None else told_line(id=id, ok=True)]

    def asks(self, shared: Shared, id: int, name: str, at: str, digest: str, epoch: str) -> list[str]:
        """What it is told of a request with a name."""
        for it in shared.recent(self.role):
            if it.name == name:
                if (it.at, it.digest) == (at, digest):
                    return [told_line(again=True, answer=json.loads(it.answer), at=f"{epoch}.{shared.count(self.role)}", id=id)]
                return [told_line(id=id, undecided=101)]
        return [told_line(id=id, undecided=100)]


# ---- lines

BEGINS = re.compile(rb'\{"(begin|go_on)":"([ !#-\[\]-~]{1,128})","epoch":"([0-9a-f]{32})"\}', re.DOTALL)
ENDS = re.compile(rb'\{"from":(0|[1-9][0-9]*),"step":(0|[1-9][0-9]*)\}', re.DOTALL)
WORDS = {b'{"recall":true}': "recall", b'{"open":true}': "open", b'{"open":false}': "shut"}


class Fault(Exception):
    """Its words."""


class Door:
    """A gateway that follows a log: what is shared at each position that it may come back at, what its keeper has said, and who looks on."""

    def __init__(self, rows: int = 65_536) -> None:
        self.rows, self.log, self.position = rows, ("", ""), 0
        self.kept: dict[int, Shared] = {0: Shared()}  # by position
        self.entries: dict[bytes, tuple[str, Request] | tuple[str, Name] | None] = {}  # what texts are, that were made
        self.seats: list[Seat] = []
        self.is_open = False
        self.comes()

    @property
    def shared(self) -> Shared:
        return self.kept[self.position]

    def comes(self) -> None:
        """A keeper comes."""
        self.lines, self.size, self.follows = 0, 0, False
        self.texts: list[bytes] = []
        self.is_open = False

    def comes_back(self, position: int) -> None:
        """The gateway comes back at a position."""
        self.kept = {it: shared for it, shared in self.kept.items() if it <= position}
        self.position, self.seats = position, []
        self.comes()

    def hello(self) -> bytes:
        name, epoch = self.log
        held = f',"log":"{name}","epoch":"{epoch}","position":{self.position}' if name else ""
        return f'{{"door":1,"rows":{self.rows}{held}}}'.encode()

    def recalled(self) -> list[bytes]:
        return [*self.shared.entries, b'{"recalled":%d}' % self.position]

    def hears(self, line: bytes) -> str:
        """Which kind of line it is. Raises Fault."""
        self.lines += 1
        if len(line) > MOST_LINE:
            raise Fault(f"line {self.lines} is too long")
        if line.startswith((b'{"as":"', b'{"once":"')):
            self.must_follow(True)
            self.brings(line)
            return "brings"
        if ends := ENDS.fullmatch(line):
            start, end = map(int, ends.groups())
            if max(start, end) < 1 << 64:
                self.must_follow(True)
                self.steps(start, end)
                return "ends"
        if begins := BEGINS.fullmatch(line):
            self.must_follow(False)
            self.begins(begins[1].decode(), (begins[2].decode(), begins[3].decode()))
            return begins[1].decode()
        if word := WORDS.get(line):
            self.must_follow(word != "recall")
            if word == "recall" and not self.log[0]:
                raise Fault("no log is followed yet: begin one")
            self.is_open = word == "open" or (word == "recall" and self.is_open)
            return word
        raise Fault(f"line {self.lines} is none that a keeper says")

    def must_follow(self, follows: bool) -> None:
        if self.follows != follows:
            raise Fault(f"line {self.lines} comes at the wrong time")

    def begins(self, word: str, log: tuple[str, str]) -> None:
        if word == "go_on" and not self.log[0]:
            raise Fault("no log is followed yet: begin one")
        if self.log[0] and (word == "begin" or log != self.log):
            raise Fault("the log %s of epoch %s is followed here: another one needs a new journal file" % self.log)
        self.log, self.follows = log, True

    def brings(self, line: bytes) -> None:
        self.size += len(line) + 1
        if len(self.texts) == MOST_LINES or self.size > MOST_BYTES:
            raise Fault("a step is too long")
        self.texts.append(line)

    def steps(self, start: int, end: int) -> None:
        texts, self.texts, self.size = self.texts, [], 0
        is_name = False
        for at, line in enumerate(texts, 1):
            it = self.entries.get(line)
            if it is None or (is_name and not isinstance(it[1], Name)):
                raise Fault(f"line {at} of step {end} is no entry")
            is_name = isinstance(it[1], Name)
        if end <= self.position:
            return
        if start != self.position:
            raise Fault(f"step {end} is from {start}, and the position is {self.position}")
        after = self.shared.copied()
        self.learns(after, [line for line in texts if line.startswith(b'{"once"')], end)
        for at, line in enumerate([line for line in texts if line.startswith(b'{"as"')], 1):
            self.carries(after, line, at, end)
        for seat in self.seats:
            if told := seat.event(self.shared, after):
                seat.owed.append((end, told))
        self.kept[end], self.position = after, end

    def learns(self, after: Shared, lines: list[bytes], end: int) -> None:
        for at, line in enumerate(lines, 1):
            role, name = self.entries[line] or ("", None)
            assert isinstance(name, Name)
            count = int(name.at.split(".")[1])
            if any(it.name == name.name for it in after.recent(role)) or not count <= after.count(role) <= count + 64:
                raise Fault(f"name {at} of step {end} may have an answer already")
            after.names.setdefault(role, []).append(name)

    def carries(self, after: Shared, line: bytes, at: int, end: int) -> None:
        role, it = self.entries[line] or ("", None)
        assert isinstance(it, dict)
        try:
            after.do(role, it)
        except Refused as why:
            raise Fault(f"entry {at} of step {end} is refused by {why.number}") from why
        after.entries.append(line)
        if it["do"] != "write":
            after.shape.append('{"as":"%s","made":{%s}' % (role, line.decode().partition('",')[2]))


def digest_of(request: bytes) -> str:
    return hashlib.sha256(request).hexdigest()


# ---- what is said

class Makes:
    """Entries, of which most are accepted, as texts that the door knows then."""

    def __init__(self, door: Door, dice: random.Random):
        self.door, self.dice, self.count = door, dice, 0

    def row(self) -> list[int | str]:
        return [self.dice.choice([self.dice.randrange(60), -(1 << 63), (1 << 63) - 1]), self.dice.choice([*ROLES, "", "é\u2028\U0001f600", '"\\', "x" * 300])]

    def write(self, shared: Shared) -> Request:
        entries = []
        for _ in range(self.dice.choice([1, 1, 1, 2, 5, 30])):
            on = self.dice.choice([name for name, it in shared.relations.items() if not it.over] or ["notes"])
            rows = shared.relations[on].rows if on in shared.relations else Rows()
            there = [[*row] for row in rows] or [self.row()]
            kind = self.dice.choice(["insert", "insert", "delete", "update"]) if rows else "insert"
            old = self.dice.choice(there)
            it: Request = {"on": on, kind: {"insert": self.row(), "delete": old, "update": [old, self.row()]}[kind]}
            if self.dice.random() < 0.1:
                it["copies"] = self.dice.randrange(1, 4)
            entries.append(it)
        return {"do": "write", "entries": entries}

    def request(self, shared: Shared) -> Request:
        dice = self.dice
        on, to, who = dice.choice([*TABLES, *VIEWS]), dice.choice([*ROLES, *GROUPS, "public"]), dice.choice([*ROLES, *GROUPS])
        table, name = dice.choice(TABLES), f"p{dice.randrange(3)}"
        choice = dice.random()
        if choice < 0.55:
            return self.write(shared)
        if choice < 0.75:
            return {"do": dice.choice(["grant", "grant", "revoke"]), "on": on, "privileges": dice.sample(PRIVILEGES, dice.randrange(1, 4)), "to": to}
        if choice < 0.82:
            return {"do": dice.choice(["grant_role", "revoke_role"]), "role": dice.choice(GROUPS), "to": who}
        if choice < 0.88:
            return {"do": "row_security", "on": table, "enable": dice.random() < 0.6, "force": dice.random() < 0.3}
        if choice < 0.93:
            return {"do": "create_policy", "on": table, "name": name, "using": dice.choice(POLICIES)}
        if choice < 0.95:
            return {"do": "drop_policy", "on": table, "name": name}
        if choice < 0.97:
            return {"do": "create_table", "name": table, "owner": who, "columns": [["id", "int"], ["who", "text"]]}
        if choice < 0.99:
            return {"do": "create_view", "name": dice.choice(VIEWS), "owner": who, "query": f"select who, count(*) as n from {table} group by who"}
        return {"do": "create_role", "name": who}

    def text(self, role: str, request: Request) -> bytes:
        """Its line, in some form of JSON."""
        dice, form = self.dice, self.dice.random()
        items = [*request.items()]
        if form < 0.2:
            dice.shuffle(items)
        said = json.dumps(dict(items), ensure_ascii=form < 0.3, separators=(",", ":") if form < 0.8 else (" ,\t", " : "))
        line = b'{"as":"%s",%s' % (role.encode(), said[1:].encode())
        self.door.entries[line] = role, request
        return line

    def entries(self, count: int, wrong: float) -> list[bytes]:
        """Lines of entries of which none is refused, but for a few."""
        after, lines = self.door.shared.copied(), list[bytes]()
        while len(lines) < count:
            role, request = self.dice.choice(["admin", "admin", "admin", *ROLES]), self.request(after)
            trial = after.copied()
            try:
                trial.do(role, request)
                after = trial
            except Refused:
                if self.dice.random() > wrong:
                    continue
            lines.append(self.text(role, request))
        return lines

    def named(self, epoch: str) -> list[bytes]:
        """Lines of names, which have no answer yet."""
        lines, more = [], dict[str, int]()
        for _ in range(self.dice.choice([0, 0, 0, 1, 3])):
            role = self.dice.choice(ROLES)
            self.count += 1
            count = self.door.shared.count(role) + more.get(role, 0)
            more[role] = more.get(role, 0) + 1
            asked = text_of({"do": "write", "entries": [{"on": "notes", "insert": [self.count, role]}]}).encode()
            is_done = self.dice.random() < 0.7
            answer = '{"ok":true}' if is_done else '{"error":13,"on":"notes","privilege":"insert"}'
            it = Name(f"n{self.count:021}", f"{epoch}.{self.dice.randrange(max(0, count - 64), count + 1)}", digest_of(asked), answer)
            line = text_of({"once": it.name, "at": it.at, "by": f"{role}/", "digest": it.digest, "done" if is_done else "refused": json.loads(answer)}).encode()
            self.door.entries[line] = role, it
            lines.append(line)
        return lines


HUGE = [b"0", b"00", b"1", b"-1", b"01", b"1.0", b"1e3", b"18446744073709551615", b"18446744073709551616", b"9" * 100, b"", b" 1", b"0x1", b"\xd9\xa1"]


def damaged(dice: random.Random, lines: list[bytes], position: int) -> list[bytes]:
    """Lines as nobody would say them. What becomes of an entry whose text is damaged is known: it is none."""
    at = dice.randrange(len(lines))
    line, before, behind = lines[at], lines[:at], lines[at + 1:]
    cut = dice.randrange(len(line))
    other = dice.choice([b"x" * 5, b"", b"\x00", b"{", b'{"as":"', b'{"as":"admin"}', b'{"once":"', b'{"open": true}', b'{"open":true} ', b'{"Open":true}', b'{"recall":false}',
                         b'{"recall":true}', BEGIN, GO_ON, GO_ON.replace(b"0", b"1", 1), GO_ON.replace(b"example", b"sample"), SHOWN,
                         b'{"as":"admin","do":"subscribe","on":"notes"}', b'{"as":"admin","do":"create_role","name":"zoe","id":7}', b'{"as":"admin","id":7,"do":"create_role","name":"zoe"}',
                         b'{"as":"Admin","do":"create_role","name":"zoe"}', b'{"as":"admin","session":1,"do":"create_role","name":"zoe"}', b'{"as":"admin","do":"begin","role":"ann"}',
                         b'{"as":"admin",,"do":"create_role","name":"zoe"}', b'{"as":"admin","do":"write","entries":[]}', b'{"as":"admin","do":"create_role","name":"zoe"}x',
                         b'{"from":%d,"step":%d}' % (position + 1, position + 9), b'{"from":%d,"step":%d}' % (position + 3, position + 2), b'{"step":1,"from":0}',
                         b'{"from":%s,"step":%s}' % (dice.choice(HUGE), dice.choice(HUGE)), b'{"as":"admin",' + b" " * 130_802, b'{"as":"admin",' + b" " * 130_803, b"y" * 140_000])
    made = {"cut": [*before, line[:cut], *behind], "doubled": [*before, line, line, *behind], "lost": before + behind,
            "exchanged": behind[:1] + [line] + behind[1:] if not before else [*before[:-1], line, before[-1], *behind],
            "in two": [*before, line[:cut], line[cut:], *behind], "in one": [*before, line + b"".join(behind[:1]), *behind[1:]],
            "a byte": [*before, line[:cut] + dice.choice([b"\xff", b"\x00", b"\x01"]) + line[cut + 1:], *behind], "another": [*before, other, line, *behind]}
    return made[dice.choice([*made, "another"])]
