"""The command line: what changes, as lines; writes, tables from and to files, types, and who may what."""
from __future__ import annotations

import argparse
import asyncio
import csv
import json
import os
import pathlib
import shutil
import sys
from collections.abc import Awaitable, Callable, Iterator, Sequence
from typing import Any, TextIO

from .client import BYTES, LONGEST, Db, connect, text
from .faults import NotSent, Refused, Undecided, ViewdError
from .rows import Columns, Live, Row, Value, Where, seen_of
from .shape import shape_of

REFUSED, WRONG, LOST, INTERRUPTED = 1, 2, 3, 130
ENTRIES = 500  # of a write that an import makes, at most
ROOM = BYTES - len(text({**LONGEST, "do": "write", "entries": []}))  # for them
COPIES = 1_000_000  # of a row that an export writes, at most
EPILOG = """statuses: 0 done, 1 refused by the gateway, 2 wrong words or input, 3 no connection, or undecided

examples:
  export VIEWD_URL=ws://127.0.0.1:8080/live VIEWD_TOKEN=..       # or --url, --token-file
  viewd-client watch tickets                                     # a JSON line for each change, first all rows
  viewd-client watch tickets | jq -c 'select(.row.open).row'
  viewd-client watch tickets --table --where open=true --order -id --limit 20
  echo '{"on":"tickets","insert":{"id":7,"agent":"mia","subject":"Hello","open":true}}' | viewd-client write
  viewd-client import tickets.csv                                # into the relation tickets; --into says another
  viewd-client export tickets --csv > tickets.csv
  viewd-client types --typescript tickets workload > relations.d.ts
  viewd-client grants tickets | jq -c 'select(.to == "public")'  # with an administrator's token; so are roles and policies"""


class Wrong(Exception):
    """Wrong words or input."""


def say(words: str) -> None:
    """Words to the person, on standard error."""
    print(f"viewd-client: {words}", file=sys.stderr, flush=True)


# ---- values


def value_of(word: str, kind: str) -> Value:
    """A value from its word. Raises Wrong."""
    if kind == "text":
        return word
    if kind == "flag" and word in ("true", "false"):
        return word == "true"
    if kind == "int" and word.removeprefix("-").isdecimal() and word.isascii() and -(2 ** 63) <= int(word) < 2 ** 63:
        return int(word)
    raise Wrong(f"{word!r} is no {kind}: " + ("true or false is" if kind == "flag" else "a whole number of 64 bits is"))


def word_of(value: Value) -> str:
    """A value as a word in a file or a table."""
    return "null" if value is None else str(value).lower() if isinstance(value, bool) else str(value)


def where_of(words: Sequence[str], columns: Columns) -> Where | None:
    """What rows have to have, of words like `open=true`. Raises Wrong."""
    where: dict[str, Value] = {}
    for word in words:
        name, equals, value = word.partition("=")
        if not equals or name not in dict(columns):
            raise Wrong(f"--where {word}: a column, = and a value; the columns are {', '.join(dict(columns))}")
        where[name] = value_of(value, dict(columns)[name])
    return where or None


def order_of(words: Sequence[str], columns: Columns) -> list[str]:
    """The order, of words like `-id,subject`. Raises Wrong."""
    order = [name for word in words for name in word.split(",")]
    for name in order:
        if name.removeprefix("-") not in dict(columns):
            raise Wrong(f"--order {name}: the columns are {', '.join(dict(columns))}")
    return order


async def view(db: Db, words: argparse.Namespace) -> Live:
    """The relation as the words choose it."""
    columns = await db.columns(words.relation)
    return db.live(words.relation, where=where_of(words.where, columns), order=order_of(words.order, columns), limit=words.limit)


# ---- commands


async def watch(db: Db, words: argparse.Namespace) -> None:
    """Prints what changes, until it is ended."""
    if words.table:
        return await table(db, words)
    if words.order or words.limit is not None:
        raise Wrong("--order and --limit are for --table: changes come as they are")
    where = where_of(words.where, await db.columns(words.relation) if words.where else [])
    names = dict(where) if isinstance(where, dict) else {}
    async for changes in db.changes(words.relation):
        for it in changes:
            if all(it.row[name] == value for name, value in names.items()):
                sys.stdout.write(text({"copies": it.copies, "row": it.row}) + "\n")
        sys.stdout.flush()


async def table(db: Db, words: argparse.Namespace) -> None:
    """Shows the rows as a table, again after each change."""
    live = await view(db, words)
    async for rows in live:
        if live.state == "refused":
            raise live.why if isinstance(live.why, Refused) else ViewdError(f"{live.on} was ended: {live.why}")
        size = shutil.get_terminal_size()
        is_screen = sys.stdout.isatty()
        lines = lines_of(rows[: size.lines - 3] if is_screen and words.limit is None else rows, live.columns or [], size.columns if is_screen else None)
        foot = f"{len(lines) - 1} of {live.total} rows, {live.state}"
        sys.stdout.write(("\x1b[H\x1b[2J" if is_screen else "") + "\n".join([*lines, foot]) + "\n" + ("" if is_screen else "\n"))
        sys.stdout.flush()
    raise NotSent(db.why or "the client has ended")


def lines_of(rows: Sequence[Row], columns: Columns, width: int | None) -> list[str]:
    """A head and a line for each row: numbers at the right, and each line no wider than that."""
    names = [name for name, _ in columns]
    cells = [names, *([shown(row[name]) for name in names] for row in rows)]
    widths = [max(len(line[at]) for line in cells) for at in range(len(names))]
    lines = []
    for line in cells:
        words = [it.rjust(size) if kind == "int" else it.ljust(size) for it, size, (_, kind) in zip(line, widths, columns)]
        lines.append("  ".join(words).rstrip()[:width])
    return lines


def shown(value: Value) -> str:
    """A value on a screen: what would move the cursor is shown as a mark."""
    return "".join(it if it.isprintable() else "\ufffd" for it in word_of(value))


async def write(db: Db, words: argparse.Namespace) -> None:
    """Carries out lines: each one is an entry, or a list of entries that are carried out together or not at all."""
    with open(words.file, encoding="utf-8") if words.file else sys.stdin as file:
        for number, line in enumerate(file, 1):
            if not line.strip():
                continue
            try:
                said = json.loads(line)
            except ValueError as why:
                raise Wrong(f"line {number} is no JSON: {why}") from None
            entries = said if isinstance(said, list) else [said]
            if not all(isinstance(it, dict) and isinstance(it.get("on"), str) for it in entries) or not entries:
                raise Wrong(f'line {number} is no entry as {{"on":"tickets","insert":{{..}}}}, and no list of them')
            await at(f"line {number}", db.write(entries))


async def at(where: str, work: Awaitable[Any]) -> None:
    """Says where it failed."""
    try:
        await work
    except ViewdError as why:
        why.args = (f"{where}: {why}",)
        raise


async def take_in(db: Db, words: argparse.Namespace) -> None:
    """Inserts the rows of a file of CSV, whose first line has the names of all columns. A wrong value is told before anything is sent."""
    into = words.into or pathlib.Path(words.file).stem
    if words.file == "-" and not words.into:
        raise Wrong("import -: --into says which relation")
    columns = await db.columns(into)
    try:
        with sys.stdin if words.file == "-" else open(words.file, encoding="utf-8-sig", newline="") as file:
            rows = rows_of(file, columns)
    except (OSError, UnicodeDecodeError, csv.Error) as why:
        raise Wrong(f"{words.file}: {why}") from None
    written = 0
    for batch in batches(into, rows):
        numbers = [number for number, _ in batch]
        try:
            await db.write([{"on": into, "insert": values} for _, values in batch])
        except Refused as why:
            line = numbers[why.reply["entry"] - 1] if "entry" in why.reply else numbers[0]
            why.args = (f"line {line}: {why}; {counted(written)} before line {numbers[0]} were inserted, and none from there on",)
            raise
        except Undecided as why:
            why.args = (f"lines {numbers[0]} to {numbers[-1]}: {why}; {counted(written)} before them were inserted, and none behind them",)
            raise
        written += len(batch)
        progress(written, len(rows))
    say(f"{counted(written)} were inserted into {into}")


def rows_of(file: TextIO, columns: Columns) -> list[tuple[int, list[Value]]]:
    """Lines of a file with their rows. Raises Wrong."""
    lines = csv.reader(file, strict=True)
    names: list[str] = next(lines, [])
    if sorted(names) != sorted(name for name, _ in columns):
        raise Wrong(f"the first line has to name the columns {', '.join(name for name, _ in columns)}")
    rows = []
    for line in lines:
        number = lines.line_num
        if not line:
            continue
        if len(line) != len(names):
            raise Wrong(f"line {number} has {len(line)} values, and there are {len(names)} columns")
        cells = dict(zip(names, line))
        try:
            rows.append((number, [value_of(cells[name], kind) for name, kind in columns]))
        except Wrong as why:
            raise Wrong(f"line {number}: {why}") from None
    return rows


def batches(on: str, rows: Sequence[tuple[int, list[Value]]]) -> Iterator[list[tuple[int, list[Value]]]]:
    """The rows in parts, each of them one message."""
    batch: list[tuple[int, list[Value]]] = []
    size = 0
    for number, values in rows:
        own = len(text({"on": on, "insert": values}).encode()) + 1
        if batch and (len(batch) == ENTRIES or size + own > ROOM):
            yield batch
            batch, size = [], 0
        batch.append((number, values))
        size += own
    if batch:
        yield batch


def counted(rows: int) -> str:
    return f"{rows:,} row" + ("" if rows == 1 else "s")


def progress(done: int, all_rows: int) -> None:
    """A bar, if a person looks on."""
    if sys.stderr.isatty():
        bar = "#" * (30 * done // all_rows)
        print(f"\r[{bar:30}] {done:,} of {all_rows:,} rows", end="\n" if done == all_rows else "", file=sys.stderr, flush=True)


async def give_out(db: Db, words: argparse.Namespace) -> None:
    """Prints the rows, each copy on a line."""
    if words.csv and words.nulls:
        raise Wrong("--csv has no null: without --nulls the flag NAME_null says it, and import reads that")
    live = await view(db, words)
    rows = await live.ready()
    names = [name for name, _ in live.columns or []]
    lines = csv.writer(sys.stdout, lineterminator="\n")
    if words.csv:
        lines.writerow(names)
    for row in rows:
        copies = live.copies(row)
        if copies > COPIES:
            raise ViewdError(f"{text(row)} has {copies:,} copies, more than {COPIES:,}")
        for _ in range(copies):
            if words.csv:
                lines.writerow([word_of(row[name]) for name in names])
            else:
                sys.stdout.write(text(row) + "\n")


async def types(db: Db, words: argparse.Namespace) -> None:
    """Prints an interface of TypeScript with the relations and the types of their rows."""
    kinds = {"int": "number | bigint", "text": "string", "flag": "boolean"}
    lines = ["/** Relations by their names, each with the type of its rows. */", "export interface Relations {"]
    for on in dict.fromkeys(words.relations):
        seen = seen_of(await db.columns(on), words.folds)
        members = "; ".join(f"{it.name}: {kinds[it.kind]}{' | null' if it.may_be_null else ''}" for it in seen)
        lines.append(f"  {on}: {{{members}}};")
    print("\n".join([*lines, "}"]))


async def roles(db: Db, words: argparse.Namespace) -> None:
    """Prints each role, and which roles it is a member of itself."""
    shape = shape_of(await db.made())
    for name in shape.roles:
        put({"role": name, "member_of": [role for role, member in shape.members if member == name]})


async def grants(db: Db, words: argparse.Namespace) -> None:
    """Prints what each role holds of each relation."""
    shape = shape_of(await db.made())
    for on in chosen(words, [*shape.owners]):
        for role, held in shape.grants[on].items():
            if held:
                put({"on": on, "to": role, "privileges": held, "owner": role == shape.owners[on]})


async def policies(db: Db, words: argparse.Namespace) -> None:
    """Prints each policy, and of tables with row security and no policy that there is none."""
    shape = shape_of(await db.made())
    for on in chosen(words, [*shape.owners]):
        enable, force = shape.security.get(on, (False, False))
        own = [it for it in shape.policies if it["on"] == on]
        for it in own:
            tests = {key: it[key] for key in ("using", "check") if key in it}
            put({"on": on, "policy": it["name"], "kind": "restrictive" if it.get("restrictive") else "permissive", "command": it.get("command", "all"),
                 "to": it.get("to", ["public"]), **tests, "enabled": enable, "forced": force})
        if enable and not own:
            put({"on": on, "policy": None, "enabled": enable, "forced": force})


def chosen(words: argparse.Namespace, there: list[str]) -> list[str]:
    """The relation of the words, or all. Raises Wrong."""
    if words.relation is None:
        return there
    if words.relation not in there:
        raise Wrong(f"there is no relation {words.relation}")
    return [words.relation]


def put(value: object) -> None:
    """A line."""
    sys.stdout.write(text(value) + "\n")


# ---- words


def parser() -> argparse.ArgumentParser:
    """The words that are understood."""
    form = argparse.RawDescriptionHelpFormatter
    whole = argparse.ArgumentParser("viewd-client", description="A client of viewd's gateway.", epilog=EPILOG, formatter_class=form)
    common = argparse.ArgumentParser(add_help=False)
    common.add_argument("--url", default=os.environ.get("VIEWD_URL", "ws://127.0.0.1:8080/live"), type=addresses,
                        help="the gateway, or several of one log with blanks between; VIEWD_URL, or %(default)s")
    common.add_argument("--token-file", type=pathlib.Path, metavar="FILE", help="a file with the token alone; by default VIEWD_TOKEN is the token")
    common.add_argument("--wait", type=float, default=10, metavar="SECONDS", help="for the gateway at first (%(default)s)")
    choice = argparse.ArgumentParser(add_help=False)
    choice.add_argument("--where", action="append", default=[], metavar="COLUMN=VALUE", help="rows that have this value; may stand several times")
    choice.add_argument("--order", action="append", default=[], metavar="COLUMN,..", help="by these columns, - in front for the largest first")
    choice.add_argument("--limit", type=int, metavar="N", help="the first N different rows")
    nulls = argparse.ArgumentParser(add_help=False)
    nulls.add_argument("--nulls", action="store_true", help="null in the column NAME, in the place of NAME and the flag NAME_null behind it")
    commands = whole.add_subparsers(metavar="COMMAND", required=True)

    def command(name: str, act: Callable[[Db, argparse.Namespace], Awaitable[None]], words: str, *parents: argparse.ArgumentParser) -> argparse.ArgumentParser:
        one = commands.add_parser(name, help=words, description=f"{words[0].upper()}{words[1:]}.", parents=[common, *parents])
        one.set_defaults(act=act, nulls=False)
        return one

    one = command("watch", watch, 'print each change as a JSON line {"copies":..,"row":{..}}, first all rows that are there', choice, nulls)
    one.add_argument("relation")
    one.add_argument("--table", action="store_true", help="show the rows as a table that stays live")
    one = command("write", write, "carry out entries, a JSON line each; a list of entries on a line is done as a whole or not at all", nulls)
    one.add_argument("file", nargs="?", help="by default standard input")
    one = command("import", take_in, "insert the rows of a file of CSV whose first line names the columns")
    one.add_argument("file", help="- for standard input")
    one.add_argument("--into", metavar="RELATION", help="by default the name of the file")
    one = command("export", give_out, "print the rows, each as a JSON line", choice, nulls)
    one.add_argument("relation")
    one.add_argument("--csv", action="store_true", help="print them as CSV instead, which import reads")
    one = command("types", types, "print the types of rows for a program")
    one.add_argument("--typescript", action="store_true", required=True, help="as an interface of TypeScript")
    one.add_argument("--nulls", action="store_true", dest="folds", help="of a client with the option nulls")
    one.add_argument("relations", nargs="+", metavar="relation")
    command("roles", roles, "print each role, and of which it is a member, as a JSON line; for administrators")
    for name, act, what in (("grants", grants, "print what each role holds of each relation"), ("policies", policies, "print row security and each policy")):
        one = command(name, act, f"{what}, as a JSON line; for administrators")
        one.add_argument("relation", nargs="?", help="by default all")
    return whole


def addresses(words: str) -> list[str]:
    """What --url says."""
    if not words.split():
        raise argparse.ArgumentTypeError("there is no address")
    return words.split()


def token_of(words: argparse.Namespace) -> str:
    """The token. Raises Wrong."""
    try:
        token = words.token_file.read_text().strip() if words.token_file else os.environ.get("VIEWD_TOKEN", "")
    except (OSError, UnicodeDecodeError) as why:
        raise Wrong(str(why)) from None
    if not token:
        raise Wrong("there is no token: VIEWD_TOKEN has it, or the file that --token-file names")
    return str(token)


async def done(words: argparse.Namespace) -> None:
    """Carries out what the words say. Raises Wrong, and what the client raises."""
    db = connect(words.url, token=token_of(words), nulls=words.nulls)
    try:
        try:
            async with asyncio.timeout(words.wait):
                await db.__aenter__()
        except TimeoutError:
            raise NotSent(f"there is no gateway at {' or '.join(words.url)}" + (f": {db.why}" if db.why else "")) from None
        db.on_state(lambda state, why: None if state == "closed" else say(f"{state}: {why}; trying again" if why else f"{state} again"))
        await words.act(db, words)
        sys.stdout.flush()
    finally:
        await db.end()


def main() -> int:
    """The command line. Its status."""
    # a word after --order may begin with -, which argparse takes for another option
    given = sys.argv[1:]
    for place in [at for at, word in enumerate(given[:-1]) if word == "--order"][::-1]:
        given[place : place + 2] = [f"--order={given[place + 1]}"]
    words = parser().parse_args(given)
    try:
        asyncio.run(done(words))
        return 0
    except (Wrong, OSError, UnicodeDecodeError) as why:
        if isinstance(why, BrokenPipeError):  # who read has enough
            os.dup2(os.open(os.devnull, os.O_WRONLY), sys.stdout.fileno())
            return 0
        say(str(why))
        return WRONG
    except (NotSent, Undecided) as why:
        say(str(why))
        return LOST
    except ViewdError as why:
        say(str(why))
        return REFUSED
    except KeyboardInterrupt:
        return INTERRUPTED
