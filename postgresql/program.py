"""The command line of viewd-postgresql."""
import argparse
import itertools
import os
import pathlib
import sys

import psycopg2
from psycopg2.extensions import parse_dsn

sys.path.append(str(pathlib.Path(__file__).resolve().parent.parent / "frontend"))

import door
import figures
import prepare
from beginning import NotReady
from bridge import bridge
from catalog import Unsettled, connect
from door import Ended, Kept
from follow import Follow
from rows import line
from settings import Settings, Wrong, read
from state import State, Unsayable, state

GOOD, LEFT_OUT, WRONG, UNREACHED, LEFT, KEPT, INTERRUPTED = 0, 1, 2, 3, 4, 5, 130  # exit statuses
BEGIN = {"do": "begin", "role": "admin"}
ROWS, LEAST, MOST = 65_536, 1_024, 1_048_576
EPILOG = """examples:
  viewd-postgresql check "host=127.0.0.1 dbname=desk user=postgres" --role viewd
      what viewd could have of the database, what not and why, and the SQL that is missing, for a role that need not be there
  viewd-postgresql init "host=127.0.0.1 dbname=desk user=viewd" viewd.toml
      writes a configuration with all relations that it could have
  viewd-postgresql show "host=127.0.0.1 dbname=desk user=viewd" viewd.toml | ./viewd replay
      tells a viewd all of it, as it is now
  viewd-postgresql follow "host=127.0.0.1 dbname=desk user=viewd" viewd.toml -- ./gateway --journal desk.jsonl --tokens tokens.toml
      starts a gateway, and brings it one state of the database after another

exit status: 0 if all is well; 1 if something is left out or missing (its words are on standard output, or for show and init
on standard error); 2 if the words or the configuration are wrong; 3 if PostgreSQL cannot be reached or refuses; 4 if follow's
gateway has ended, 5 if it needs a new journal.

docs/POSTGRESQL.md says what becomes what, and what is refused.
"""


def arguments(words: list[str]) -> argparse.Namespace:
    parser = argparse.ArgumentParser(prog="viewd-postgresql", description="viewd beside a PostgreSQL that stays as it is.", epilog=EPILOG,
                                     formatter_class=argparse.RawDescriptionHelpFormatter)
    commands = parser.add_subparsers(dest="command", required=True, metavar="check|init|show|follow")
    for name, what in (("check", "say what viewd could have of a database, and what is missing"), ("show", "print the requests that tell a viewd all of it"),
                       ("init", "write a configuration"), ("follow", "bring a gateway one state of it after another")):
        one = commands.add_parser(name, help=what, description=what)
        one.add_argument("dsn", metavar="DSN", help="which database, as libpq says it; \"\" for the one of the configuration")
        file = "where it is written, standard output if left out" if name == "init" else "the configuration, a file of TOML; all relations if left out"
        one.add_argument("config", metavar="CONFIG", nargs="?", type=pathlib.Path, help=file)
        if name == "follow":  # the gateway says how many rows it can hold
            one.set_defaults(rows=ROWS)
            one.add_argument("--port", type=int, help="where a gateway listens for this side; without it, and without words of a gateway behind --, "
                                                      "the gateway is at standard input and output")
            one.add_argument("--secret-file", type=pathlib.Path, help="the file that it has, too")
            one.add_argument("--status", type=int, metavar="PORT", help="of 127.0.0.1, where /state and /metrics tell how far it is")
            continue
        if name == "check":
            one.add_argument("--role", help="which role follow is to log in as; if left out, the user of the configuration's DSN, or else of this one")
        one.add_argument("--rows", type=int, default=ROWS, help=f"different rows of a table, as for viewd: {LEAST:,} to {MOST:,}, {ROWS:,} if left out")
    count = words.index("--") if "--" in words else len(words)
    given = parser.parse_args(words[:count])
    given.gateway = words[count + 1:]
    follows = given.command == "follow"
    if given.gateway and (not follows or given.port) or follows and bool(given.port) != bool(given.secret_file):
        parser.error("follow has a gateway behind --, or --port and --secret-file")
    if not LEAST <= given.rows <= MOST:
        parser.error(f"--rows is {LEAST:,} to {MOST:,}")
    return given


def complain(why: str) -> None:
    print(f"viewd-postgresql: {prepare.printable(why)}", file=sys.stderr)


def show(found: State) -> int:
    for request in itertools.chain([BEGIN], found.requests()):
        print(line('"session":1', request))
    for name, why in found.left_out():
        complain(f"{name} is left out: {why}")
    return GOOD if found.is_whole() else LEFT_OUT


def init(found: State, settings: Settings, path: pathlib.Path | None) -> int:
    text = prepare.configuration(found, settings)
    if path is None:
        print(text, end="")
    else:
        try:
            kept = os.open(path, os.O_WRONLY | os.O_CREAT | os.O_EXCL, 0o600)  # a DSN may have a password
        except FileExistsError:
            raise Wrong(f"{path} is there already") from None
        with open(kept, "w", encoding="utf-8") as file:
            file.write(text)
    left = [it.name for it in found.made.values() if it.faults]
    if left:
        complain(f"left out: {', '.join(left)}; check says why")
    return LEFT_OUT if left else GOOD


def follow(settings: Settings, given: argparse.Namespace) -> None:
    try:
        gateway = door.gateway(given.gateway, given.port, given.secret_file)
    except OSError as why:
        raise Ended(f"no gateway: {why}") from None
    try:
        one = Follow(settings, gateway)
        if given.status is not None:
            figures.serve(given.status, one.figures)
        one.run()
    finally:
        gateway.close()


def check(settings: Settings, given: argparse.Namespace) -> int:
    configured = parse_dsn(read(given.config, "").dsn).get("user") if given.config else None
    try:
        connection = connect(settings.dsn)
    except psycopg2.OperationalError as why:
        if given.role is not None or "FATAL" not in str(why):
            raise
        raise psycopg2.OperationalError(f"{str(why).strip()}; by the DSN of an administrator, --role NAME prints what makes a role that is not there") from None
    try:
        found = state(connection, settings, given.rows)
        role = given.role if given.role is not None else configured or found.catalog.server.user
        report, good = prepare.told(found, settings, bridge(connection, found, role))
    finally:
        connection.close()
    print(report, end="")
    return GOOD if good else LEFT_OUT


def run(given: argparse.Namespace) -> int:
    settings = read(given.config, given.dsn) if given.config and given.command != "init" else Settings(given.dsn)
    if given.command == "follow":
        follow(settings, given)
    if given.command == "check":
        return check(settings, given)
    connection = connect(settings.dsn)
    try:
        found = state(connection, settings, given.rows)
    finally:
        connection.close()
    return show(found) if given.command == "show" else init(found, settings, given.config)


def main(words: list[str]) -> int:
    try:
        status = run(arguments(words))
        sys.stdout.flush()
        return status
    except BrokenPipeError:
        os.dup2(os.open(os.devnull, os.O_WRONLY), sys.stdout.fileno())
        return WRONG
    except Unsayable as why:
        complain(str(why))
        return LEFT_OUT
    except (Wrong, OSError) as why:
        complain(str(why))
        return WRONG
    except Ended as why:
        complain(str(why))
        return LEFT
    except Kept as why:
        complain(str(why))
        return KEPT
    except (psycopg2.Error, Unsettled, NotReady) as why:
        complain(f"PostgreSQL: {' '.join(str(why).split())}")
        return UNREACHED
    except UnicodeDecodeError as why:
        complain(f"PostgreSQL: a text is not UTF-8, of a role, say, that was made in a database with another encoding: {why.object!r:.80}")
        return UNREACHED
    except KeyboardInterrupt:
        return INTERRUPTED


if __name__ == "__main__":
    sys.stdout = open(sys.stdout.fileno(), "w", encoding="utf-8", closefd=False)  # viewd's lines are UTF-8, whatever the terminal has
    sys.exit(main(sys.argv[1:]))
