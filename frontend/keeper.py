#!/usr/bin/python3
"""Has a gateway follow the journal of another one: reads its file as it grows, and brings it through the door for logs.

    frontend/keeper.py JOURNAL -- ./gateway --journal COPY --tokens TOKENS --port 8081      starts that gateway, and ends with it
    frontend/keeper.py JOURNAL --port PORT --secret-file FILE                               the gateway runs with --log PORT

So several gateways serve what one decides: the others show it, and refuse changes by 100. A record is a step, and its position is how many
there are with it. The keeper keeps nothing: a gateway that has followed before tells what it holds, and that is compared with the file. If
they differ, since the journal was compacted or is another copy, the gateway needs a new journal file: move its own away.

Status 1 if a file is not usable, 2 if the words are wrong, 3 if no gateway answers, 4 if it ends, 5 if the journal is not the one that it has followed.
"""
import argparse
import pathlib
import sys
import time

import door
from door import Door, Ended, Held
from journal import Damaged
from leader import Another, Leader

LOG = "journal"  # the name of a log of this kind
LOOK = 0.004  # seconds between two looks at the file
TRIES, WAIT = 50, 0.1  # at a journal that has no head yet, and seconds between them
ANEW = "its gateway needs a new journal file"


def log(text: str) -> None:
    print(f"keeper: {text}", file=sys.stderr, flush=True)


class Keeper:
    def __init__(self, leader: Leader, door: Door):
        self.leader, self.door = leader, door
        self.is_open = False

    def start(self) -> None:
        """Begins, or goes on behind what the gateway holds. Raises Another, Damaged, Ended."""
        for _ in range(TRIES):
            if self.leader.head():
                break
            time.sleep(WAIT)
        else:
            raise Damaged(f"{self.leader.path} has no first line of a journal")
        held = self.door.hello()
        if held.log:
            self.compare(held)
            self.door.go_on(held.log, held.epoch)
            log(f"goes on behind record {held.position}")
        else:
            self.door.begin(LOG, self.leader.epoch)
            log(f"begins with {self.leader.path}")

    def compare(self, held: Held) -> None:
        """What the gateway holds has to be what the file has up to its position."""
        if (held.log, held.epoch) != (LOG, self.leader.epoch):
            raise Another(f"the gateway follows {held.log} of epoch {held.epoch}, and {self.leader.path} is of {self.leader.epoch}: {ANEW}")
        told = self.door.recall()
        while self.leader.count < held.position:
            before = self.leader.count
            for record in self.leader.more():
                for it in record:
                    if not it.startswith(b'{"once":') and next(told, b"") != it:
                        raise Another(f"record {self.leader.count} of {self.leader.path} is not what the gateway holds: it was compacted, or is "
                                      f"another copy; {ANEW}")
                if self.leader.count == held.position:
                    break
            if self.leader.count == before:
                raise Another(f"{self.leader.path} has {before} records, and the gateway holds {held.position}: it was compacted, or is an older copy; {ANEW}")
        if next(told, None) is not None:
            raise Another(f"the gateway holds more than {self.leader.path} has up to record {held.position}: it was compacted, or is another copy; {ANEW}")

    def run(self) -> None:
        """Raises Another, Damaged, Ended."""
        while True:
            before = self.leader.count
            for record in self.leader.more():
                self.door.step(self.leader.count - 1, self.leader.count, record)
            if self.leader.count > before:
                self.door.flush()
            if self.door.kept() == self.leader.count and not self.is_open:
                self.is_open = True
                self.door.open(True)
                log(f"open, behind record {self.leader.count}")
            if self.leader.count == before:
                time.sleep(LOOK)


def main(given: argparse.Namespace) -> int:
    try:
        leader = Leader(given.journal)
    except OSError as why:
        log(str(why))
        return 1
    try:
        gateway = door.gateway(given.gateway, given.port, given.secret_file)
    except OSError as why:
        log(f"no gateway: {why}")
        return 3
    status = 4
    try:
        keeper = Keeper(leader, gateway.door)
        keeper.start()
        keeper.run()
    except Ended as why:
        log(str(why))
    except (Damaged, OSError) as why:
        log(str(why))
        status = 1
    except Another as why:
        log(str(why))
        status = 5
    finally:
        gateway.close()
    return status


def words() -> argparse.Namespace:
    parser = argparse.ArgumentParser(description=__doc__, formatter_class=argparse.RawDescriptionHelpFormatter)
    parser.add_argument("--port", type=int, help="where the gateway listens for its keeper")
    parser.add_argument("--secret-file", type=pathlib.Path, help="the file that the gateway has, too")
    parser.add_argument("journal", metavar="JOURNAL", type=pathlib.Path)
    parser.add_argument("gateway", metavar="GATEWAY", nargs="*", help="a gateway and its words, behind --")
    given = parser.parse_args()
    if bool(given.gateway) == bool(given.port) or bool(given.port) != bool(given.secret_file):
        parser.error("give a gateway behind --, or --port and --secret-file")
    return given


if __name__ == "__main__":
    try:
        sys.exit(main(words()))
    except KeyboardInterrupt:
        sys.exit(130)
