"""The processor time of 2,000 writes of one row, beside the same writes when more has to be looked at: by a role that holds
every privilege on each of 64 tables, while 255 roles hold them all too, beside one that holds the one privilege that it
needs; and by a member that holds it through 32 roles, each a member of the next, beside one that holds it through one.

A time is the least of five rounds, without the lines before the writes, since other work on the machine only adds. Each pair's
last line is the ratio of the two: near 1 if a write does not look at the grants one by one, nor follow the members. It says
nothing of how fast another machine is. VIEWD names another program to run.
"""
import sys

from viewd_bench.measure import Run, own_program, part_of
from viewd_bench.workloads import Request, request, roles, write

TABLES = [f"t{n}" for n in range(64)]
ROLES = [f"r{n}" for n in range(255)]
ALL = ["select", "insert", "update", "delete"]
WRITES = 2_000
STEPS = 32


def grant(table: str, role: str, privileges: list[str]) -> Request:
    return request("grant", on=table, to=role, privileges=privileges)


def before(writer: str) -> list[Request]:
    """Roles and tables, and a session of the role that writes."""
    tables = [request("create_table", name=table, owner="admin", columns=[["id", "int"]]) for table in TABLES]
    return [request("begin", role="admin"), *roles(ROLES), *tables, request("begin", 2, role=writer)]


def through(steps: int) -> list[Request]:
    """The first role holds the privilege through so many roles, and the last of them is granted it."""
    members = [request("grant_role", role=ROLES[n + 1], to=ROLES[n]) for n in range(steps)]
    return [grant(TABLES[-1], ROLES[steps], ["insert"])] + members


EVERY = [grant(table, role, ALL) for table in TABLES for role in ROLES]
ONE = [grant(TABLES[-1], ROLES[-1], ["insert"])]
INSERTS = [{**write(TABLES[-1], "insert", [[n]]), "session": 2} for n in range(WRITES)]


def seconds(program: str, begin: list[Request]) -> float:
    """Processor seconds of a write after these requests, each answered by ok."""
    run = Run(program)
    told = [run.tell(part_of(requests)) for requests in (begin, INSERTS)]
    run.end()
    if [it.ok for it in told] != [len(begin), WRITES]:
        sys.exit(f"grants: {told[0].ok} and {told[1].ok} of {len(begin)} and {WRITES} requests were answered by ok")
    return told[1].seconds / WRITES


def compare(program: str, writer: str, named: list[tuple[str, list[Request]]]) -> None:
    begins = [before(writer) + rights for _, rights in named]
    few, many = (min(costs) for costs in zip(*([seconds(program, begin) for begin in begins] for _ in range(5))))
    for (name, _), cost in zip(named, (few, many)):
        print(f"{name:<20} {cost * 1e6:6.2f} microseconds of processor time a write")
    print(f"{many / few:.2f} times the cost a write")


def main(words: list[str]) -> int | str | None:
    if words:
        return __doc__
    program = own_program()
    compare(program, ROLES[-1], [(f"with {len(ONE)} grant:", ONE), (f"with {len(EVERY):,} grants:", EVERY)])
    compare(program, ROLES[0], [("through 1 step:", through(1)), (f"through {STEPS} steps:", through(STEPS))])
    return 0
