"""In which order crates are proved, with how many jobs, and what a failure leaves out."""
import threading
from dataclasses import dataclass, field

from viewd_ci.build import Host, chains, side_by_side
from viewd_ci.kit import keep_stamps


@dataclass(eq=False)
class Crate:
    name: str
    deps: list["Crate"] = field(default_factory=list)

    def below(self) -> list["Crate"]:
        found: list[Crate] = []
        for it in self.deps:
            found += [other for other in [*it.below(), it] if other not in found]
        return found


LOW = Crate("low")
LEFT, RIGHT = Crate("left", [LOW]), Crate("right", [LOW])
TOP = Crate("top", [LEFT, RIGHT])
ALONE = Crate("alone")
CRATES = [LOW, LEFT, RIGHT, TOP, ALONE]
MINUTES = {"low": 2.0, "left": 5.0, "right": 1.0, "top": 1.0, "alone": 3.0}


class Proofs:
    """What was proved, in its order, with the jobs of each, and the most of both at a time."""

    def __init__(self, failing: str = "") -> None:
        self.failing, self.order, self.jobs = failing, list[str](), dict[str, int]()
        self.now = self.most = 0
        self.lock = threading.Lock()

    def prove(self, crate: Crate, jobs: int) -> bool:
        with self.lock:
            assert all(it.name in self.order for it in crate.below())
            self.now += jobs
            self.most = max(self.most, self.now)
        with self.lock:
            self.order.append(crate.name)
            self.jobs[crate.name] = jobs
            self.now -= jobs
        return crate.name != self.failing


def host(lanes: int, is_fixed: bool = False, memory: float = 100.0) -> Host:
    return Host(lanes, is_fixed, memory, lambda _: 10.0, MINUTES)


def test_a_chain_is_the_longest_of_those_above() -> None:
    assert chains(CRATES, MINUTES) == {TOP: 1.0, LEFT: 6.0, RIGHT: 2.0, LOW: 8.0, ALONE: 3.0}


def test_the_longest_chain_comes_first() -> None:
    proofs = Proofs()
    assert side_by_side(CRATES, proofs.prove, host(1))
    assert proofs.order == ["low", "left", "alone", "right", "top"]


def test_all_are_proved_by_no_more_jobs_than_there_are() -> None:
    for lanes in (1, 2, 3, 4, 8):
        proofs = Proofs()
        assert side_by_side(CRATES, proofs.prove, host(lanes))
        assert sorted(proofs.order) == sorted(it.name for it in CRATES) and proofs.most <= lanes


def test_fixed_jobs_are_one_a_crate() -> None:
    proofs = Proofs()
    assert side_by_side(CRATES, proofs.prove, host(4, is_fixed=True, memory=1.0))
    assert set(proofs.jobs.values()) == {1}


def test_without_memory_one_is_proved_at_a_time() -> None:
    proofs = Proofs()
    assert side_by_side(CRATES, proofs.prove, host(4, memory=10.0))
    assert set(proofs.jobs.values()) == {1} and proofs.most == 1


def test_what_stands_on_a_failure_is_left_out() -> None:
    proofs = Proofs("left")
    assert not side_by_side(CRATES, proofs.prove, host(2))
    assert sorted(proofs.order) == ["alone", "left", "low", "right"]


class Stamped:
    """A crate as the kit has it, whose stamp asks each crate below for its own."""

    def __init__(self, name: str, deps: list["Stamped"], asked: list[str]) -> None:
        self.name, self.deps, self.asked = name, deps, asked

    def stamp(self) -> str:
        self.asked.append(self.name)
        return f"{self.name}({','.join(it.stamp() for it in self.deps)})"


class Kept(Stamped):
    """What the gate has in its place."""


def levels(kind: type[Stamped], asked: list[str]) -> Stamped:
    """Two crates on each of six levels, each over both of the level below, and one over all."""
    below: list[Stamped] = []
    for level in range(6):
        below = [kind(f"{side}{level}", below, asked) for side in "ab"]
    return kind("top", below, asked)


def test_a_stamp_is_made_once_a_crate() -> None:
    many, once = list[str](), list[str]()
    plain = levels(Stamped, many).stamp()
    keep_stamps(Kept)
    top = levels(Kept, once)
    assert top.stamp() == top.stamp() == plain
    assert len(many) == 1 + 2 + 4 + 8 + 16 + 32 + 64
    assert sorted(once) == sorted({*many})
