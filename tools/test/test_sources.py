"""What is refused in sources, and which lines of answers are of the protocol."""
import json
import random

import pytest

from viewd_ci import meters, own, seeds, types
from viewd_ci.fuzz import damaged, kind_of


def test_collections_without_the_seed_are_refused() -> None:
    assert seeds.refused(seeds.SAMPLE.splitlines()) == seeds.OF_SAMPLE


@pytest.mark.parametrize(("crate", "text"), meters.WALKS)
def test_a_meter_on_the_side_is_told(crate: str, text: str) -> None:
    assert len(list(meters.faults(crate, "walk.rt", text))) == 1


def test_a_meter_that_is_lent_is_none_on_the_side() -> None:
    assert list(meters.faults("iv_delta", "step.rt", "use iv_zset::{Meter, ZSet};\nfn step(meter: &mut Meter) {\n    // a Meter\n}\n")) == []


def line(**keys: object) -> str:
    return json.dumps(keys, sort_keys=True, separators=(",", ":"))


@pytest.mark.parametrize(
    ("kind", "told"),
    [
        pytest.param("ok", line(ok=True, session=1), id="a reply"),
        pytest.param("ok", line(ok=True, session=1, sub=3), id="a reply with a subscription"),
        pytest.param("error 1", line(error=1), id="a refusal without a session"),
        pytest.param("error 13", line(error=13, session=1, on="t", privilege="select"), id="a refusal with its keys"),
        pytest.param("changes", line(changes=[[1, [1, "a"]], [-2, [1, "b"]]], session=1, sub=1), id="changes in their order"),
        pytest.param("ended", line(changes=[], ended="privilege", session=1, sub=1), id="an end without rows"),
        pytest.param(None, line(ok=False, session=1), id="a reply that is not ok"),
        pytest.param(None, line(error=1, session=1), id="a refusal with a key too many"),
        pytest.param(None, line(error=13, session=1, on="t"), id="a refusal without one of its keys"),
        pytest.param(None, line(error=99, session=1), id="a number of no refusal"),
        pytest.param(None, line(changes=[], session=1, sub=1), id="changes without a row"),
        pytest.param(None, line(changes=[[1, ["b"]], [1, ["a"]]], session=1, sub=1), id="changes out of order"),
        pytest.param(None, line(changes=[[0, ["a"]]], session=1, sub=1), id="a weight of nothing"),
        pytest.param(None, line(ok=True, session=0), id="a session that may not be"),
        pytest.param(None, '{"session":1,"ok":true}', id="keys in another order"),
        pytest.param(None, '{"ok":true, "session":1}', id="a blank"),
    ],
)
def test_a_line_is_of_the_protocol(kind: str | None, told: str) -> None:
    assert kind_of(told) == kind


def test_damage_is_drawn_by_the_seed() -> None:
    some, others = b'{"do":"begin","role":"ann","session":1}', [b'{"do":"write"}']
    one, other = ([damaged(some, others, random.Random(seed)) for seed in range(50)] for _ in range(2))
    assert one == other and len(set(one)) > 40


def test_passed_tests_are_counted() -> None:
    assert own.passed_in("....\n12 passed in 0.34s\n") == 12
    assert own.passed_in("F.\n1 failed, 11 passed in 0.34s\n") == 11
    assert own.passed_in("no tests ran in 0.01s\n") == 0


def test_a_program_is_known_by_its_first_line() -> None:
    assert types.is_python(b"#!/usr/bin/env python3\n") and types.is_python(b"#!/usr/bin/python3\n")
    assert not types.is_python(b"#!/bin/sh\n") and not types.is_python(b"import python3\n")
