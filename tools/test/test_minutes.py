"""How minutes are told by crate, and when a run has figures."""
from viewd_ci.minutes import NONE, Processes, Used, below, figures, task_of, told_by

RATTLE = ["/opt/kit/bin/rattle", "check", "--crate-name", "iv_rows"]


def test_a_process_is_told_by_its_words_and_its_folder() -> None:
    assert task_of([*RATTLE, "src/lib.rt"], "/repo/crates/iv_rows") == ("iv_rows", "proof")
    assert task_of([*RATTLE, "--test"], "/repo/crates/iv_rows") == ("iv_rows", "tests")
    assert task_of(RATTLE, "/tmp/rt-edit-x1") == ("iv_rows", "must_fail")
    assert task_of(RATTLE, "/tmp/edits-x1") == ("iv_rows", "edits")
    assert task_of(["sh", "-c", "true"], "/tmp/edits-x1") == NONE


def test_processes_below_another_are_found() -> None:
    found: Processes = {1: (0, "a", 0.0), 2: (1, "b", 0.0), 3: (2, "c", 0.0), 4: (9, "d", 0.0)}
    assert sorted(below(found, 1)) == [1, 2, 3]
    assert below(found, 7) == []


def test_minutes_are_the_last_that_was_seen_of_each_process() -> None:
    used = Used()
    tasks = {10: NONE, 11: ("iv_rows", "proof")}
    used.look({10: (1, "s", 1.0), 11: (10, "t", 30.0)}, 10, tasks.get)
    # 10 has become rattle by an exec, 11 has gone on, and 12 has the number and not the start of one that ended
    tasks = {10: ("iv_zset", "edits"), 11: ("other", "proof"), 12: ("iv_rows", "proof")}
    used.look({10: (1, "s", 6.0), 11: (10, "t", 60.0), 12: (10, "u", 12.0)}, 10, tasks.get)
    assert used.minutes() == {("iv_zset", "edits"): 0.1, ("iv_rows", "proof"): 1.2}


SAID = {
    "rt-ci": "must-fail edits: 4 refused\nevery proof and must-fail edit was done\n"
    "== iv_rows\nlogic=proved crate=iv_rows functions=61\n== iv_zset\nlogic=proved functions=129\n9 passed, 0 failed\n",
    "edits": "iv_rows/a: refused: at f\n22 refused, 0 failed\n",
    "parts": "== meters, 0 s\n\nparts: meters 2, fuzz 20,000, postgresql did not run; 3 parts passed, 0 failed\n",
}


def test_a_run_that_ended_well_tells_its_numbers() -> None:
    assert told_by(SAID) == {
        "passed": {"rt_ci": 9, "must_fail": 4, "edits": 22, "meters": 2, "fuzz": 20000},
        "from_nothing": True,
        "functions": {"iv_rows": 61, "iv_zset": 129},
    }


def test_a_run_in_which_a_step_failed_tells_none() -> None:
    for step, line in (("rt-ci", "8 passed, 1 failed\n"), ("edits", "21 refused, 1 failed\n"), ("parts", "parts: meters FAILED; 0 parts passed, 1 failed\n")):
        assert told_by(SAID | {step: line}) is None
        assert told_by(SAID | {step: ""}) is None


def test_figures_have_what_was_used_by_crate_and_what_was_no_crates() -> None:
    run = figures({("iv_rows", "proof"): 1.84, ("iv_rows", "edits"): 0.04, NONE: 2.0}, [0.2, 0.4], 0.0, told_by(SAID))
    assert run["crates"]["iv_rows"]["functions"] == 61
    assert run["crates"]["iv_rows"]["minutes"] == {"proof": 1.8}
    assert run["minutes"]["of_no_crate"] == 2.0 and run["minutes"]["processor"] == 4
    assert run["loop_seconds"] == {"mean": 0.3, "fastest": 0.2}
