"""Which edits count as refused, by lines as a check prints them."""
import pytest

from viewd_ci.functions import Function
from viewd_ci.verdicts import BAD, NOT_REFUSED, NOT_REFUTED, REFUSED, REFUTED, judge, judge_refuted

LARGER = Function("larger", "larger", "src/lib.rt", 0, 100, 8, 13, False)
ROUND = Function("walk::Tree::round", "walk/Tree/+turn", "src/walk.rt", 0, 100, 20, 30, False)

NOTE = "note: src/lib.rt:8:1: it is not proved that what the function ensures holds when it returns (`returns-left`); the facts known there"
OTHER_NOTE = "note: src/lib.rt:18:1: it is not proved that what the function ensures holds when it returns (`returns-left`); the facts known there"
ANSWER = "./proofs/larger/Answers.antt:5:14: error: `returns-left`: this is no proof of its goal"
PROVED = "fn sample::larger: no holes"
GONE = "./proofs/larger/Answers.antt:5:14: error: `returns-left`: the function's goals has no field `total`"
GONE_INVARIANT = "./proofs/larger/Invariants.antt:5:14: error: `invariant-loop`: `total` is not in scope"


@pytest.mark.parametrize(
    ("verdict", "lines"),
    [
        pytest.param(REFUSED, [NOTE], id="a goal of the function is not proved"),
        pytest.param(REFUSED, [ANSWER], id="an answer of the function proves nothing any more"),
        pytest.param(REFUSED, ["fn sample::larger: it did not prove `returns-left`"], id="the function is told with its goal"),
        pytest.param(NOT_REFUSED, [PROVED], id="the function is proved"),
        pytest.param(NOT_REFUSED, [OTHER_NOTE, PROVED], id="what is told of another function counts for nothing"),
        pytest.param(NOT_REFUSED, [NOTE.replace("lib.rt", "other.rt"), PROVED], id="the same line of another file counts for nothing"),
        pytest.param(NOT_REFUSED, ["./proofs/largest/Answers.antt:5:14: error: `returns`: no proof", PROVED], id="an answer of another function"),
        pytest.param(BAD, [GONE], id="an answer that names what the edit took away"),
        pytest.param(BAD, [GONE, NOTE], id="a goal whose answer names what is gone"),
        pytest.param(REFUSED, [GONE, NOTE.replace("returns-left", "loop-preserved")], id="another goal beside one whose answer names what is gone"),
        pytest.param(BAD, [GONE_INVARIANT, NOTE], id="an invariant that names what is gone, by which no goal is told"),
        pytest.param(BAD, ["src/lib.rt:9:8: error: `d` is not in scope"], id="the edited text does not compile"),
        pytest.param(BAD, ["nothing was checked"], id="no check came to the function"),
    ],
)
def test_an_edit_is_judged(verdict: str, lines: list[str]) -> None:
    assert judge("sample", LARGER, lines)[0] == verdict


def test_a_cycle_has_the_answers_of_several_functions() -> None:
    own = "./proofs/walk/Tree/+turn/Answers.antt:5:14: error: `round-returns`: no proof of its goal"
    other = "./proofs/walk/Tree/+turn/Answers.antt:9:14: error: `turn-returns`: no proof of its goal"
    assert judge("sample", ROUND, [own])[0] == REFUSED
    assert judge("sample", ROUND, [other, "fn sample::walk::Tree::round: no holes"])[0] == NOT_REFUSED


def test_why_is_the_first_reason() -> None:
    assert judge("sample", LARGER, [PROVED, NOTE, ANSWER])[1] == f"at larger: {ANSWER}"


@pytest.mark.parametrize(
    ("verdict", "lines"),
    [
        pytest.param(REFUTED, ["only=1 proved=1"], id="the law is false over the edited definitions"),
        pytest.param(NOT_REFUTED, ["only=1 proved=0"], id="the proof is not there"),
        pytest.param(NOT_REFUTED, ["./proofs/Refutation.antt:6:15: error: no proof", "only=1 proved=1"], id="a lemma is wrong"),
        pytest.param(NOT_REFUTED, [], id="no check came"),
    ],
)
def test_a_refutation_is_judged(verdict: str, lines: list[str]) -> None:
    assert judge_refuted("laws::law", "(n : ℕ) → n ≤ twice n", lines)[0] == verdict
