"""Which modules stand on one another."""
from viewd_ci.modules import rings_of, too_large, uses_of

TEXTS = {
    "rows": "use std::vec::Vec;\n//! what crate::store::Store says is said by a comment\n",
    "store": "use crate::rows::{Row, Rows};\nuse crate::turns::turn;\n",
    "turns": "fn turn() {\n    crate::store::Store::turn()\n}\n",
    "lines::texts": "use crate::lines::heads::head;\n",
    "lines::heads": "use crate::{rows::Row, Fault, lines::texts::Text};\n",
}


def test_what_is_used_is_found() -> None:
    assert uses_of(TEXTS) == {
        "rows": set(),
        "store": {"rows", "turns"},
        "turns": {"store"},
        "lines::texts": {"lines::heads"},
        "lines::heads": {"rows", "lines::texts"},
    }


def test_rings_are_told() -> None:
    assert rings_of(uses_of(TEXTS)) == [["lines::heads", "lines::texts"], ["store", "turns"]]
    assert rings_of({"a": {"b"}, "b": {"c"}, "c": {"a"}, "d": {"a", "d"}}) == [["a", "b", "c"]]


def test_a_crate_without_a_ring_has_none() -> None:
    assert rings_of({"a": {"b", "c"}, "b": {"c"}, "c": set()}) == []


def test_a_crate_of_more_than_130_functions_is_told() -> None:
    text = "fn a() {\n}\npub(crate) const fn b() {}\n    pub fn c()\n// fn d\nlet f = fn_of(x);\n"
    assert too_large("iv_many", ["fn a() {}\n" * 127, text]) == []
    assert too_large("iv_many", ["fn a() {}\n" * 128, text]) == ["iv_many has 131 functions, and may have 130: cut it along its subject"]
    assert too_large("tests_many", ["fn a() {}\n" * 200]) == []
