"""How the lists of queries are read, and what counts as another outcome."""
from collections.abc import Iterable, Iterator
from typing import Any

import pytest

from viewd_ci import queries
from viewd_ci.queries import Answer, Request, beginnings_of, compare_columns, compare_policies, compare_queries, lists, outcome

UNKNOWN = {"error": 8, "place": 14, "why": "unknown relation"}


@pytest.fixture(autouse=True)
def nothing_failed(monkeypatch: pytest.MonkeyPatch) -> Iterator[None]:
    """Each test begins, and ends, without what another one saw to differ."""
    queries.compared.failures.clear()
    yield
    queries.compared.failures.clear()


def answer(monkeypatch: pytest.MonkeyPatch, refused: dict[str, dict[str, Any]], shown: dict[str, list[Any]]) -> None:
    """Has the program refuse the texts and names that are given, and show changes to who subscribes."""

    def told(requests: Iterable[Request]) -> list[Answer]:
        asked = [(it.get("query") or it.get("using") or it.get("name") or it.get("on") or "", it) for it in requests]
        return [(refused.get(text, {"ok": True}), [shown[text]] if it["do"] == "subscribe" else []) for text, it in asked]

    monkeypatch.setattr(queries, "told", told)


def test_lists_are_read_with_their_bytes() -> None:
    text = "# of all\n[queries]\n => 0 unexpected\nselect x from a => x int\n\n[policies]\n\\tx\\0 = '\\n\\r' => 1 token\n"
    assert lists(text) == {"queries": [("", "0 unexpected"), ("select x from a", "x int")], "policies": [("\tx\0 = '\n\r'", "1 token")]}
    with pytest.raises(ValueError):
        lists("[queries]\nselect x from a\n")


def test_each_text_that_begins_a_query_has_an_outcome() -> None:
    found = dict(beginnings_of("s from a", "ends to 0; 0 unexpected to 6; ends to 7; read to 8"))
    assert len(found) == 9
    assert found[""] == "0 unexpected" and found["s from"] == "0 unexpected"
    assert found["s from "] == "7 unexpected" and found["s from a"] == "7 unknown relation"
    for outcomes in ("ends to 7", "ends to 9"):
        with pytest.raises(ValueError):
            list(beginnings_of("s from a", outcomes))


def test_an_outcome_is_ok_or_a_place_with_its_reason() -> None:
    assert outcome({"ok": True}) == "ok"
    assert outcome(UNKNOWN) == "14 unknown relation"


def test_a_fault_of_another_place_differs(monkeypatch: pytest.MonkeyPatch) -> None:
    answer(monkeypatch, {"select x from c": UNKNOWN}, {})
    assert compare_queries([("select x from c", "14 unknown relation")]) == 1
    assert queries.compared.failures == []
    compare_queries([("select x from c", "15 unknown relation")])
    assert len(queries.compared.failures) == 1


def test_a_query_that_is_accepted_has_no_fault(monkeypatch: pytest.MonkeyPatch) -> None:
    answer(monkeypatch, {}, {})
    compare_queries([("select x from c", "14 unknown relation")])
    assert len(queries.compared.failures) == 1


def test_columns_are_named_compared_and_counted(monkeypatch: pytest.MonkeyPatch) -> None:
    rows = {"q": [[1, [1, "a"]]], "named": [[1, [1, "a"]]]}
    answer(monkeypatch, {}, rows)
    compare_columns("select x, who from c", "x int, who text")
    assert queries.compared.failures == []
    tests = "select x, who from q where x = 1 and who = 'a'"
    for refused in ("select x, who from q", tests, "select * from q union all select x, who from q"):
        answer(monkeypatch, {refused: UNKNOWN}, rows)
        compare_columns("select x, who from c", "x int, who text")
        assert len(queries.compared.failures) == 1, refused
        queries.compared.failures.clear()
    answer(monkeypatch, {}, {**rows, "named": [[1, ["a", 1]]]})
    compare_columns("select x, who from c", "x int, who text")
    assert len(queries.compared.failures) == 1


def test_policies_are_accepted_or_have_their_fault(monkeypatch: pytest.MonkeyPatch) -> None:
    answer(monkeypatch, {"1 = 'a'": {"error": 8, "place": 4, "why": "kind mismatch"}}, {})
    assert compare_policies([("true", "ok"), ("1 = 'a'", "4 kind mismatch")]) == 2
    assert queries.compared.failures == []
    compare_policies([("true", "0 token"), ("1 = 'a'", "ok")])
    assert len(queries.compared.failures) == 2
