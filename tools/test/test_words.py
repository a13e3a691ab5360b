"""How words of documents are counted, and which come more often than they may."""
from viewd_ci.words import by_hand, comments, more_often, prose, rates

PAGE = """# A title

Three plain words, and `a piece` of code ([a link](where/it/leads.md)).

```jsonl requests
{"do":"begin"}
```

    four spaces are code

<!-- By .ci/files: -->
| written by a script |
<!-- The end of what .ci/files wrote. -->

## Limits

Each limit:

| what | at most |
|---|---|
| rows | 65,536 |

One more.
"""


def test_words_by_hand_are_those_outside_of_code_and_of_what_scripts_write() -> None:
    # of the title 2, of the sentence 10, one with its link, of the heading 1, of the sentence before the table 2, of the last one 2
    assert by_hand(PAGE) == 2 + 10 + 1 + 2 + 2


def test_signs_alone_are_no_words() -> None:
    assert by_hand("one — two | 3 |\n") == 3


def test_prose_has_no_code_and_no_targets_of_links() -> None:
    assert "piece" not in prose(PAGE) and "where" not in prose(PAGE) and "a link" in prose(PAGE)


def test_comments_are_those_of_the_language() -> None:
    assert comments("a.rt", "//! The head.\n/// Of `where`.\nlet where_it = 1; // no line of its own\n") == "The head.\nOf ."
    assert comments("A.antt", "-- The head.\nf : ℕ\n") == "The head."
    assert comments("a.py", '"""The head."""\n# one\nx = 1\n') == "one\nThe head."


def test_a_rate_is_of_ten_thousand_words() -> None:
    assert rates("where " * 2 + "word " * 18)["where"] == 1000.0
    assert rates("It goes, they go, going " + "word " * 95)["goes|go"] == 200.0


def test_a_rate_may_rise_by_a_fifth_and_one() -> None:
    kept = {"documents": {"where": 10.0, "rel": 0.0}}
    assert more_often({"documents": {"where": 13.0, "rel": 1.0}}, kept) == []
    assert more_often({"documents": {"where": 13.1, "rel": 1.1}}, kept) == [("documents", "where"), ("documents", "rel")]
