"""How tables are made of data and compared, and what is read of definitions, heads and laws."""
from typing import Any

import pytest

from viewd_ci.common import below, crates_in, first_sentence
from viewd_ci.definitions import definitions_in, has_meaning, line_of
from viewd_ci.files import anchors, dead_links, differences, files_of_tests, first_words, laws_in, wrong_with
from viewd_ci.protocol import cases, in_forms, tables, written

KNOWN: dict[str, Any] = {
    "request": [
        {"do": "begin", "keys": ["role", "session"], "what": "opens", "refusals": "1, 4"},
        {"do": "grant", "keys": ["on"], "optional": ["to"], "what": "grants", "refusals": "1"},
    ],
    "refusal": [
        {"number": 1, "name": "bad JSON", "session": False, "when": "the line is no JSON"},
        {"number": 4, "name": "open", "keys": ["on"], "when": "`begin` of a session that is open"},
    ],
    "limit": [{"what": "rows", "most": "65,536", "beyond": "17"}],
}
PAGE = """# Protocol

## Requests

Each is a line.

| old |
|---|
| row |

More.

## Refusals

| old |

| kept |

## Limits

No table.
"""


def test_a_table_takes_the_place_of_the_first_of_its_section() -> None:
    page, lacking = written(PAGE, tables(KNOWN))
    assert lacking == ["Limits"]
    assert "| `begin` | `role`, `session` | opens | 1, 4 |\n| `grant` | `on`, and, if they are needed, `to` | grants | 1 |\n\nMore." in page
    assert "| 1 | bad JSON | no `session` | the line is no JSON |\n| 4 | open | `on` | `begin` of a session that is open |\n\n| kept |" in page
    assert "| old |" not in page
    assert written(page, {it: text for it, text in tables(KNOWN).items() if it != "Limits"}) == (page, [])


def test_cases_of_refusals_are_read_with_their_keys() -> None:
    texts = """refused_members machine.bad_json = plain_members 1
  more
refused_members (machine.not_granted rel p) = plain_members 13
  (codes "on") (codes "privilege")
refused_members (machine.wrong_kind entry) =
  entry_refused 9
  entry
"""
    assert cases(texts) == {"bad_json": (1, set()), "not_granted": (13, {"on", "privilege"}), "wrong_kind": (9, {"entry"})}


FORMS = """policy_keys = "using" ∷ []
form begin (codes "begin") (("role") ∷ ("session") ∷ []) []
form grant (codes "grant") (("on") ∷ []) []
"""


def test_requests_are_held_to_their_forms_and_to_the_refusals() -> None:
    known = KNOWN | {"request": [KNOWN["request"][0], KNOWN["request"][1] | {"optional": []}]}
    assert in_forms(known, FORMS) == []
    [wrong] = in_forms(known, FORMS.replace('"role"', '"who"'))
    assert wrong.startswith("the request begin has other keys")
    other = known | {"request": [known["request"][0] | {"refusals": "1"}, known["request"][1]]}
    assert in_forms(other, FORMS) == ["the refusal 4 says otherwise than begin whether it is one of its refusals"]


def test_definitions_are_read_with_their_lines_and_imports() -> None:
    text = """-- A file.
use Rattle.iv_rows.specs.Row.{Row, cells as values}
use Rattle.iv_zset.specs.Bag as bag

-- A tree.
data pub Tree =
  leaf : Row → Tree
  fork : Tree → Tree → Tree

pub size : Tree → ℕ
size (leaf r) = 1

size (fork a b) = size a + size b
""".split("\n")
    names, imports = definitions_in(("iv_a", "A"), text)
    tree, size = ("Tree", 3), ("size", 3)
    assert {name: (it.name, len(it.lines)) for name, it in names.items()} == {"Tree": tree, "leaf": tree, "fork": tree, "size": size}
    assert imports == {"Row": ("iv_rows", "Row", "Row"), "values": ("iv_rows", "Row", "cells"), "bag": ("iv_zset", "Bag", None)}
    assert [it for it in ("", "  -- a comment", "use Rattle.x", "f = 1") if has_meaning(it)] == ["f = 1"]


@pytest.mark.parametrize(("name", "line"), [
    pytest.param("size", 8, id="a function, by its type"),
    pytest.param("Pair", 3, id="a record"),
    pytest.param("Pair.left", 4, id="a field"),
    pytest.param("Pair.size", None, id="a field that another definition has the name of"),
    pytest.param("Tree.fork", 13, id="a case"),
    pytest.param("Tree.left", None, id="a field of another definition"),
    pytest.param("cells", None, id="a name that is imported"),
])
def test_a_question_leads_to_the_line_of_a_definition(name: str, line: int | None) -> None:
    text = """-- A file.

pub record Pair : Type 0 where
  pub left : Row
  right : Row

-- size
abbrev pub size : Tree → ℕ
size (leaf r) = 1

pub data Tree : Type 0 where
  leaf : Row → Tree
  fork : Tree → Tree → Tree
use Rattle.iv_rows.specs.Row.{Row, cells}""".split("\n")
    assert line_of(text, *name.split(".")) == line


CRATES = crates_in("# a comment\niv_rows: std\niv_zset: iv_rows std\niv_query: iv_rows\n")


def test_crates_stand_on_those_below() -> None:
    assert CRATES == {"iv_rows": ["std"], "iv_zset": ["iv_rows", "std"], "iv_query": ["iv_rows"]}
    assert below("iv_zset", CRATES) == {"iv_rows"}


def test_a_head_is_held_to_its_file_and_to_its_crates() -> None:
    def wrong(text: str, path: str = "crates/iv_zset/src/bag.rt") -> list[str]:
        return wrong_with("iv_zset", path, text, CRATES)

    assert wrong("//! A `Bag` of rows, of which iv_rows has\n//! the cells. More.\npub struct Bag;\n") == []
    assert wrong("pub struct Bag;\n") == ["crates/iv_zset/src/bag.rt has no sentence at its head"]
    assert "names Sack, which the file does not have" in wrong("//! A `Sack`.\npub struct Bag;\n")[0]
    assert "has no end" in wrong("//! A bag\npub struct Bag;\n")[0]
    assert "characters, more than 160" in wrong(f"//! {'long ' * 40}words.\n")[0]
    assert "names iv_gone, which is no crate" in wrong("//! Over iv_gone.\n")[0]
    assert "names iv_query, and neither stands on the other" in wrong("//! As iv_query.\n")[0]
    assert wrong("-- A sentence without names\n", "crates/iv_zset/specs/Bag.antt") == []


def test_a_law_is_told_by_what_stands_above_it() -> None:
    text = "/// What is closed\n/// stays closed.\n#[tactic(auto)]\npub fn closed_stays_closed()\n{}\n\npub fn untold() {}\nfn private() {}\n"
    assert laws_in(text) == [("closed_stays_closed", "What is closed stays closed."), ("untold", "")]


def test_a_map_is_compared_line_by_line() -> None:
    assert differences("F.md", "a\nb\n", "a\nc\n") == ["F.md lacks the line: c", "F.md has a line of no file: b"]


def test_a_sentence_ends_at_its_point() -> None:
    assert first_sentence("One of 1.5 and `a.b`. Two.") == "One of 1.5 and `a.b`."


def test_files_of_tests_tell_what_they_test() -> None:
    assert first_words("test_rows.py", '#!/usr/bin/python3\n"""What rows\nare. More of it."""\n') == "What rows are."
    assert first_words("rows.test.js", "// What rows are. More of it.\nimport fs;\n") == "What rows are."
    assert first_words("test_rows.py", "import os\n") == ""
    assert {"frontend/test/test_program.py", "clients/js/test/viewd.test.js", "tools/test/test_tables.py"} <= {*files_of_tests()}


@pytest.mark.parametrize(
    ("link", "lost"),
    [
        pytest.param("TOUR.md", "", id="a document beside it"),
        pytest.param("../README.md#what-is-proved", "", id="a heading of a document above it"),
        pytest.param("#to-cite", "", id="a heading of its own"),
        pytest.param("https://example.org/nowhere", "", id="what is elsewhere"),
        pytest.param("TOWER.md", "which is no file", id="no document"),
        pytest.param("TOUR.md#rihgts", "which is no heading", id="no heading of a document"),
        pytest.param("#there", "which is no heading", id="none of its own"),
        pytest.param("../crates.txt#L1", "", id="a line"),
        pytest.param("../crates.txt#L0", "which is no line", id="a line before the first"),
        pytest.param("../crates.txt#L9999", "which is no line", id="a line after the last"),
    ],
)
def test_links_of_documents_lead_somewhere(link: str, lost: str) -> None:
    text = f"# Here\n\nSee [it]({link}).\n\n```sh\ncat [x](not-a-link.md)\n```\n"
    assert dead_links("docs/CITE.md", text) == ([f"docs/CITE.md links {link}, {lost}"] if lost else [])


def test_anchors_are_those_of_headings() -> None:
    assert anchors("# How `proofs/` is laid out\n\n## A, B: C\n\n```sh\n# none\n```\n") == {"how-proofs-is-laid-out", "a-b-c"}
