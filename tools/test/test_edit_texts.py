"""Whether an edit can be applied to the files of its crate."""
import pytest

from viewd_ci.edit_texts import fault_of, fault_of_check

FILES = {"src/a.rt": "fn a() {\n    x = 1;\n}\nfn b() {\n    x = 1;\n}\n"}


def test_an_old_text_is_there_once() -> None:
    assert fault_of("file: src/a.rt\nold: fn a()\nnew: fn c()\n", FILES) == ""


def test_what_an_edit_has_changed_counts() -> None:
    assert fault_of("file: src/a.rt\nold: fn b() {\nnew: fn b() {x = 1;\nold: {x = 1;\nnew:\n", FILES) == ""
    assert "0 times" in fault_of("file: src/a.rt\nold: fn a()\nnew: fn c()\nold: fn a()\nnew: fn d()\n", FILES)


@pytest.mark.parametrize(
    ("edit", "fault"),
    [
        ("file: src/a.rt\nold:     x = 1;\nnew:     x = 2;\n", "2 times"),
        ("file: src/a.rt\nold: x = 3;\nnew: x = 2;\n", "0 times"),
        ("file: src/b.rt\nold: fn a()\nnew: fn c()\n", "no file src/b.rt"),
        ("old: fn a()\nnew: fn c()\n", "before any"),
        ("refused: a::a\nfile: src/a.rt\n", "no 'old:'"),
    ],
)
def test_what_cannot_be_applied_is_told(edit: str, fault: str) -> None:
    assert fault in fault_of(edit, FILES)


def test_a_proof_has_no_pairs() -> None:
    assert fault_of("file: src/a.rt\nold: fn a()\nnew: fn c()\nproof:\nold: none\nnew: none\n", FILES) == ""


def test_a_wrong_program_names_what_has_to_catch_it() -> None:
    assert fault_of_check(("fuzz", "")) == fault_of_check(("program", "test_disk.py::test_all_is_on_disk_before_it_listens")) == ""
    for check in (("fuzzy", ""), ("program", "test_disk.py::test_all"), ("program", "test_none.py::test_all_is_on_disk_before_it_listens")):
        assert "to catch it" in fault_of_check(check)
