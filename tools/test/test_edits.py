"""Which edits are tried, and what a copy of the crate has in which they are."""
import pathlib
from dataclasses import dataclass
from typing import Any

import pytest

from viewd_ci import edits
from viewd_ci.edits import Work, drawn, edits_of, hash_of, hashes_tried, of_unchanged, remember, statement_of, take_bodies
from viewd_ci.functions import functions_in


@dataclass(frozen=True)
class Crate:
    name: str
    folder: str


def crate_with(top: pathlib.Path, name: str, plain: int, promised: int) -> Crate:
    folder = top / name
    (folder / "edits" / "promised").mkdir(parents=True)
    for n in range(plain):
        (folder / "edits" / f"edit{n}.edit").write_text("file: src/lib.rt\n")
    for n in range(promised):
        (folder / "edits" / "promised" / f"kept{n}.edit").write_text("file: src/lib.rt\n")
    (folder / "edits" / "README.md").write_text("no edit\n")
    return Crate(name, str(folder))


def test_edits_are_those_of_both_folders(tmp_path: pathlib.Path) -> None:
    found = edits_of(crate_with(tmp_path, "iv_a", 2, 1))
    assert [(it.name, it.is_promised) for it in found] == [("edit0", False), ("edit1", False), ("kept0", True)]


def test_a_tenth_is_drawn_of_two_crates_at_least(tmp_path: pathlib.Path) -> None:
    crates = [crate_with(tmp_path, f"iv_{n}", 20, 3) for n in range(4)]
    some = drawn(crates, 7)
    assert len(some) == 8
    assert not any(edit.is_promised for _, edit in some)
    assert len({crate for crate, _ in some}) == 2
    assert [(crate.name, edit.name) for crate, edit in drawn(crates, 7)] == [(crate.name, edit.name) for crate, edit in some]
    assert any(drawn(crates, seed) != some for seed in range(8))


def test_a_tenth_of_few_is_one(tmp_path: pathlib.Path) -> None:
    assert len(drawn([crate_with(tmp_path, "iv_a", 3, 0)], 1)) == 1


def test_what_is_promised_is_tried_though_nothing_changed(tmp_path: pathlib.Path) -> None:
    crates = [crate_with(tmp_path, f"iv_{n}", 10, 2) for n in range(3)]
    assert sum(edit.is_promised for _, edit in of_unchanged(crates, 1)) == 6


@dataclass(frozen=True)
class Above(Crate):
    library: Crate

    def below(self) -> list[Crate]:
        return [self.library]


def written(folder: str, path: str, text: str) -> None:
    file = pathlib.Path(folder, path)
    file.parent.mkdir(parents=True, exist_ok=True)
    file.write_text(text)


CODE = "//! What it does.\nghost use Rattle.iv_low.proofs.Adding.{added};\n\npub fn f() -> u32\n    ensures { result ≡ 1 }\n{\n    1\n}\n"
LEMMA = "-- One is one.\nuse Rattle.iv_low.proofs.Adding.{added}\n\npub one : 1 ≡ 1\none = refl\n"
CHANGES = {
    # nothing that an edit is judged by
    "a comment": (True, "iv_up", "src/lib.rt", CODE.replace("What it does", "What it is for")),
    "imports of lemmas": (True, "iv_up", "src/lib.rt", CODE.replace("Adding", "Sums")),
    "a comment of a lemma": (True, "iv_up", "proofs/Ones.antt", LEMMA.replace("One is", "This is")),
    "a proof of the library": (True, "iv_low", "proofs/Adding.antt", "pub added : 1 ≡ 1\nadded = refl\n"),
    # what one is
    "code": (False, "iv_up", "src/lib.rt", CODE.replace("    1\n", "    2\n")),
    "a contract": (False, "iv_up", "src/lib.rt", CODE.replace("result ≡ 1", "1 ≡ result")),
    "a lemma": (False, "iv_up", "proofs/Ones.antt", LEMMA.replace("refl", "sym refl")),
    "an edit": (False, "iv_up", "edits/edit0.edit", "file: src/other.rt\n"),
    "code of the library": (False, "iv_low", "src/lib.rt", "pub fn g() {}\n"),
    "a definition of the library": (False, "iv_low", "specs/Sums.antt", "one : ℕ\none = 2\n"),
}


def two_crates(top: pathlib.Path) -> Above:
    low, up = crate_with(top, "iv_low", 0, 0), crate_with(top, "iv_up", 1, 0)
    written(low.folder, "specs/Sums.antt", "one : ℕ\none = 1\n")
    written(low.folder, "proofs/Adding.antt", "pub added : 1 ≡ 1\nadded = sym refl\n")
    written(up.folder, "src/lib.rt", CODE)
    written(up.folder, "proofs/Ones.antt", LEMMA)
    return Above("iv_up", up.folder, low)


@pytest.mark.parametrize("what", CHANGES)
def test_edits_are_tried_again_if_what_they_are_judged_by_changed(what: str, tmp_path: pathlib.Path) -> None:
    is_kept, name, path, text = CHANGES[what]
    crate: Any = two_crates(tmp_path)
    before = hash_of(crate)
    written(str(tmp_path / name), path, text)
    assert (hash_of(crate) == before) == is_kept


def test_lemma_files_may_have_another_name(tmp_path: pathlib.Path) -> None:
    crate: Any = two_crates(tmp_path)
    before = hash_of(crate)
    pathlib.Path(crate.folder, "proofs/Ones.antt").rename(pathlib.Path(crate.folder, "proofs/Units.antt"))
    assert hash_of(crate) == before


def work(name: str, made_of: str, failed: int) -> Work:
    crate: Any = Crate(name, "")
    return Work(crate, [], [], made_of, failed=failed)


def test_a_crate_is_remembered_if_all_its_edits_were_refused(tmp_path: pathlib.Path, monkeypatch: pytest.MonkeyPatch) -> None:
    monkeypatch.setattr(edits, "TRIED", str(tmp_path / "tried"))
    remember(work("iv_b", "2" * 32, 0))
    remember(work("iv_a", "1" * 32, 0))
    assert hashes_tried() == {"iv_a": "1" * 32, "iv_b": "2" * 32}
    remember(work("iv_b", "3" * 32, 1))
    assert hashes_tried() == {"iv_a": "1" * 32}
    remember(work("iv_a", "", 0))
    assert hashes_tried() == {"iv_a": "1" * 32}


TEXT = """/// A law.
pub fn law()
    ensures first { P }
    ensures second { (n : ℕ) → Q n }
{}

pub fn other(n: u32) -> u32
    ensures { result ≡ n }
{
    let m = n;
    m
}
"""


def test_a_clause_is_read_by_its_name(tmp_path: pathlib.Path) -> None:
    (tmp_path / "src").mkdir()
    (tmp_path / "src" / "lib.rt").write_text(TEXT)
    crate: Any = Crate("iv_a", str(tmp_path))
    law, other = functions_in({"src/lib.rt": TEXT}, str(tmp_path))
    assert statement_of(crate, law, "second") == "(n : ℕ) → Q n"
    assert statement_of(crate, law, "third") == ""
    assert statement_of(crate, other, "") == "result ≡ n"


def test_bodies_go_and_lines_stay(tmp_path: pathlib.Path) -> None:
    (tmp_path / "src").mkdir()
    (tmp_path / "src" / "lib.rt").write_text(TEXT)
    take_bodies(str(tmp_path), functions_in({"src/lib.rt": TEXT}, str(tmp_path)), {"law"})
    left = (tmp_path / "src" / "lib.rt").read_text()
    assert left.count("\n") == TEXT.count("\n")
    assert "let m = n" not in left and "unreachable!()" in left
    assert left.startswith(TEXT[: TEXT.index("pub fn other")])
