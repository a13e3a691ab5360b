"""What is read of functions in a crate's text: their paths, their places, their proofs and their bodies."""
import pathlib

from viewd_ci.functions import body_of, functions_in

LIB = """//! A sample.
mod walk;

/// The larger of two.
pub fn larger(a: u32, b: u32) -> u32
    ensures { a ≤ result }
{
    if a < b { b } else { a }
}

fn down(n: u32) -> u32 {
    if n == 0 { 0 } else { down(n - 1) }
}

#[test]
fn works() {
    assert!(larger(1, 2) == 2);
}
"""
WALK = """//! A tree.
pub struct Tree {
    left: u32,
}

impl Tree {
    pub fn turn(&self) -> u32 {
        self.left
    }

    #[cycle(rounds)]
    fn round(&self) -> u32 { self.other() }
}

impl From<io::Error> for Tree {
    fn from(it: io::Error) -> Tree {
        Tree { left: 0 }
    }
}

pub trait Seen {
    fn seen(&self) -> u32;
}
"""


def test_functions_have_the_paths_that_a_check_gives(tmp_path: pathlib.Path) -> None:
    found = functions_in({"src/lib.rt": LIB, "src/walk.rt": WALK}, str(tmp_path))
    assert {it.path: (it.proof, it.is_test) for it in found} == {
        "larger": ("larger", False),
        "down": ("+down", False),
        "works": ("works", True),
        "walk::Tree::turn": ("walk/Tree/turn", False),
        "walk::Tree::round": ("walk/Tree/+rounds", False),
        "walk::TreeFromIoError::from": ("walk/TreeFromIoError/from", False),
    }


def test_a_function_has_its_lines(tmp_path: pathlib.Path) -> None:
    larger = functions_in({"src/lib.rt": LIB}, str(tmp_path))[0]
    assert (larger.first_line, larger.last_line) == (5, 9)
    assert LIB[larger.start : larger.end].startswith("pub fn larger") and LIB[larger.start : larger.end].endswith("}\n}")
    assert larger.has("src/lib.rt", LIB.index("if a < b")) and not larger.has("src/lib.rt", LIB.index("fn down"))


def test_a_cycle_is_known_by_its_folder(tmp_path: pathlib.Path) -> None:
    (tmp_path / "proofs" / "+larger").mkdir(parents=True)
    assert functions_in({"src/lib.rt": LIB}, str(tmp_path))[0].proof == "+larger"


def test_a_body_begins_where_its_braces_do() -> None:
    text = "fn f(a: A { x }) -> u32 {\n    if a { 1 } else { 2 }\n}"
    assert text[body_of(text) or 0 :].startswith("{\n    if a")
    assert body_of("fn f() { '{' }") is None
    assert body_of("fn f();") is None
