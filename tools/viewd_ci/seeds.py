"""Refuses what would hash rows or names without the run's seed, in the sources of the crates below the program.

A collection has to be made by `with_seed`, with the seed of what it is made of. Nothing that is proved would show one that is
made by `new`, under the seed that everybody knows. `new` stays for tests. iv_seed makes the seeds and the hasher, and is not looked at.
Which crates these are is read in crates.txt. Tests show that what is made of a Z-set, an index or a circuit keeps its seed (`zset`,
`index_seeds` and `seeds` of tests_circuits), and that the known seed hashes words as std does (`hashes_words_as_std` of `zset`).
"""
import os
import re
import sys

from viewd_ci.common import TOP, below, contents, crates_in

SEEDED = "ZSet|Gather|KeyIndex|GroupIndex|Tables|Deltas|Access|Engine"
REFUSED = [
    re.compile(rf"\b(?:{SEEDED})::new\("),
    re.compile(r"\bIndex(?:Map|Set)::(?!with_hasher\(|with_capacity_and_hasher\()\w+\("),
    re.compile(r"\b(?:HashMap|HashSet|FoldHasher|DefaultHasher|RandomState|indexmap!|indexset!|WordHasher(?:::| \{))"),
    re.compile(r"\bSeed::known\(\)"),
]
# what the gate shows itself before it looks: the lines of it that are refused
SAMPLE = """    pub fn new(alloc: Global) -> ZSet
        ZSet::with_seed(alloc, Seed::known())
    fn made(alloc: Global) -> ZSet
        ZSet::with_seed(alloc, Seed::known())
        let sums = Gather::new(alloc);
        let news = IndexMap::new(alloc);
        let news = IndexMap::with_hasher(alloc, seed);
        // ZSet::new(alloc)
pub use hasher::WordHasher;
        let mut state = WordHasher::with_keys(0, 0);
        let mut state = WordHasher { v0: 0, v1: 0, v2: 0, v3: 0, length: 0 };
        let mut state = DefaultHasher::new();
"""
OF_SAMPLE = [4, 5, 6, 10, 11, 12]


def refused(lines: list[str]) -> list[int]:
    """The numbers of the lines that are refused. A constructor without a seed may name the known one."""
    inside = ""
    found: list[int] = []
    for number, line in enumerate(lines, 1):
        inside = (re.findall(r"\bfn (\w+)", line) or [inside])[-1]
        code = line.partition("//")[0]
        known = inside == "new" and "::with_seed(alloc, Seed::known()" in code
        if not known and any(it.search(code) for it in REFUSED):
            found.append(number)
    return found


def main(_: list[str]) -> int:
    if refused(SAMPLE.splitlines()) != OF_SAMPLE:
        sys.exit("seeds: the sample is not told apart")
    crates = sorted(({"viewd"} | below("viewd", crates_in(contents("crates.txt")))) - {"iv_seed"})
    failures = files = 0
    for crate in crates:
        for folder, _, names in os.walk(os.path.join(TOP, "crates", crate, "src")):
            for path in sorted(os.path.relpath(os.path.join(folder, it), TOP) for it in names if it.endswith(".rt")):
                files += 1
                lines = contents(path).splitlines()
                for number in refused(lines):
                    failures += 1
                    print(f"seeds: {path}:{number}: {lines[number - 1].strip()}")
    if failures:
        print("seeds: make each by with_seed or with_hasher, of the seed of what it is made of")
    print(f"seeds: {files} files of {len(crates)} crates, {failures} lines without the run's seed")
    return 1 if failures or files < 50 else 0
