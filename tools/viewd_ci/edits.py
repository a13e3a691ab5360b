"""Tries the edits crates/NAME/edits/*.edit and crates/NAME/edits/promised/*.edit, many in one check: the prover has to refuse each.

usage: .ci/edits                  the edits of each crate that changed, or whose libraries did, since they were last tried; of all others
                                  those in promised/, and a tenth of the rest, of crates drawn at random; --seed N draws what the run drew
                                  that printed N
       .ci/edits --all            all edits
       .ci/edits CRATE..          all edits of these crates; CRATE/NAME is one edit
       .ci/edits --self-test      tries what this script takes for refused on a small crate that it writes
       --control                  beside any of these: first checks the same functions without an edit, none of which may be refused

An edit has the form of rt's must-fail edits: lines 'file:', 'old:', 'new:'. A line 'refused: module::Type::function' names the
function whose own proof must fail; without it that is the function in which the first 'old:' text is.

Edits of different functions go into one copy of the crate. In that copy every other function is taken at its contract: its proof is a
hole, and it has no body. So one check makes the proofs of the edited functions and no others. An edit of a constant changes the functions
that name it; one of other text outside functions gets a copy of its own.

An edit counts as refused if the check says that a goal of that function is not proved, or that an answer of its own does not prove
its goal. What is told of another function counts for nothing, and neither does an answer that only names what the edit took away.
What was not refused beside other edits is tried again by itself.

An edit of a definition has a line 'refutes: module::law CLAUSE' in place of 'refused:', and after a line 'proof:' a file of lemmas with a
`refuted` that takes what the clause of that law promises and proves the absurd. It counts as refuted if the check proves that over the
definitions as edited: the law is false there. That the law's own proof breaks would show less, as it may break though the law still holds.

.ci/edits.tried has a hash for each crate whose edits were all tried and refused: of its code, definitions, proofs and edits, and of its
libraries' code and definitions. Comments, the names of lemma files and libraries' proofs are left out: no edit is judged by them.
RT_JOBS crates are worked on side by side, by default as many as there are processors, and fewer if memory does not hold them.
"""
import argparse
import hashlib
import os
import random
import re
import shutil
import signal
import subprocess
import sys
import tempfile
import threading
import time
from concurrent.futures import FIRST_COMPLETED, Future, ThreadPoolExecutor, wait
from dataclasses import dataclass, field
from typing import Any

from viewd_ci.common import TOP
from viewd_ci.functions import Function, Texts, body_of, functions_in
from viewd_ci.kit import need, rt, rtlib
from viewd_ci.verdicts import BAD, NOT_REFUSED, REFUSED, REFUTED, judge, judge_refuted

Crate = Any  # of the kit's rt
TRIED = os.path.join(TOP, ".ci", "edits.tried")
SAMPLE = os.path.join(TOP, ".ci", "edits.sample")
TENTH = 10
# the folder in edits/ of those that each run tries
PROMISED = "promised"
REFUTES = re.compile(r"(?m)^refutes: (\S+)(?: (\S+))?$")
# lines that no edit is judged by: blank ones, comments, imports of lemmas and the names of lemma files
IDLE = re.compile(r"(?m)^[ \t]*(?:(?://|--).*|(?:ghost )?use (?:Rattle\.\w+\.|crate::)proofs\b.*|(?:pub )?mod [A-Z]\w*)?\n")
PRINTING = threading.Lock()


def contents(path: str) -> str:
    with open(path, encoding="utf-8") as file:
        return file.read()


@dataclass
class Edit:
    """An edit, the function that has to be refused, the proofs of the functions that it changes, none if that is not known, and the
    statement of the function that it refutes, if it does."""

    file: str
    target: Function | None = None
    changes: frozenset[str] = frozenset()
    refutes: str = ""

    @property
    def function(self) -> Function:
        """The one that has to be refused, once `resolve` has found it."""
        assert self.target
        return self.target

    @property
    def name(self) -> str:
        return os.path.basename(self.file).removesuffix(".edit")

    @property
    def is_promised(self) -> bool:
        return os.path.basename(os.path.dirname(self.file)) == PROMISED


@dataclass
class Work:
    """A crate with the edits to try, its hash if those are all, and what came of them."""

    crate: Crate
    functions: list[Function]
    edits: list[Edit]
    hash: str = ""
    refused: int = 0
    failed: int = 0
    checks: int = 0
    seconds: float = 0.0
    memory: int = 0
    began: float = field(default_factory=time.time)


def texts_of(crate: Crate) -> Texts:
    paths = [it for it in rtlib().files_of(crate.folder) if it.endswith(".rt")]
    return {os.path.relpath(it, crate.folder): contents(it) for it in paths}


def functions_of(crate: Crate) -> list[Function]:
    return functions_in(texts_of(crate), crate.folder)


def changed_by(edit: Edit, crate: Crate, functions: list[Function]) -> list[list[Function]]:
    """The functions that each 'old:' text of the crate's own is in, or that name the constant in it: none if that is not known."""
    file, found = "", []
    for line in contents(edit.file).split("\n"):
        if line.startswith("file: "):
            file = line.removeprefix("file: ").strip()
        old, text = line.removeprefix("old: "), contents(f"{crate.folder}/{file}") if file else ""
        if old == line or old not in text:
            continue
        inside = [it for it in functions if it.has(file, text.index(old))]
        constant = re.search(r"\bconst (\w+)", old)
        if not inside and constant:
            texts = texts_of(crate)
            inside = [it for it in functions if re.search(rf"\b{constant[1]}\b", texts[it.file][it.start : it.end])]
        found.append(inside)
    return found


def statement_of(crate: Crate, function: Function, clause: str) -> str:
    """What the clause of a law promises, as its text: none if there is no such clause."""
    text = contents(f"{crate.folder}/{function.file}")[function.start : function.end]
    found = re.search(rf"(?m)^\s*ensures {clause}{' ' if clause else ''}{{ (.*) }}$", text)
    return found[1] if found else ""


def resolve(edit: Edit, crate: Crate, functions: list[Function]) -> str | None:
    """Finds the edit's functions, and returns why it can't be tried, if it can't."""
    why: str | None = rt().read_edit(edit.file, crate.folder)[1]
    if why:
        return why
    changed = changed_by(edit, crate, functions)
    edit.changes = frozenset(it.proof for some in changed for it in some) if all(changed) else frozenset()
    refutes = REFUTES.search(contents(edit.file))
    if refutes:
        edit.target = next((it for it in functions if it.path == refutes[1]), None)
        edit.refutes = statement_of(crate, edit.target, refutes[2] or "") if edit.target else ""
        return None if edit.refutes else f"the crate has no clause {refutes[0].removeprefix('refutes: ')}"
    said = re.search(r"(?m)^refused: (.*)$", contents(edit.file))
    named = said[1].strip() if said else len(changed[0]) == 1 and changed[0][0].path
    edit.target = next((it for it in functions if it.path == named), None)
    if edit.target:
        return None
    return f"the crate has no function {named}" if named else "no function is changed first: write a line 'refused: PATH'"


def write_copy(crate: Crate, room: str, edits: list[Edit]) -> bool:
    """Writes the crate with these edits into the folder, and returns whether each could be applied after the others."""
    for part in rtlib().PARTS:
        if os.path.isdir(f"{crate.folder}/{part}"):
            shutil.copytree(f"{crate.folder}/{part}", f"{room}/{part}")
    return apply(room, edits)


def apply(room: str, edits: list[Edit]) -> bool:
    """Applies the edits to the crate in the folder, and returns whether each could be applied after the others."""
    for edit in edits:
        texts, why = rt().read_edit(edit.file, room)
        if why:
            return False
        for path, text in texts.items():
            with open(f"{room}/{path}", "w", encoding="utf-8") as file:
                file.write(text)
    return True


def groups_of(crate: Crate, edits: list[Edit]) -> list[list[Edit]]:
    """The edits in as few groups as can be told: those of one group change different functions."""
    groups: list[list[Edit]] = []
    for edit in edits:
        for group in groups:
            taken = set().union(*({*it.changes, it.function.proof} for it in group))
            apart = all(it.changes for it in [*group, edit]) and not taken & {*edit.changes, edit.function.proof}
            with tempfile.TemporaryDirectory(prefix="edits-") as room:
                if apart and write_copy(crate, room, [*group, edit]):
                    group.append(edit)
                    break
        else:
            groups.append([edit])
    return groups


def take_bodies(room: str, functions: list[Function], but: set[str]) -> None:
    """Leaves no body to each function of the folder but those with these proofs, as many lines as before: what is taken at its contract has no
    use for one. A constant's function keeps its own, and so does a cycle's, which is proved as one of a cycle."""
    for file in {it.file for it in functions}:
        text = contents(f"{room}/{file}")
        for it in sorted((it for it in functions if it.file == file), key=lambda it: -it.start):
            said = text[it.start : it.end]
            start = body_of(said)
            if it.proof in but or it.is_test or "+" in it.proof or start is None or re.search(r"\bconst fn\b|-> impl\b", said[:start]):
                continue
            lines = said[start:].count("\n")
            text = f"{text[: it.start]}{said[:start]}{{ unreachable!(){chr(10) * lines}}}{text[it.end :]}"
        with open(f"{room}/{file}", "w", encoding="utf-8") as out:
            out.write(text)


def take_at_contract(crate: Crate, room: str, functions: list[Function], but: set[str]) -> None:
    """Gives each function but those with these proofs a hole for its own."""
    for proof in {it.proof for it in functions if not it.is_test} - but:
        at, parts = f"{room}/proofs/{proof}", proof.split("/")
        if os.path.exists(f"{at}/Proof.antt"):
            continue
        os.makedirs(at, exist_ok=True)
        for name in ("Answers.antt", "Invariants.antt"):
            if os.path.exists(f"{at}/{name}"):
                os.remove(f"{at}/{name}")
        # the statement of a cycle is in its own module
        module = ".".join(parts if parts[-1].startswith("+") else [*parts, "Statement"])
        with open(f"{at}/Proof.antt", "w", encoding="utf-8") as file:
            file.write(f"use Rattle.{crate.name}.proofs.{module}.{{statement}}\n\n")
            file.write(f"pub {parts[-1]}_spec : {{M : Type 1}} → statement M\n{parts[-1]}_spec = ?\n")


def run(words: list[str], folder: str, work: Work) -> list[str]:
    """The lines of a command's output. Its processor time and memory are added to the work. One that the system ends, for want of memory, is run again."""
    for pause in (30, 120, 0):
        with tempfile.TemporaryFile("w+", errors="replace") as said:
            running = subprocess.Popen([*rtlib().guarded(), *words], cwd=folder, stdin=subprocess.DEVNULL, stdout=said, stderr=subprocess.STDOUT)
            _, status, used = os.wait4(running.pid, 0)
            running.returncode = os.waitstatus_to_exitcode(status)
            work.seconds += used.ru_utime + used.ru_stime
            work.memory = max(work.memory, used.ru_maxrss * 1024)
            work.checks += 1
            said.seek(0)
            lines = said.read().split("\n")
        if running.returncode != -signal.SIGKILL:
            break
        with PRINTING:
            print(f"{work.crate.name}: the system ended a check{', which is made again' if pause else ''}", flush=True)
        time.sleep(pause)
    return lines


def check(work: Work, edits: list[Edit], kept: str, is_control: bool = False) -> list[str]:
    """What a check of the edited functions says, or of the same functions as they are."""
    crate, paths = work.crate, sorted({it.function.path for it in edits})
    with tempfile.TemporaryDirectory(prefix="edits-") as room:
        write_copy(crate, room, [])
        take_bodies(room, work.functions, {it.function.proof for it in edits} | {proof for it in edits for proof in it.changes})
        apply(room, [] if is_control else edits)
        take_at_contract(crate, room, work.functions, {it.function.proof for it in edits})
        words = [rtlib().RATTLE, "check", *crate.words(["--jobs", "1"], keeps=False), "--allow-holes", "--incremental", kept]
        lines = run([*words, *(word for path in paths for word in ("--only", path))], room, work)
    # a function that calls itself by another value of its type has a cycle's proof, which the text does not show
    recursive = {it[1] for line in lines if (it := re.match(r"\./proofs/(\S+)/Proof\.antt: error\[reserved-name\]", line))}
    if not recursive:
        return lines
    for function in work.functions:
        if function.proof in recursive:
            function.proof = re.sub(r"(\w+)$", r"+\1", function.proof)
    return check(work, edits, kept, is_control)


def refute(work: Work, edit: Edit, kept: str) -> tuple[str, str]:
    """What a check says of a function `refuted` beside the law, whose contract is that the law's clause is absurd, over the definitions as
    edited."""
    module = edit.function.path.rpartition("::")[0]
    goals = ".".join(["proofs", *edit.function.proof.split("/")[:-1], "refuted", "Goals"])
    answer = f"use Rattle.{work.crate.name}.proofs.Refutation.{{refuted}}\nuse Rattle.{work.crate.name}.{goals} as goal\n\n"
    answer += "pub returns : goal.returns\nreturns c = refuted\n"
    with tempfile.TemporaryDirectory(prefix="edits-") as room:
        write_copy(work.crate, room, [edit])
        with open(f"{room}/{edit.function.file}", "a", encoding="utf-8") as file:
            file.write(f"\n/// The law is false.\npub fn refuted()\n    ensures {{ ({edit.refutes}) → ⊥ }}\n{{}}\n")
        with open(f"{room}/proofs/Lib.antt", "a", encoding="utf-8") as file:
            file.write("mod Refutation\n")
        with open(f"{room}/proofs/Refutation.antt", "w", encoding="utf-8") as file:
            file.write(contents(edit.file).partition("\nproof:\n")[2])
        folder = os.path.join(room, "proofs", os.path.dirname(edit.function.proof), "refuted")
        os.makedirs(folder)
        with open(f"{folder}/Answers.antt", "w", encoding="utf-8") as file:
            file.write(answer)
        words = [rtlib().RATTLE, "check", *work.crate.words(["--jobs", "1"], keeps=False), "--incremental", kept]
        lines = run([*words, "--only", f"{module}::refuted".removeprefix("::")], room, work)
    return judge_refuted(edit.function.path, edit.refutes, lines)


def tell(work: Work, edit: Edit, verdict: str, why: str) -> None:
    """Prints what came of an edit, and counts it."""
    is_good = verdict in (REFUSED, REFUTED)
    work.refused += is_good
    work.failed += not is_good
    with PRINTING:
        print(f"{work.crate.name}/{edit.name}: {verdict}: {why[:240]}", flush=True)


def control(work: Work, edits: list[Edit], kept: str) -> None:
    """Checks the functions of these edits as they are: one that is refused is refused for no edit."""
    lines = check(work, edits, kept, is_control=True)
    for edit in {it.function.path: it for it in edits}.values():
        verdict, why = judge(work.crate.name, edit.function, lines)
        if verdict != NOT_REFUSED:
            work.failed += 1
            with PRINTING:
                print(f"{work.crate.name}: CONTROL FAILED: {edit.function.path} without an edit: {verdict}: {why[:240]}", flush=True)


def try_crate(work: Work, with_control: bool = False) -> dict[str, str]:
    """Tries the edits of a crate, and returns what came of each."""
    work.began = time.time()
    found: dict[str, tuple[str, str]] = {}
    known: list[Edit] = []
    for edit in work.edits:
        if bad := resolve(edit, work.crate, work.functions):
            found[edit.name] = BAD, bad
        else:
            known.append(edit)
    with tempfile.TemporaryDirectory(prefix="edits-kept-") as kept:
        plain = [it for it in known if not it.refutes]
        if with_control and plain:
            control(work, plain, kept)
        for edit in known:
            if edit.refutes:
                found[edit.name] = refute(work, edit, kept)
                tell(work, edit, *found[edit.name])
        groups = groups_of(work.crate, plain)
        while groups:
            group = groups.pop(0)
            lines = check(work, group, kept)
            for edit in group:
                verdict, why = judge(work.crate.name, edit.function, lines)
                if verdict == REFUSED or len(group) == 1:
                    found[edit.name] = verdict, why
                    tell(work, edit, verdict, why)
                else:
                    groups.append([edit])
    for edit in work.edits:
        if edit not in known:
            tell(work, edit, *found[edit.name])
    with PRINTING:
        print(
            f"{work.crate.name}: {len(work.edits)} edits in {work.checks} checks, {work.seconds / 60:.1f} processor minutes,"
            f" {(time.time() - work.began) / 60:.1f} on the clock, {work.memory / 1e9:.1f} GB at most",
            flush=True,
        )
    return {name: verdict for name, (verdict, _) in found.items()}


def is_library_there(crate: Crate) -> bool:
    """Whether the library can be loaded as it lies there: rt's stamp fits, or it has none, as rt ci leaves it, and is newer than all
    that it is made from."""
    if not os.path.isdir(crate.rlib):
        return False
    if os.path.isfile(f"{os.path.dirname(crate.rlib)}/stamp"):
        return bool(crate.is_built())
    made_from = [*rtlib().files_of(crate.folder), *(it.rlib for it in crate.deps)]
    return all(os.path.getmtime(it) <= os.path.getmtime(crate.rlib) for it in made_from)


def build_libraries(crates: list[Crate]) -> None:
    """Builds the libraries below these crates if they are missing, older than their sources, or of different runs: rt ci's own fit one
    another, and not those that rt lib makes."""
    below = [it for crate in crates for it in crate.below()]
    below = [it for place, it in enumerate(below) if it not in below[:place]]
    stamped = [os.path.isfile(f"{os.path.dirname(it.rlib)}/stamp") for it in below]
    if len({*stamped}) < 2 and all(is_library_there(it) for it in below):
        return
    held = rtlib().lock(below)
    for it in below:
        if not it.is_built():
            print(f"edits: building {it.name}", flush=True)
            if it.build_rlib(["--jobs", "1"], anew=False):
                sys.exit(f"edits: {it.name} was not built")
    for it in held:
        os.close(it)


def memory_of(work: Work) -> int:
    """The most memory that a check of the crate is likely to take, in bytes: less than what rt ci plans on, which makes all proofs."""
    return int(rt().need(work.crate)) * 6 // 10


def try_all(works: list[Work], jobs: int, with_control: bool) -> None:
    """Tries the edits of several crates side by side, those with the most to do first."""
    left = sorted(works, key=lambda it: -len(it.functions) * (4 + len(it.edits)))
    free = 0.85 * rt().free()
    running: dict[Future[dict[str, str]], Work] = {}
    with ThreadPoolExecutor(jobs) as pool:
        while left or running:
            for work in [*left]:
                taken = sum(memory_of(it) for it in running.values())
                if len(running) < jobs and (not running or taken + memory_of(work) <= free):
                    left.remove(work)
                    running[pool.submit(try_crate, work, with_control)] = work
            for done in wait(running, return_when=FIRST_COMPLETED).done:
                done.result()
                remember(running.pop(done))


def edits_of(crate: Crate) -> list[Edit]:
    found = []
    for folder in (f"{crate.folder}/edits", f"{crate.folder}/edits/{PROMISED}"):
        names = sorted(os.listdir(folder)) if os.path.isdir(folder) else []
        found += [Edit(f"{folder}/{it}") for it in names if it != PROMISED and not it.endswith(".md")]
    return found


def judging(folder: str, is_own: bool) -> list[str]:
    """What edits are judged by in a crate's folder: each file of its code and definitions behind its name, and, if the edits are its own,
    its proofs, in an order that does not hang on their files' names. A file ends with a newline, as the formatter writes it."""
    files = {os.path.relpath(it, folder): IDLE.sub("", contents(it)) for it in rtlib().files_of(folder)}
    proofs = sorted(text for name, text in files.items() if name.startswith("proofs/") and text)
    return [f"{name}\n{text}" for name, text in files.items() if not name.startswith("proofs/")] + (proofs if is_own else [])


def hash_of(crate: Crate) -> str:
    """A hash of what the edits of a crate are judged by, of the edits themselves, and of the kit's name."""
    made = hashlib.sha256(contents(f"{rt().KIT}/KIT-ID").encode())
    for it in sorted([crate, *crate.below()], key=lambda it: str(it.name)):
        for text in [it.name, *judging(it.folder, it is crate)]:
            made.update(f"{text}\n".encode())
    for edit in edits_of(crate):
        made.update(f"{edit.name}\n{IDLE.sub('', contents(edit.file))}\n".encode())
    return made.hexdigest()[:32]


def hashes_tried() -> dict[str, str]:
    """The hash under which all edits of a crate were last tried and refused, by the crate's name."""
    lines = contents(TRIED).splitlines() if os.path.exists(TRIED) else []
    return dict(line.split() for line in lines if line.strip())


def remember(work: Work) -> None:
    """Writes the crate's hash down if all its edits were tried and refused, and takes it away if one was not."""
    hashes = hashes_tried()
    if work.failed:
        hashes.pop(work.crate.name, None)
    elif work.hash:
        hashes[work.crate.name] = work.hash
    with open(TRIED, "w", encoding="utf-8") as file:
        file.writelines(f"{name} {hashes[name]}\n" for name in sorted(hashes))


def drawn(crates: list[Crate], seed: int) -> list[tuple[Crate, Edit]]:
    """A tenth of the edits of these crates that are not promised, each with its crate: of few crates, since each takes a check of its own,
    whose front end costs as much as several edits, and of two at least, which are worked on side by side."""
    edits = {crate: [it for it in edits_of(crate) if not it.is_promised] for crate in crates}
    draw, wanted = random.Random(seed), -(-sum(map(len, edits.values())) // TENTH)
    some: list[tuple[Crate, Edit]] = []
    for crate in draw.sample(crates, len(crates)):
        some += [(crate, it) for it in draw.sample(edits[crate], min(len(edits[crate]), -(-wanted // 2), wanted - len(some)))]
    return some


def of_unchanged(crates: list[Crate], seed: int) -> list[tuple[Crate, Edit]]:
    """The edits of crates that have not changed that a run tries: those that are promised, and a tenth of the others."""
    return [(crate, it) for crate in crates for it in edits_of(crate) if it.is_promised] + drawn(crates, seed)


def chosen(crates: list[Crate], names: list[str], is_all: bool, seed: int, tried: dict[str, str]) -> list[Work]:
    """The edits to try, by crate: all of what is named, or of what changed with those of the others that a run tries."""
    wanted = [it for it in crates if is_all or it.name in names or not names and tried.get(it.name) != hash_of(it)]
    edits = {it: edits_of(it) for it in wanted}
    others = [it for it in crates if it not in wanted]
    single = [(it, edit) for it in others for edit in edits_of(it) if f"{it.name}/{edit.name}" in names]
    for crate, edit in single if names else of_unchanged(others, seed):
        edits.setdefault(crate, []).append(edit)
    unknown = {*names} - {it.name for it in wanted} - {f"{it.name}/{edit.name}" for it, edit in single}
    if unknown:
        sys.exit(f"edits: there is no crate or edit {' '.join(sorted(unknown))}")
    return [Work(it, functions_of(it), some, hash_of(it) if it in wanted else "") for it, some in edits.items() if some]


def main(words: list[str]) -> int:
    about, usage = __doc__.split("\n\nusage: ")
    known = argparse.ArgumentParser(prog=".ci/edits", description=about, usage=usage, formatter_class=argparse.RawDescriptionHelpFormatter)
    known.add_argument("crates", nargs="*")
    known.add_argument("--all", action="store_true")
    known.add_argument("--seed", type=int, default=random.SystemRandom().randrange(1_000_000))
    known.add_argument("--self-test", action="store_true")
    known.add_argument("--control", action="store_true")
    asked = known.parse_args(words)
    need("edits")
    # what runs is started by a guard, which is made before any thread, and ends with this process
    rtlib().guarded()
    signal.signal(signal.SIGINT, lambda *_: os._exit(130))
    if asked.self_test:
        return self_test()
    crates = rtlib().crates_below(TOP)
    works = chosen(crates, asked.crates, asked.all, asked.seed, hashes_tried())
    if not asked.crates and not asked.all:
        print(f"edits: of crates that have not changed those in {PROMISED}/, and a tenth of the others, drawn with --seed {asked.seed}", flush=True)
    build_libraries([it.crate for it in works])
    try_all(works, int(os.environ.get("RT_JOBS") or rt().processors()), asked.control)
    refused, failed = sum(it.refused for it in works), sum(it.failed for it in works)
    print(f"{refused} refused, {failed} failed")
    return 1 if failed else 0


def self_test() -> int:
    """Tries the edits of the sample, each of which says in its first line what has to come of it."""
    with tempfile.TemporaryDirectory(prefix="edits-sample-") as room:
        for path, text in re.findall(r"(?ms)^== (\S+)\n(.*?)(?=^== |\Z)", contents(SAMPLE)):
            os.makedirs(os.path.dirname(f"{room}/{path}"), exist_ok=True)
            with open(f"{room}/{path}", "w", encoding="utf-8") as file:
                file.write(text)
        crate = rtlib().crates_below(room)[0]
        edits = edits_of(crate)
        wanted = {it.name: contents(it.file).split("\n")[0].removeprefix("# ") for it in edits}
        [unchanged] = chosen([crate], [], False, 0, {crate.name: hash_of(crate)})
        found = try_crate(Work(crate, functions_of(crate), edits))
    wrong = [f"{it}: {found[it]}, and not {wanted[it]}" for it in wanted if found[it] != wanted[it]]
    promised = sum(it.is_promised for it in edits)
    if not promised or [it.is_promised for it in unchanged.edits] != [True] * promised + [False]:
        wrong.append(f"where the crate has not changed, these are tried: {' '.join(it.name for it in unchanged.edits)}")
    for it in wrong:
        print(f"edits: self-test: {it}")
    print(f"edits: self-test: {len(wanted) + 1 - len(wrong)} told as they have to be, {len(wrong)} failed")
    return 1 if wrong else 0
