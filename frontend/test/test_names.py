#!/usr/bin/python3
"""Names of requests at the gateway as a program, by what docs/PROTOCOL.md says alone: a request is carried out once, however often it is sent, over lost
connections, kills, restarts, compactions, copies and renewed tokens.

GATEWAY and VIEWD name other programs than those that are built: a compaction asks viewd."""
import json
import time

from names import GONE, MOST, WRITERS, Trials, Writer, answer, by_name, holding, place_of, rows, token_line
from test_journal import compacted, needs_viewd
from trial import insert, serving, until
from wire import PATIENCE, TOP, Line, Wire


def test_the_protocols_conversation_is_held() -> None:
    page = (TOP / "docs/PROTOCOL.md").read_text(encoding="utf-8").split("### Names\n")[1].split("\n### ")[0]
    blocks = [it.split("```")[0].splitlines() for it in page.split("```text\n")[1:]]
    with serving() as (gate, _):
        for block in blocks:
            wire = Wire(gate.port)
            for line in block:
                said = line[2:].replace("EPOCH", gate.epoch())
                if line == "> TOKEN":
                    wire.say("ann-demo")
                elif line.startswith("> "):
                    wire.say(said)
                else:
                    assert wire.line() == said, line
            wire.shut()
        assert len(blocks) == 2 and rows(gate) == {(3, "mia"): 1}


def test_a_lost_answer_is_told_again() -> None:
    """On another socket, by another token of the holder, behind a restart, and after the first token is gone."""
    with holding() as gate:
        wire = gate.knock("mia 1")
        assert place_of(wire.place) == (gate.epoch(), 0)
        first, other = by_name(wire.place, insert(1, "ann"), id=1), by_name(wire.place, GONE)
        wire.say(first)
        wire.say(other)
        wire.shut()
        until(lambda: len(gate.names()) == 2, "what was sent before the socket went is not done")
        done: Line = {"answer": {"ok": True}, "at": f"{gate.epoch()}.2"}
        refused: Line = {"answer": {"entry": 1, "error": 16}, "at": f"{gate.epoch()}.2"}

        def is_known(wire: Wire) -> None:
            assert wire.place == f"{gate.epoch()}.2"
            assert answer(wire, first) == {"again": True, **done, "id": 1}
            assert answer(wire, first.replace('"id":1,', "")) == {"again": True, **done}
            assert answer(wire, other) == {"again": True, **refused}
        is_known(gate.knock("mia 1"))
        is_known(gate.knock("mia 2"))
        gate.kill()
        gate.start()
        is_known(gate.knock("mia 1"))
        gate.know("admin", "ann", lines=(token_line("mia 3", "Mia"), token_line("ann", "Ann")))
        until(lambda: gate.knock("mia 3").role == "mia", "a renewed token opens nothing")
        is_known(gate.knock("mia 3"))
        assert rows(gate) == {(1, "ann"): 1} and [it.get("refused", it.get("done")) for it in gate.names()] == [{"ok": True}, {"entry": 1, "error": 16}]
        assert [it["by"] for it in gate.names()] == ["mia/Mia"] * 2


def test_names_belong_to_their_holder() -> None:
    with holding() as gate:
        mia, ann = gate.knock("mia 1"), gate.knock("ann")
        said = by_name(mia.place, insert(1, "ann"))
        for wire in (mia, ann):  # the same name and place, twice two holders
            assert answer(wire, said) == {"answer": {"ok": True}, "at": f"{gate.epoch()}.1"}
            assert answer(wire, said)["again"]
        assert rows(gate) == {(1, "ann"): 2}
        assert answer(mia, said.replace("[1,", "[2,")) == {"undecided": 101}
        assert answer(mia, said.replace(f"{gate.epoch()}.0", f"{gate.epoch()}.1")) == {"undecided": 101}
        assert answer(mia, by_name(f"{'0' * 32}.0", insert(3, "ann"))) == {"undecided": 103}
        assert rows(gate) == {(1, "ann"): 2} and len(gate.names()) == 2


def test_what_is_no_name_is_no_request() -> None:
    with holding() as gate:
        mia = gate.knock("mia 1")
        good = by_name(mia.place, insert(1, "ann"))
        name = json.loads(good)["once"]
        for wrong in (good.replace(name, name[1:]), good.replace(name, name + "A"), good.replace(name, "ä" + name[2:]), good.replace(".0", ""), good.replace(".0", ".-1"),
                      good.replace(".0", f".{2 ** 64}"), good.replace('"once"', ' "once"'), by_name(mia.place, {"do": "subscribe", "on": "notes"})):
            reply = answer(mia, wrong)
            assert reply["error"] == 2 and reply["why"] == "unknown" and reply["key"] in ("at", "once"), (wrong, reply)
        assert answer(mia, good)["answer"] == {"ok": True} and rows(gate) == {(1, "ann"): 1}


def test_what_is_too_old_is_told_so() -> None:
    """And never carried out again, though its name is forgotten."""
    with holding() as gate:
        mia, tab = gate.knock("mia 1"), gate.knock("mia 2")
        begin, first = mia.place, by_name(mia.place, insert(0, "ann"))
        answer(mia, first)
        for at in range(1, MOST):
            assert answer(mia if at % 2 else tab, by_name((mia if at % 2 else tab).place, insert(at, "ann")))["answer"] == {"ok": True}
        late = by_name(begin, insert(1000, "ann"))
        assert answer(tab, first)["again"] and answer(tab, late)["answer"] == {"ok": True}  # 64 came since
        assert answer(tab, first) == answer(tab, by_name(begin, insert(1001, "ann"))) == {"undecided": 102}
        gate.kill()
        gate.start()
        mia = gate.knock("mia 1")
        assert answer(mia, first) == {"undecided": 102} and answer(mia, late)["again"]
        assert rows(gate) == {(at, "ann"): 1 for at in [*range(MOST), 1000]}


def test_who_was_idle_comes_anew() -> None:
    """While a client is there and says nothing, another one of its holder has more names than are kept: what it says by its place is not carried out, and by the
    place that it is told as it comes anew it is."""
    with holding() as gate:
        idle, tab = gate.knock("mia 1"), gate.knock("mia 1")
        for at in range(MOST + 1):
            assert answer(tab, by_name(tab.place, insert(at, "ann")))["answer"] == {"ok": True}
        for at in (100, 101):
            assert answer(idle, by_name(idle.place, insert(at, "ann"))) == {"undecided": 102}
        idle.shut()
        idle = gate.knock("mia 1")
        assert idle.place == tab.place
        for at in (100, 101):
            assert answer(idle, by_name(idle.place, insert(at, "ann")))["answer"] == {"ok": True}
        assert rows(gate) == {(at, "ann"): 1 for at in [*range(MOST + 1), 100, 101]}


def test_who_is_refused_often_has_to_wait() -> None:
    """And nobody else. What is told 104 may be sent again as it is; a restart forgives."""
    with holding() as gate:
        mia, ann = gate.knock("mia 1"), gate.knock("ann")
        refused, there = 0, {(2, "ann"): 1, (3, "ann"): 1}
        for turn in range(10, 20):  # they may be forgiven in the midst of it
            while (reply := answer(mia, by_name(mia.place, GONE))) != {"undecided": 104}:
                assert reply["answer"] == {"entry": 1, "error": 16}
                refused += 1
            waits = by_name(mia.place, insert(turn, "ann"))
            there[turn, "ann"] = 1
            if answer(mia, waits) == {"undecided": 104}:
                break
        assert refused >= MOST
        assert mia.ask(insert(2, "ann")) == ['{"ok":true}']  # without a name it is as ever
        assert answer(ann, by_name(ann.place, insert(3, "ann")))["answer"] == {"ok": True}
        gate.kill()
        gate.start()
        mia = gate.knock("mia 1")
        assert answer(mia, waits)["answer"] == {"ok": True} and answer(mia, waits)["again"]
        assert rows(gate) == there


def test_who_waits_is_forgiven() -> None:
    """Within a minute, by the same gateway."""
    with holding() as gate:
        mia, refused = gate.knock("mia 1"), 0
        while refused < 4 * MOST and answer(mia, by_name(mia.place, GONE)) != {"undecided": 104}:
            refused += 1
        waits, start = by_name(mia.place, insert(1, "ann")), time.monotonic()
        assert refused < 4 * MOST  # or they were forgiven in the midst of it again and again
        while (told := answer(mia, waits)) == {"undecided": 104}:
            assert time.monotonic() < start + 60 + PATIENCE
            time.sleep(0.5)
        assert told["answer"] == {"ok": True} and rows(gate) == {(1, "ann"): 1}


def test_a_place_that_is_ahead_has_to_wait() -> None:
    with holding() as gate:
        mia = gate.knock("mia 1")
        ahead = by_name(f"{gate.epoch()}.1", insert(1, "ann"))
        assert answer(mia, ahead) == {"undecided": 104}
        assert answer(mia, by_name(mia.place, insert(2, "ann")))["answer"] == answer(mia, ahead)["answer"] == {"ok": True}
        assert rows(gate) == {(1, "ann"): 1, (2, "ann"): 1}


def test_a_request_and_its_name_are_one_record() -> None:
    """What a crash leaves has both, or none of them."""
    with holding() as gate:
        mia = gate.knock("mia 1")
        answer(mia, by_name(mia.place, insert(1, "ann")))
        whole = gate.journal.read_bytes()
        said = by_name(mia.place, insert(2, "ann"))
        answer(mia, said)
        longer = gate.journal.read_bytes()
        for cut in (longer[:longer.rindex(b"\n", 0, -1) + 1], longer[:-20], longer[:len(whole) + 30]):
            gate.kill()
            gate.journal.write_bytes(cut)
            gate.start()
            assert gate.journal.read_bytes() == whole and f"cut {len(cut) - len(whole)} bytes" in gate.said()
            assert rows(gate) == {(1, "ann"): 1}
        mia = gate.knock("mia 1")
        assert answer(mia, said) == {"answer": {"ok": True}, "at": f"{gate.epoch()}.2"} and rows(gate) == {(1, "ann"): 1, (2, "ann"): 1}


@needs_viewd
def test_a_compaction_keeps_names_and_a_copy_has_another_epoch() -> None:
    with holding() as gate:
        mia, ann = gate.knock("mia 1"), gate.knock("ann")
        said = [by_name(mia.place, insert(at, "ann")) for at in range(3)] + [by_name(mia.place, GONE)]
        for it in said:
            answer(mia, it)
        for at in range(MOST + 10):
            answer(ann, by_name(ann.place, insert(100 + at, "ann")))
        told, there, epoch = [answer(mia, it) for it in said], rows(gate), gate.epoch()
        for words in ((), ("--copy",)):
            gate.kill()
            done = compacted(gate, *words)
            assert done.returncode == 0, done.stderr
            gate.start()
            mia, ann = gate.knock("mia 1"), gate.knock("ann")
            assert rows(gate) == there and place_of(mia.place)[1] == 4 and place_of(ann.place)[1] == MOST + 10
            if words:
                assert gate.epoch() != epoch and {place_of(it.place)[0] for it in (mia, ann)} == {gate.epoch()}
                assert answer(mia, by_name(f"{epoch}.4", insert(7, "ann"))) == {"undecided": 103}
            else:
                assert {place_of(it.place)[0] for it in (mia, ann)} == {epoch} == {gate.epoch()}
            assert [answer(mia, it) for it in said] == [{**it, "at": mia.place} for it in told]
            assert answer(ann, by_name(f"{place_of(ann.place)[0]}.9", insert(8, "ann"))) == {"undecided": 102}
        assert rows(gate) == there


def test_kills_and_repetitions_do_each_request_once(kills: int) -> None:
    """What four clients of two holders send again by its name is done exactly once, or told undecided for ever: killed at random, with torn ends, compactions,
    renewed tokens, and a copy of before in the journal's place. Two are tabs of one token, and a third has another token of the same holder. 102 is told
    only of that one: while one of its clients was away the others may have had 64 names."""
    with holding() as gate:
        gate.kill()
        gate.words = ("--rows", "1048576")  # a fast host writes more than 65,536
        gate.start()
        trials = Trials(gate, [Writer(gate, *it) for it in WRITERS], kills)
        trials.run()
        trials.account(rows(gate))
