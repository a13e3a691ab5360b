#!/usr/bin/python3
"""Damage to a journal of the gateway as a program: it is told with the line, or cut as a torn end, and never read as another journal.

GATEWAY names another program than the one that is built."""
import json
import sys
from collections.abc import Iterator

from names import GONE, answer, by_name, holding, place_of, rows
from trial import chained, insert, until
from wire import TOP, Gateway, http

sys.path.insert(0, str(TOP / "frontend"))

import audit

GONE_TEXT = b'"as":"mia",' + json.dumps(GONE, separators=(",", ":")).encode()[1:]
THERE = {(1, "ann"): 1, (2, "ann"): 1, (3, "ann"): 1, (4, "ann"): 1}


def is_ready(gate: Gateway) -> bool:
    try:
        return http(gate.port, "/readyz")[0] == 200
    except OSError:
        return False


def small_journal(gate: Gateway) -> bytes:
    """A journal with all that one can have, and leaves the gateway ended: requests with notes and without, where names of two holders stand, names that
    are kept, of a request that was refused, too, and records of two lines, one of them at its end."""
    mia, ann = gate.knock("mia 1"), gate.knock("ann")
    for wire, request in ((mia, insert(1, "ann")), (mia, GONE), (ann, insert(2, "ann"))):
        answer(wire, by_name(wire.place, request))
    gate.kill()
    journal = audit.read(gate.journal.read_bytes(), "a journal")
    gate.journal.write_bytes(b"".join(audit.written(journal, (it.entry for it in journal.entries))))  # has no notes
    gate.start()
    mia = gate.knock("mia 2")
    assert place_of(mia.place) == (gate.epoch(), 2)
    assert mia.ask(insert(3, "ann")) == ['{"ok":true}']
    assert answer(mia, by_name(mia.place, GONE))["answer"]["error"] == 16
    assert answer(mia, by_name(mia.place, insert(4, "ann")))["answer"] == {"ok": True}
    gate.kill()
    whole = gate.journal.read_bytes()
    found = [line[75:82] for line in whole.splitlines()]
    assert {*found} == {b'"journa', b'"holder', b'"as":"m', b'"as":"a', b'"once":', b'"at":17'} and whole.count(b'{"part":') == 1 and len(found) == 18, found
    return whole


def ends_of(whole: bytes) -> list[int]:
    """Where the lines of a journal end."""
    return [at + 1 for at, byte in enumerate(whole) if byte == 10]


def whole_before(whole: bytes) -> int:
    """Where the last record begins."""
    lines = whole.splitlines(keepends=True)
    last = max(at for at, line in enumerate(lines[:-1]) if line.startswith(audit.LAST))
    return len(b"".join(lines[:last + 1]))


def damages(whole: bytes, at: int) -> Iterator[bytes]:
    """A byte is another, lost, doubled, zeroed."""
    before, byte, rest = whole[:at], whole[at:at + 1], whole[at + 1:]
    yield before + bytes([byte[0] ^ 1]) + rest
    yield before + rest
    yield before + byte + byte + rest
    yield before + b"\0" + rest


def tell(gate: Gateway, data: bytes, line: int, what: object) -> None:
    """It does not start with this journal, says in which line that is damaged, and leaves it as it is."""
    gate.journal.write_bytes(data)
    place = len(b"".join(data.splitlines(keepends=True)[:line - 1]))
    gate.launch()
    until(lambda: gate.process.poll() is not None or is_ready(gate), "it neither listens nor ends")
    assert gate.process.poll() == 1, what
    said = gate.logs[-1].read_text()
    assert f"damaged: {gate.journal}: line {line}, at byte {place}, is no entry that is accepted" in said and gate.journal.read_bytes() == data, (what, said)


def test_each_damaged_byte_is_told_with_its_place(every: int = 19) -> None:
    """Bytes of a small journal are changed, lost, doubled or zeroed, each `every`th and each end of a line: told with the line, or cut with the last
    record as torn."""
    with holding() as gate:
        whole = small_journal(gate)
        ends, cut = ends_of(whole), whole_before(whole)
        torn = 0
        for at in sorted({*range(0, len(whole), every), *(end - 1 for end in ends)}):
            for data in damages(whole, at):
                if data[-1:] not in b"\n\0":  # the end of its last line alone may look torn
                    gate.journal.write_bytes(data)
                    gate.launch()
                    until(lambda: gate.process.poll() is not None or is_ready(gate), "it neither listens nor ends")
                    assert gate.process.poll() is None and f"cut {len(data) - cut} bytes" in gate.logs[-1].read_text(), gate.said()
                    gate.kill()
                    assert gate.journal.read_bytes() == whole[:cut]
                    torn += 1
                else:
                    more = data.count(b"\n") > whole.count(b"\n")  # behind a newline more is a line more
                    tell(gate, data, sum(end <= at for end in ends) + more + 1, at)
        print(f"  {len(whole)} bytes: {torn} of the changes looked torn, and were cut")
        assert torn == 2
        lines = whole.splitlines(keepends=True)
        for data, number in ((b"".join(lines[:3] + lines[4:]), 4), (b"".join(lines[:3] + lines[2:]), 4), (b"".join(lines[:2] + [lines[3], lines[2]] + lines[4:]), 3),
                             (whole + b"\0" * 512 + b"\n", len(lines) + 1), (whole + b"\0" * 512, len(lines) + 1), (b"".join(lines[1:]), 1)):
            tell(gate, data, number, number)
        for size in range(cut, len(whole)):  # wherever a record is torn
            if size % every == 0 or whole[size - 1] == 10:
                gate.journal.write_bytes(whole[:size])
                gate.start()
                gate.kill()
                assert gate.journal.read_bytes() == whole[:cut]
        gate.journal.write_bytes(whole)
        gate.start()
        assert rows(gate) == THERE and place_of(gate.knock("mia 1").place) == (gate.epoch(), 4) and place_of(gate.knock("ann").place) == (gate.epoch(), 1)


def test_records_that_lead_nowhere_are_told_with_their_place() -> None:
    """Records with the right digests that no gateway writes."""
    with holding() as gate:
        whole = small_journal(gate)
        texts = [*audit.texts(whole, "a journal")][1:]
        epoch = gate.epoch().encode()
        write, name = (text for _, text in texts[-2:])
        again = name.replace(json.loads(b"{" + name)["once"].encode(), b"A" * 22)
        role, stands = b'"as":"admin","do":"create_role","name":"eve"}', b'"holder":"mia/Eve","at":"%s.1"}' % epoch
        nowhere: dict[str, tuple[tuple[bool, bytes], ...]] = {
            "a name that has an answer": ((True, name),),
            "the same with a request": ((False, role), (True, name)),
            "a name before its request": ((False, again), (True, role)),
            "where a holder stands, behind requests": ((True, stands),),
            "the same in a record": ((False, role), (True, stands)),
            "a request that is refused, with a name": ((False, GONE_TEXT), (True, again)),
            "a name of 21 letters": ((False, role), (True, again.replace(b"A" * 22, b"A" * 21))),
            "a name without its digest": ((False, role), (True, again.replace(b'"digest":"', b'"digest":"0'))),
            "a name with a blank": ((False, role), (True, again.replace(b',"by"', b', "by"'))),
            "what is no request": ((False, b'"as":"mia","do":"subscribe","on":"notes"}'), (True, again)),
            "nothing": ((False, role), (True, b"")),
            "a second head": ((True, b'"journal":1,"epoch":"%s","audit":1}' % epoch),)}
        for what, record in nowhere.items():
            tell(gate, chained([*texts, *record], epoch), len(texts) + 2, what)
            tell(gate, chained([*texts, *record, (True, role)], epoch), len(texts) + 2, what)
        for what, other in (("where a holder stands without a place", b'"holder":"mia/Eve"}'), ("a place of another form", stands.replace(b".1", b".01"))):
            tell(gate, chained([(True, other), *texts], epoch), 2, what)
        gate.journal.write_bytes(chained([*texts, (False, role), (True, again), (False, role)], epoch))
        gate.start()
        assert rows(gate) == THERE and place_of(gate.knock("mia 1").place) == (gate.epoch(), 5) and "cut" in gate.logs[-1].read_text()
