"""Messages of the log, transactions, cuts and the mirror by themselves: bytes written by hand from PostgreSQL's documentation, and changes that do not fit."""
import json
import struct
import unittest

import pgoutput
from cuts import Cut
from kinds import KINDS, Column
from mirror import Mirror, Table
from pgoutput import UNCHANGED, Begin, Cells, Commit, Delete, Insert, Message, Old, Origin, Relation, Truncate, Type, Unreadable, Update, decoded, lsn_of
from rows import LINE, Odd, Reader, entry, line, of, writes
from stream import Change, Lost, Transaction, Transactions

TEXT = b"t\x00\x00\x00\x03abc"
ROW = b"\x00\x03" + TEXT + b"n" + b"u"
CELLS: Cells = ("abc", None, UNCHANGED)
KEY = Relation(7, "public", "notes", "d", (pgoutput.Column("id", True, 23, -1), pgoutput.Column("body", False, 25, -1), pgoutput.Column("n", False, 1700, -1)))
FULL = KEY._replace(identity="f", columns=tuple(it._replace(key=True) for it in KEY.columns))
NOTHING = KEY._replace(identity="n", columns=tuple(it._replace(key=False) for it in KEY.columns))
MESSAGES = [
    (b"B" + struct.pack("!QQI", 0x1_0000_0010, 5, 4_000_000_000), Begin(0x1_0000_0010, 5, 4_000_000_000)),
    (b"C" + struct.pack("!BQQQ", 0, 16, 24, 5), Commit(16, 24, 5)),
    (b"O" + struct.pack("!Q", 9) + b"other\0", Origin(9, "other")),
    (b"M" + struct.pack("!BQ", 1, 9) + b"viewd\0" + struct.pack("!I", 2) + b"\xffx", Message(True, 9, "viewd", b"\xffx")),
    (b"R" + struct.pack("!I", 7) + b"public\0gr\xc3\xb6\0d" + struct.pack("!H", 2) + b"\x01id\0" + struct.pack("!Ii", 23, -1) + b"\x00t\0" + struct.pack("!Ii", 1043, 12),
     Relation(7, "public", "gr\u00f6", "d", (pgoutput.Column("id", True, 23, -1), pgoutput.Column("t", False, 1043, 12)))),
    (b"R" + struct.pack("!I", 7) + b"\0x\0f\0\0", Relation(7, "pg_catalog", "x", "f", ())),
    (b"Y" + struct.pack("!I", 9) + b"public\0mood\0", Type(9, "public", "mood")),
    (b"I" + struct.pack("!I", 7) + b"N" + ROW, Insert(7, CELLS)),
    (b"U" + struct.pack("!I", 7) + b"N" + ROW, Update(7, None, CELLS)),
    (b"U" + struct.pack("!I", 7) + b"K" + ROW + b"N" + ROW, Update(7, Old(CELLS, False), CELLS)),
    (b"U" + struct.pack("!I", 7) + b"O" + ROW + b"N" + ROW, Update(7, Old(CELLS, True), CELLS)),
    (b"D" + struct.pack("!I", 7) + b"K" + ROW, Delete(7, Old(CELLS, False))),
    (b"T" + struct.pack("!IB", 2, 3) + struct.pack("!II", 7, 8), Truncate((7, 8), True, True))]


class Messages(unittest.TestCase):
    def test_each_kind_of_message(self) -> None:
        for data, message in MESSAGES:
            self.assertEqual(decoded(data), message)

    def test_what_is_no_message(self) -> None:
        """Each beginning of a message, each with a byte more, and those of a later protocol."""
        for data, _ in MESSAGES:
            for end in range(len(data)):
                with self.assertRaises(Unreadable):
                    decoded(data[:end])
            with self.assertRaises(Unreadable):
                decoded(data + b"\0")
        for data, words in ((b"S\0\0\0\0\0", "a message of the kind 'S': protocol 1 has none"), (b"I\0\0\0\7N\0\1b\0\0\0\0", "a value of the kind 'b'"), (b"I\0\0\0\7K\0\0", "a row of the kind 'K' in place of a new one"),
                            (b"D\0\0\0\7N\0\0", "a row of the kind 'N' in place of an old one"), (b"I\0\0\0\7N\0\1t\0\0\0\1\xff", "a text is not UTF-8")):
            with self.assertRaisesRegex(Unreadable, words):
                decoded(data)

    def test_places(self) -> None:
        for text, number in (("0/0", 0), ("16/B374D848", 0x16_B374_D848), ("FFFFFFFF/FFFFFFFF", (1 << 64) - 1)):
            self.assertEqual((lsn_of(text), pgoutput.lsn_text(number)), (number, text))

    def test_transactions(self) -> None:
        begin, commit, relation, insert = b"B" + struct.pack("!QQI", 16, 5, 9), MESSAGES[1][0], b"R\0\0\0\7public\0x\0d\0\0", b"I\0\0\0\7N\0\0"
        found = Transactions()
        self.assertEqual([found.add(it) for it in (begin, relation, MESSAGES[2][0], MESSAGES[3][0], MESSAGES[6][0], insert, insert)], [None] * 7)
        done = found.add(commit)
        assert done
        self.assertEqual((done.xid, done.commit, done.end, len(done.changes)), (9, 16, 24, 2))
        for messages, words in (((insert,), "outside a transaction"), ((commit,), "outside a transaction"), ((begin, begin), "begins within another"), ((begin, insert), "of which nothing was said"),
                                ((begin, b"C" + struct.pack("!BQQQ", 0, 17, 24, 5)), "that was to end at 0/10 ends at 0/11")):
            with self.assertRaisesRegex(Unreadable, words):
                one = Transactions()
                for it in messages:
                    one.add(it)

    def test_what_a_cut_sees(self) -> None:
        for most, running, xid, seen in ((100, (), 99, True), (100, (), 100, False), (100, (50,), 50, False), (100, (50,), 51, True), ((1 << 32) + 5, (), 4, True), ((1 << 32) + 5, (), 5, False),
                                         ((1 << 32) + 5, (), 4_294_967_295, True), ((1 << 32) + 5, (4_294_967_295,), 4_294_967_295, False), ((2 << 32) - 5, (), 3, False), ((2 << 32) - 5, (), 4_294_967_290, True),
                                         ((2 << 32) - 5, ((1 << 32) + 8,), 8, False), ((3 << 32), (), 4_294_967_295, True), ((3 << 32), (), 0, False)):
            self.assertEqual(Cut(most, frozenset(running), 0, "").sees(xid), seen, (most, running, xid))


class Mirrors(unittest.TestCase):
    def test_others_are_heard_now_and_then(self) -> None:
        """However many transactions a step has, and how large."""
        heard = list[int]()
        mirror = Mirror()
        mirror.tables[7] = self.table(most=9_999)
        changes = [Change(KEY, None, (str(it), None, "1")) for it in range(9_999)]
        mirror.apply([Transaction(1, 1, 2, changes[:4_000]), Transaction(2, 2, 3, changes[4_000:])], lambda: heard.append(len(mirror.tables[7].rows)))
        self.assertEqual(heard, [5_000])

    def table(self, *rows: tuple[str | None, ...], most: int = 9) -> Table:
        columns = {"n": Column(KINDS["numeric"], True), "id": Column(KINDS["integer"]), "body": Column(KINDS["text"], True)}
        return Table("notes", columns, most).fill(rows)

    def applied(self, table: Table, *changes: Change) -> list[tuple[str, list[object], int]]:
        mirror = Mirror()
        mirror.tables[7] = table
        entries = map(json.loads, mirror.apply([Transaction(1, 1, 2, list(changes))]))
        return [(key, it[key], it.get("copies", 1)) for it in entries for key in it if key in ("insert", "delete")]

    def held(self, table: Table) -> dict[tuple[object, ...], int]:
        return {tuple(json.loads(one)): copies for one, copies in table.rows.items()}

    def test_rows_as_texts(self) -> None:
        """Of each kind, with NULL and without: the texts, and the cells that they were made of."""
        for kind, text, printed, shown in (("smallint", "-7", "-7", "-7"), ("bigint", "9223372036854775807", "9223372036854775807", "9223372036854775807"), ("boolean", "t", "t", "true"), ("boolean", "f", "f", "false"),
                                           ("text", 'a"\\\n\1\u00e9\u2028', 'a"\\\n\1\u00e9\u2028', '"a\\"\\\\\\n\\u0001\u00e9\u2028"'), ("text", "", "", '""'), ("text", "x" * 1024, "x" * 1024, f'"{"x" * 1024}"'),
                                           ("numeric", "1.50", "1.5", '"1.5"'), ("date", "-infinity", "-infinity", '"-infinity"'), ("timestamp with time zone", "2024-01-01 00:00:00.5+00", "2024-01-01 00:00:00.5+00", '"2024-01-01 00:00:00.5+00"')):
            one = Reader("t", [Column(KINDS[kind]), Column(KINDS[kind], True), Column(KINDS[kind], True)])
            row = one.row([text, text, None])
            self.assertEqual(row, f'[{shown},{shown},false,{ {"bigint": "0", "smallint": "0", "boolean": "false"}.get(kind, chr(34) * 2) },true]')
            self.assertEqual((one.cells(row), of(json.loads(row))), ([printed, printed, None], row))
        for kind, text, why in (("text", "\u00e9" * 513, "a text of more than 1,024 bytes"), ("date", "0001-01-01 BC", "the date 0001-01-01 BC: viewd can hold those of the years 1 to 9999"), ("uuid", "x", "the uuid x")):
            odd = Reader("t", [Column(KINDS["integer"]), Column(KINDS[kind])]).row(["1", text])
            assert isinstance(odd, Odd)
            self.assertEqual((odd.cells, odd.why), (["1", text], why))

    def test_by_a_key(self) -> None:
        table = self.table(("1.50", "1", "long"), (None, "2", None))
        self.assertEqual(self.applied(table, Change(KEY, None, ("1", UNCHANGED, "2.0"), True)), [("delete", ["1.5", False, 1, "long", False], 1), ("insert", ["2", False, 1, "long", False], 1)])
        self.assertEqual(self.applied(table, Change(KEY, Old(("1", None, None), False), ("3", UNCHANGED, UNCHANGED), True)), [("delete", ["2", False, 1, "long", False], 1), ("insert", ["2", False, 3, "long", False], 1)])
        self.assertEqual(self.applied(table, Change(KEY, Old(("2", None, None), False)), Change(KEY, None, ("2", "new", None))), [("delete", ["", True, 2, "", True], 1), ("insert", ["", True, 2, "new", False], 1)])
        self.assertEqual(self.applied(table, Change(KEY, None, ("9", "a", None)), Change(KEY, Old(("9", None, None), False))), [])
        self.assertEqual(sorted(map(str, table.by_key)), ["2", "3"])
        self.assertEqual(self.applied(table, Change(KEY)), [("delete", ["2", False, 3, "long", False], 1), ("delete", ["", True, 2, "new", False], 1)])
        self.assertEqual((table.rows.total(), table.by_key), (0, {}))

    def test_by_whole_rows(self) -> None:
        table = self.table(*[("1.50", "1", "x")] * 3)
        self.assertEqual(self.applied(table, *[Change(FULL, Old(("1", "x", "1.50"), True), ("1", UNCHANGED, "1.500"), True)] * 2), [])
        self.assertEqual(self.applied(table, *[Change(FULL, Old(("1", "x", "1.500"), True))] * 2), [("delete", ["1.5", False, 1, "x", False], 2)])
        self.assertEqual(self.applied(table, *[Change(FULL, None, ("4", None, None))] * 2), [("insert", ["", True, 4, "", True], 2)])

    def test_from_whole_rows_to_a_key_and_back(self) -> None:
        table = self.table(("1", "1", "x"), ("1", "2", "x"))
        self.applied(table, Change(FULL, Old(("1", "x", "1"), True), ("1", "y", "1"), True), Change(KEY, None, ("2", "z", "2"), True), Change(FULL, Old(("2", "z", "2"), True)),
                     Change(KEY, None, ("1", "w", UNCHANGED), True), Change(NOTHING, None, ("1", "twice", None)))
        self.assertEqual(self.held(table), {("1", False, 1, "w", False): 1, ("", True, 1, "twice", False): 1})
        with self.assertRaisesRegex(Lost, "a second row with the key"):
            self.applied(table, Change(KEY, None, ("1", "w", UNCHANGED), True))

    def test_what_does_not_fit(self) -> None:
        strange = KEY._replace(columns=(*KEY.columns, pgoutput.Column("more", True, 23, -1)))
        for change, words in ((Change(FULL, Old(("5", "x", "1"), True)), "a row goes that is not there"), (Change(KEY, Old(("5", None, None), False)), "a row goes that is not there, with the key"),
                              (Change(KEY, None, ("5", "x", "1"), True), "a row goes that is not there, with the key"), (Change(KEY._replace(columns=KEY.columns[:2]), None, ("1", "x")), "is replicated without n"),
                              (Change(KEY, None, ("1", "x")), "a row of 2 cells, of 3"), (Change(NOTHING, None, ("1", "x", "1"), True), "its replica identity is nothing"), (Change(KEY, None, ("5", UNCHANGED, "1")), "a value that was not sent"),
                              (Change(strange, Old(("1", None, None, "2"), False)), "its replica identity is more, which is not followed"), (Change(KEY, None, (UNCHANGED, "x", "1"), True), "a key that was not sent")):
            with self.assertRaisesRegex(Lost, words):
                self.applied(self.table(("1", "1", "x")), change)

    def test_rows_that_viewd_cannot_hold(self) -> None:
        table = self.table(("1", "1", "x" * 1025), ("1", "2", "y"))
        self.assertEqual(table.fault(), "viewd cannot hold 1 of its rows: one has a text of more than 1,024 bytes")
        self.assertEqual(self.applied(table, Change(KEY, None, ("1", UNCHANGED, "2"), True)), [])
        self.assertTrue(table.fault())
        self.applied(table, Change(FULL, Old(("1", "x" * 1025, "2"), True), ("1", "short", "2"), True))
        self.assertEqual((table.fault(), self.held(table)), ("", {("1", False, 2, "y", False): 1, ("2", False, 1, "short", False): 1}))
        table = self.table(("1.50", "1", "x"))
        self.applied(table, Change(KEY, None, ("1", "x" * 1025, UNCHANGED), True), Change(FULL, Old(("1", "x" * 1025, "1.50"), True), ("1", "y", "1.50"), True))
        self.assertEqual((table.fault(), self.held(table)), ("", {("1.5", False, 1, "y", False): 1}))

    def test_keys_that_viewd_cannot_hold(self) -> None:
        days = Relation(7, "public", "days", "d", (pgoutput.Column("day", True, 1082, -1), pgoutput.Column("what", False, 25, -1)))
        table = Table("days", {"what": Column(KINDS["text"]), "day": Column(KINDS["date"])}, 9).fill([("x", "0044-03-15 BC"), ("y", "0043-03-15 BC"), ("z", "2024-01-31")])
        self.assertEqual(self.applied(table, Change(days, None, ("0044-03-15 BC", "new"), True), Change(days, Old(("0043-03-15 BC", None), False)), Change(days, Old(("2024-01-31", None), False))), [("delete", ["z", "2024-01-31"], 1)])
        self.assertEqual(table.fault(), "viewd cannot hold 1 of its rows: one has the date 0044-03-15 BC: viewd can hold those of the years 1 to 9999")
        self.assertEqual(self.applied(table, Change(days, Old(("0044-03-15 BC", None), False), ("2024-02-29", UNCHANGED), True)), [("insert", ["new", "2024-02-29"], 1)])
        self.assertEqual(table.fault(), "")
        both = Relation(7, "public", "pairs", "d", (pgoutput.Column("a", True, 25, -1), pgoutput.Column("b", True, 25, -1)))
        long = "x" * 1025
        table = Table("pairs", {"a": Column(KINDS["text"]), "b": Column(KINDS["text"])}, 9).fill([(f"{long},odd {long}", long), (long, f"{long},odd {long}")])
        self.applied(table, Change(both, Old((long, f"{long},odd {long}"), False)))
        self.assertEqual(list(table.odd), [table.reader.row((f"{long},odd {long}", long))])

    def test_too_many_rows(self) -> None:
        rows = [("1", str(it), "x") for it in range(10)]
        self.assertEqual(self.table(*rows).fault(), "viewd cannot hold its rows: there are more than 9 different ones")
        table = self.table(*rows[:9])
        more = Change(KEY, None, ("10", "x", "1"))
        self.assertEqual(self.applied(table, more, Change(KEY, Old(("3", None, None), False)))[0][0], "delete")
        self.assertEqual((table.fault(), self.applied(table, more._replace(new=("11", "x", "1"))), bool(table.fault())), ("", [], True))
        self.assertEqual(self.applied(table, Change(KEY, Old(("77", None, None), False))), [])

    def test_writes_are_within_the_limits(self) -> None:
        entries = [entry("t", "insert", of([it]), 1) for it in range(2500)] + [entry("t", "insert", of(["\1" * 1024]), 1) for _ in range(25)]
        made = list(writes(entries))
        self.assertEqual([one for it in made for one in it.entries], entries)
        self.assertEqual([len(it.entries) for it in made], [1000, 1000, 508, 10, 7])
        self.assertTrue(all(len(line('"as":"admin"', it)) <= LINE for it in made))
