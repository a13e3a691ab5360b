"""The command line over a gateway that runs: what it prints, where its words go, and its statuses."""
import contextlib
import csv
import json
import os
import pty
import re
import signal
import subprocess
import time

import viewd
from conftest import PATIENCE, TOP
from ports import free_port
from viewd.command import batches

CLIENT = TOP / "clients/python/viewd-client"


def env(gateway, role="mia"):
    return {**os.environ, "COLUMNS": "80", "LINES": "24", "VIEWD_URL": gateway.url, "VIEWD_TOKEN": f"{role}-demo"}


def ran(gateway, *words, given="", role="mia"):
    """Status, standard output and standard error."""
    done = subprocess.run([CLIENT, *map(str, words)], env=env(gateway, role), input=given, capture_output=True, text=True, timeout=PATIENCE)
    return done.returncode, done.stdout, done.stderr


@contextlib.contextmanager
def watching(gateway, *words):
    with subprocess.Popen([CLIENT, "watch", *words], env=env(gateway), stdout=subprocess.PIPE, stderr=subprocess.PIPE, text=True) as process:
        try:
            yield process
        finally:
            process.kill()


def until(holds):
    end = time.monotonic() + PATIENCE
    while not holds():
        assert time.monotonic() < end, "it did not come"
        time.sleep(0.01)


ROWS = [{"id": 2, "who": "mia", "done": True}, {"id": 9, "who": "mia", "done": False}]


def test_what_it_says_of_itself(gateway):
    status, out, err = ran(gateway, "--help")
    assert (status, err) == (0, "") and "examples:" in out and "viewd-client watch tickets | jq" in out
    for command in ("watch", "write", "import", "export", "types"):
        assert ran(gateway, command, "--help")[0] == 0
    assert [ran(gateway, *it)[0] for it in ((), ("fly",), ("watch",), ("types", "notes"))] == [2] * 4


def test_write_and_export(gateway, tmp_path):
    lines = [{"on": "notes", "insert": ROWS[1]}, [{"on": "notes", "insert": ROWS[0], "copies": 2}, {"on": "notes", "insert": [-5, "mia", True]},
             {"on": "notes", "delete": [-5, "mia", True]}]]
    assert ran(gateway, "write", given="\n".join(map(json.dumps, lines)) + "\n\n") == (0, "", "")
    assert ran(gateway, "export", "notes") == (0, '{"id":2,"who":"mia","done":true}\n' * 2 + '{"id":9,"who":"mia","done":false}\n', "")
    assert ran(gateway, "export", "notes", "--csv", "--where", "done=false") == (0, "id,who,done\n9,mia,false\n", "")
    assert ran(gateway, "export", "notes", "--order", "-id", "--limit", 1)[1] == '{"id":9,"who":"mia","done":false}\n'
    assert ran(gateway, "export", "counts") == (0, '{"who":"mia","n":3}\n', "")
    file = tmp_path / "lines"
    file.write_text('{"on":"notes","insert":{"id":1,"who":"ann","done":true}}\n')
    assert ran(gateway, "write", file) == (1, "", "viewd-client: line 1: no permissive policy (14), on notes, check insert, entry 1\n")
    for given in ("{", "7", "[]", '{"insert":[1]}'):
        assert ran(gateway, "write", given=given)[:2] == (2, "")
    for given in ('"insert":5', '"update":5', r'"insert":{"id":1,"who":"\ud800","done":true}'):
        status, out, err = ran(gateway, "write", given=f'{{"on":"notes",{given}}}')
        assert (status, out) == (1, "") and err.startswith("viewd-client: line 1: ") and err.count("\n") == 1
    file.write_bytes(b"\xff\n")
    assert ran(gateway, "write", file)[:2] == (2, "")
    assert ran(gateway, "write", tmp_path / "none")[0] == 2
    assert ran(gateway, "export", "plans") == (1, "", "viewd-client: unknown relation (7)\n")
    for words in (("--where", "done"), ("--where", "done=yes"), ("--where", "id=1.5"), ("--where", f"id={2 ** 63}"), ("--order", "nothing")):
        assert ran(gateway, "export", "notes", *words)[:2] == (2, "")


def test_import(gateway, tmp_path):
    file = tmp_path / "notes.csv"
    rows = [[number, "mia", f"{number % 2 == 0}".lower()] for number in range(3000)]
    with file.open("w") as to:
        csv.writer(to).writerows([["id", "who", "done"], *rows])
    assert ran(gateway, "import", file) == (0, "", "viewd-client: 3,000 rows were inserted into notes\n")
    assert ran(gateway, "export", "notes", "--csv")[1] == "id,who,done\n" + "".join(f"{','.join(map(str, it))}\n" for it in rows)
    # columns stand in any order, texts between quotes, and what is refused is told with its line
    given = 'who,done,id\n"mia",true,-1\nann,true,5\n'
    assert ran(gateway, "import", "-", "--into", "notes", given=given) == (
        1, "", "viewd-client: line 3: no permissive policy (14), on notes, check insert, entry 2; 0 rows before line 2 were inserted, and none from there on\n")
    for given in ("", "id,who\n1,mia\n", "id,who,done\n1,mia\n", "id,who,done\n1,mia,yes\n", 'id,who,done\n1,"mia,true\n'):
        assert ran(gateway, "import", "-", "--into", "notes", given=given)[:2] == (2, "")
    assert ran(gateway, "import", "-")[0] == ran(gateway, "import", tmp_path / "none", "--into", "notes")[0] == 2
    assert ran(gateway, "export", "counts")[1] == '{"who":"mia","n":3000}\n'


def test_an_import_fills_messages_and_none_is_too_long():
    for size in range(900, 1000):
        rows = [[number, "x" * size] for number in range(100, 300)]
        parts = list(batches("notes", [*enumerate(rows)]))
        assert [row for part in parts for _, row in part] == rows
        entry = len('{"on":"notes","insert":[100,""]},') + size
        # what the protocol says of a message: the longest id and place of this client, and 65,463 bytes at most
        head = '{"id":9007199254740992,"once":"' + "x" * 22 + '","at":"' + "0" * 32 + '.18446744073709551615","do":"write","entries":['
        for part in parts:
            assert len(head) + len(part) * entry + 1 <= 65_463
        assert all(len(head) + (len(part) + 1) * entry + 1 > 65_463 - 2 for part in parts[:-1])


def test_watch(gateway):
    with viewd.plain.connect(gateway.url, token="mia-demo") as db:
        db.insert("notes", ROWS[0], copies=2)
        with watching(gateway, "notes") as process, watching(gateway, "notes", "--where", "done=false") as chosen:
            assert process.stdout.readline() == '{"copies":2,"row":{"id":2,"who":"mia","done":true}}\n'
            db.write([{"on": "notes", "update": ROWS}])
            assert [process.stdout.readline() for _ in "12"] == ['{"copies":-1,"row":{"id":2,"who":"mia","done":true}}\n',
                                                                 '{"copies":1,"row":{"id":9,"who":"mia","done":false}}\n']
            assert chosen.stdout.readline() == '{"copies":1,"row":{"id":9,"who":"mia","done":false}}\n'
            gateway.kill()
            until(lambda: db.state == "stale")
            gateway.start()
            db.remove("notes", ROWS[0])
            assert process.stdout.readline() == '{"copies":-1,"row":{"id":2,"who":"mia","done":true}}\n'
            assert "stale" in process.stderr.readline() and process.stderr.readline() == "viewd-client: live again\n"
            with viewd.plain.connect(gateway.url, token="ann-demo") as ann:
                ann.request({"do": "revoke", "on": "notes", "privileges": ["select"], "to": "mia"})
            assert process.stdout.readline() == '{"copies":-1,"row":{"id":9,"who":"mia","done":false}}\n'
            assert process.stdout.readline() == "" and process.wait(PATIENCE) == 1
            assert process.stderr.read() == "viewd-client: notes was ended: privilege\n"
        assert ran(gateway, "watch", "notes")[::2] == (1, "viewd-client: missing privilege (13), on notes, privilege select\n")


def test_a_write_goes_on_when_its_gateway_is_there_again(gateway):
    with subprocess.Popen([CLIENT, "write"], env=env(gateway), stdin=subprocess.PIPE, stderr=subprocess.PIPE, text=True) as process:
        def put(row):
            process.stdin.write(json.dumps({"on": "notes", "insert": row}) + "\n")
            process.stdin.flush()

        put(ROWS[0])
        with viewd.plain.connect(gateway.url, token="mia-demo") as db, db.live("notes") as notes:
            until(lambda: notes.rows)
        gateway.kill()
        gateway.start()
        put(ROWS[1])
        process.stdin.close()
        assert re.fullmatch(r"viewd-client: stale: .*; trying again\nviewd-client: live again\n", process.stderr.read())
        assert process.wait(PATIENCE) == 0
    assert ran(gateway, "export", "notes")[1] == '{"id":2,"who":"mia","done":true}\n{"id":9,"who":"mia","done":false}\n'


def test_watch_ends_with_its_reader_and_by_a_signal(gateway):
    with viewd.plain.connect(gateway.url, token="mia-demo") as db:
        db.insert("notes", ROWS[0])
        with watching(gateway, "notes") as process:
            process.stdout.readline()
            process.stdout.close()
            db.insert("notes", ROWS[1])
            assert process.wait(PATIENCE) == 0 and process.stderr.read() == ""
        with watching(gateway, "notes") as process:
            process.stdout.readline()
            process.send_signal(signal.SIGINT)
            assert process.wait(PATIENCE) == 130 and process.stderr.read() == ""


def test_nulls(gateway):
    with viewd.plain.connect(gateway.url, token="admin-demo", nulls=True) as admin:
        admin.request({"do": "create_table", "name": "visits", "owner": "mia", "columns": [["id", "int"], ["until", "text"], ["until_null", "flag"]]})
        admin.request({"do": "grant", "on": "visits", "privileges": ["select", "insert"], "to": "ann"})
    with viewd.plain.connect(gateway.url, token="ann-demo", nulls=True) as ann:
        assert ann.insert("visits", {"id": 1, "until": None})["ok"] and ann.rows("visits") == [{"id": 1, "until": None}]
        assert ann.columns("visits") == [("id", "int"), ("until", "text")]
    assert ran(gateway, "write", "--nulls", given='{"on":"visits","insert":{"id":2,"until":"May"}}\n{"on":"visits","update":[{"id":1,"until":null},{"id":3,"until":null}]}\n') == (0, "", "")
    assert ran(gateway, "export", "visits", "--nulls", "--order", "-until") == (0, '{"id":3,"until":null}\n{"id":2,"until":"May"}\n', "")
    assert ran(gateway, "export", "visits", "--csv") == (0, "id,until,until_null\n2,May,false\n3,,true\n", "")
    assert ran(gateway, "export", "visits", "--nulls", "--csv") == (2, "", "viewd-client: --csv has no null: without --nulls the flag NAME_null says it, and import reads that\n")
    assert ran(gateway, "types", "--typescript", "--nulls", "visits")[1].splitlines()[-2] == "  visits: {id: number | bigint; until: string | null};"
    assert ran(gateway, "types", "--typescript", "visits")[1].splitlines()[-2] == "  visits: {id: number | bigint; until: string; until_null: boolean};"
    with watching(gateway, "visits", "--nulls") as process:
        assert process.stdout.readline() == '{"copies":1,"row":{"id":2,"until":"May"}}\n' and process.stdout.readline() == '{"copies":1,"row":{"id":3,"until":null}}\n'
    with watching(gateway, "visits", "--nulls", "--table") as process:
        assert [process.stdout.readline() for _ in range(3)] == ["id  until\n", " 2  May\n", " 3  null\n"]


def test_the_table(gateway):
    with viewd.plain.connect(gateway.url, token="mia-demo") as db:
        db.insert("notes", ROWS[0])
        with watching(gateway, "notes", "--table", "--order", "-id") as process:
            assert [process.stdout.readline() for _ in range(4)] == ["id  who  done\n", " 2  mia  true\n", "1 of 1 rows, live\n", "\n"]
            db.insert("notes", {"id": 10, "who": "mia", "done": False})
            assert [process.stdout.readline() for _ in range(4)] == ["id  who  done\n", "10  mia  false\n", " 2  mia  true\n", "2 of 2 rows, live\n"]
        # on a screen it is drawn anew, and nothing of a text moves the cursor
        master, slave = pty.openpty()
        db.columns("notes")
        with subprocess.Popen([CLIENT, "watch", "notes", "--table"], env=env(gateway), stdout=slave, stderr=slave) as process:
            os.close(slave)
            shown = b""
            while b"2 of 2 rows, live" not in shown:
                shown += os.read(master, 4096)
            assert shown.startswith(b"\x1b[H\x1b[2J")
            process.kill()
        os.close(master)


def test_a_bar_on_a_screen(gateway):
    master, slave = pty.openpty()
    given = "id,who,done\n" + "".join(f"{number},mia,true\n" for number in range(1200))
    with subprocess.Popen([CLIENT, "import", "-", "--into", "notes"], env=env(gateway), stdin=subprocess.PIPE, stderr=slave) as process:
        os.close(slave)
        process.stdin.write(given.encode())
        process.stdin.close()
        shown = b""
        while b"were inserted into notes" not in shown:
            shown += os.read(master, 4096)
    os.close(master)
    assert b"500 of 1,200 rows" in shown and b"[" + b"#" * 30 + b"] 1,200 of 1,200 rows" in shown and process.returncode == 0


def test_types(gateway):
    assert ran(gateway, "types", "--typescript", "notes", "counts") == (0, """\
/** Relations by their names, each with the type of its rows. */
export interface Relations {
  notes: {id: number | bigint; who: string; done: boolean};
  counts: {who: string; n: number | bigint};
}
""", "")


def test_no_connection(gateway, tmp_path):
    assert ran(gateway, "export", "notes", role="nobody") == (3, "", "viewd-client: not sent: This token opens no role.\n")
    token = tmp_path / "token"
    token.write_text("mia-demo\n")
    assert ran(gateway, "export", "notes", "--token-file", token, role="nobody")[0] == 0
    assert ran(gateway, "export", "notes", "--token-file", tmp_path / "none")[0] == 2
    assert [ran(gateway, "export", "notes", "--url", it)[0] for it in (f"ws://127.0.0.1:{free_port()}/live {gateway.url}", " ")] == [0, 2]
    gateway.kill()
    status, out, err = ran(gateway, "export", "notes", "--wait", "5")
    assert (status, out) == (3, "") and err.startswith(f"viewd-client: not sent: there is no gateway at {gateway.url}: ")
    assert subprocess.run([CLIENT, "export", "notes"], env={"PATH": os.environ["PATH"]}, capture_output=True).returncode == 2
