"""`viewd-postgresql follow` with the gateway that it starts: what clients in each role see is what `SET ROLE; SELECT` shows, while both are killed."""
import json
import os
import pathlib
import random
import shutil
import signal
import subprocess
import sys
import tempfile
import threading
import time
import unittest
from collections import Counter
from typing import Any

from base import Base
from desk import PROGRAM, TOP, alike, columns_of, decoded
from followed import CLOCK, MOST, PATIENCE, counts, options
from writers import CHURN, DESK, FIXED, Writer

sys.path.append(str(TOP / "frontend/test"))

from ports import free_port
from wire import Ended, Wire, digest

GATEWAY = pathlib.Path(os.environ.get("GATEWAY", TOP / "crates/gateway/out/gateway")).resolve()


def has_door() -> bool:
    return GATEWAY.is_file() and b"--log" in subprocess.run([GATEWAY, "--help"], capture_output=True).stdout


@unittest.skipUnless(has_door(), f"{GATEWAY} is not built, or has no door for logs")
class Lives(Base):
    def setUp(self) -> None:
        super().setUp()
        self.room = pathlib.Path(tempfile.mkdtemp(dir=self.desk.room()))
        self.addCleanup(shutil.rmtree, self.room)
        self.desk.do("create role viewd login replication bypassrls", "grant pg_read_all_data to viewd", CLOCK, DESK, "alter publication viewd add table clock", "grant select on clock to public")
        (self.room / "viewd.toml").write_text("[postgres]\n")
        (self.room / "tokens").write_text("[tokens]\n" + "".join(f'"{digest(f"{role}-demo")}" = "{role}"\n' for role in ("admin", *FIXED, *CHURN)))
        self.port, self.tick, self.stops = free_port(), 0, False
        self.process: subprocess.Popen[bytes] | None = None
        self.addCleanup(self.stop)

    def stop(self) -> None:
        if self.process:
            self.process.kill()
            self.process.wait()
        end = time.monotonic() + PATIENCE
        while time.monotonic() < end:
            self.desk.cursor.execute("select pg_drop_replication_slot(slot_name) from pg_replication_slots where not active")
            self.desk.cursor.execute("select count(*) from pg_replication_slots")
            if self.desk.cursor.fetchone() == (0,):
                return
            time.sleep(0.05)

    def told(self) -> str:
        return (self.room / "log").read_text() if (self.room / "log").exists() else ""

    def start(self) -> None:
        """What does not run."""
        if self.process is None or self.process.poll() is not None:
            if self.process:
                self.assertIn(self.process.returncode, (-9, 3, 4), self.told())
            with (self.room / "log").open("ab") as log:
                self.process = subprocess.Popen(["/usr/bin/python3", PROGRAM, "follow", self.server.dsn("viewd", self.name), self.room / "viewd.toml", "--", GATEWAY, "--journal", self.room / "journal",
                                                 "--tokens", self.room / "tokens", "--port", str(self.port), "--rows", str(MOST)], stdin=subprocess.DEVNULL, stdout=log, stderr=log)
            counts["starts"] += 1

    def enter(self, role: str) -> Wire | None:
        try:
            wire = Wire(self.port, f"{role}-demo")
            self.assertEqual(wire.enter(), role)
            return wire
        except (Ended, OSError):
            return None

    def subscribed(self, wire: Wire, name: str) -> list[dict[str, Any]]:
        """The reply and the rows. Lines of a step may come before."""
        lines = wire.ask({"do": "subscribe", "on": name})
        while not lines[0].startswith(('{"columns"', '{"error"')):
            lines = wire.event()
        return [json.loads(it) for it in lines]

    def settle(self) -> None:
        """Until clients see what is in PostgreSQL now."""
        self.tick += 1
        self.desk.do(f"update clock set tick = {self.tick}")
        end = time.monotonic() + PATIENCE
        while True:
            self.assertLess(time.monotonic(), end, self.told()[-3000:])
            self.start()
            try:
                if (wire := self.enter("admin")) and self.subscribed(wire, "clock")[1]["changes"] == [[1, [self.tick]]]:
                    return
            except (Ended, OSError, IndexError):
                pass
            time.sleep(0.05)

    def compare(self, roles: tuple[str, ...] = FIXED + CHURN) -> None:
        """While no writer writes."""
        admin = self.enter("admin")
        assert admin
        made = [json.loads(it)["made"] for it in admin.shape]
        names = {it["name"]: columns_of(it) for it in made if it["do"] in ("create_table", "create_view") and it["name"] != "viewd_source"}
        self.desk.cursor.execute("select rolname from pg_roles where not rolsuper and not rolbypassrls")
        for role in sorted({it for it, in self.desk.cursor.fetchall()} & set(roles)):
            wire = self.enter(role)
            assert wire, role
            for name, columns in names.items():
                shown: Counter[tuple[Any, ...]] | None = Counter()
                for it in self.subscribed(wire, name):
                    if "error" in it:
                        self.assertEqual(it["error"], 13)
                        shown = None
                    for copies, row in it.get("changes", []):
                        assert shown is not None
                        shown[decoded(columns, row)] += copies
                self.assertEqual(alike(shown), alike(self.desk.seen_at(role, f"public.{name}")), (role, name, options["seed"], self.told()[-2000:]))
                counts["denied by both" if shown is None else "equal and not empty" if shown else "equal and empty"] += 1
            wire.shut()

    def gateway(self) -> int | None:
        assert self.process
        children = pathlib.Path(f"/proc/{self.process.pid}/task/{self.process.pid}/children")
        return int(found[0]) if children.exists() and (found := children.read_text().split()) else None

    def test_a_gateway_that_it_starts(self) -> None:
        """Writers write, and program and gateway are killed; then all begins anew by itself."""
        r = random.Random(options["seed"])
        self.settle()
        self.compare()
        writers = [Writer(self.desk.dsn, r.randrange(1 << 30), False) for _ in range(int(options["writers"]))]
        end, rounds = time.monotonic() + options["seconds"] / 4, 0
        while time.monotonic() < end or rounds < 3:
            rounds += 1
            stop, most = threading.Event(), r.choice((3, 10, 40))
            threads = [threading.Thread(target=it.run, args=(stop, most)) for it in writers]
            for one in threads:
                one.start()
            while any(one.is_alive() for one in threads):
                self.start()
                time.sleep(r.uniform(0, 0.5))
                if r.random() < 0.3 and self.process and self.process.poll() is None:
                    pid = r.choice((self.process.pid, self.gateway()))
                    if pid is not None:
                        counts["kills of the program" if pid == self.process.pid else "kills of the gateway"] += 1
                        os.kill(pid, signal.SIGKILL)
            self.settle()
            self.compare()
        for it in writers:
            counts["transactions"] += it.counts["transactions"]
            it.connection.close()
        # (a writer's text that viewd cannot hold would leave the table out)
        self.desk.do("delete from tickets where id = 50")
        self.settle()
        mia = self.enter("mia")
        assert mia and self.process
        process = self.process
        self.desk.do("vacuum full tickets")
        mia.end()
        self.settle()
        self.compare()
        self.assertIs(self.process, process, self.told())
        self.assertIn("begins anew: tickets was written anew", self.told())
        self.assertTrue((self.room / "journal.before").exists())
