"""A PostgreSQL of the tests' own: a temporary folder, loopback alone. Ends only what it began."""
import contextlib
import os
import pathlib
import random
import shutil
import socket
import subprocess
import tempfile
import time
from types import TracebackType

LEAST = 15  # the version that the settings below need
PATIENCE = 600.0  # seconds for a server to start: a slow machine fails no test
PORTS: list[socket.socket] = []  # names of the ports that this process holds


def folders() -> list[pathlib.Path]:
    """Of the servers that are installed, the latest last; or the one that POSTGRESQL names."""
    if named := os.environ.get("POSTGRESQL"):
        return [pathlib.Path(named)]
    found = {int(it.name): it / "bin" for it in pathlib.Path("/usr/lib/postgresql").glob("*") if it.name.isdigit() and int(it.name) >= LEAST}
    return [found[it] for it in sorted(found) if (found[it] / "postgres").exists()]


def is_installed() -> bool:
    return bool(folders())


def free_port() -> int:
    """A port on which nobody listens. Tests beside this one take none whose name is held, and the system gives clients none below `low`."""
    low = int(pathlib.Path("/proc/sys/net/ipv4/ip_local_port_range").read_text().split()[0])
    while True:
        port, name = random.randrange(10_000, low if low > 12_000 else 60_000), socket.socket(socket.AF_UNIX)
        with contextlib.suppress(OSError), socket.socket() as probe:
            name.bind(f"\0viewd test {port}")
            probe.bind(("127.0.0.1", port))
            PORTS.append(name)
            return port
        name.close()


class Server:
    """A superuser `postgres` without a password. Its texts are not ordered by their bytes, unless COLLATE says so."""

    def __init__(self, settings: dict[str, str] | None = None):
        self.folder = folders()[-1]
        self.port = free_port()
        # (another user than root has to come to it, and the name of a socket has to be short)
        self.room = pathlib.Path(tempfile.mkdtemp(prefix="viewd-postgresql-", dir="/tmp" if os.getuid() == 0 else None))
        self.settings = {"listen_addresses": "127.0.0.1", "port": str(self.port), "unix_socket_directories": str(self.room), "fsync": "off",
                         "max_connections": "40", "shared_buffers": "32MB", "log_min_messages": "warning", "autovacuum": "off",
                         "max_parallel_workers_per_gather": "0", "wal_sender_timeout": "0"} | (settings or {})
        self.process: subprocess.Popen[bytes] | None = None

    def command(self, *words: str | pathlib.Path) -> list[str | pathlib.Path]:
        """PostgreSQL refuses to run as root."""
        return ["runuser", "-u", "postgres", "--", *words] if os.getuid() == 0 else [*words]

    def __enter__(self) -> "Server":
        if os.getuid() == 0:
            shutil.chown(self.room, "postgres")
        data = self.room / "data"
        subprocess.run(self.command(self.folder / "initdb", "-D", data, "-U", "postgres", "--auth=trust", "--encoding=UTF8", "--locale=C.UTF-8", "--no-sync",
                                    "--locale-provider=icu", "--icu-locale=en"), check=True, stdout=subprocess.DEVNULL, stderr=subprocess.DEVNULL, cwd="/")
        self.start()
        return self

    def start(self) -> None:
        data = self.room / "data"
        words = [word for name, value in self.settings.items() for word in ("-c", f"{name}={value}")]
        with (self.room / "log").open("a") as log:
            self.process = subprocess.Popen(self.command(self.folder / "postgres", "-D", data, *words), stdout=log, stderr=log, cwd="/")
        end = time.monotonic() + PATIENCE
        while time.monotonic() < end and self.process.poll() is None:
            if subprocess.run([self.folder / "pg_isready", "-q", "-h", "127.0.0.1", "-p", str(self.port)]).returncode == 0:
                return
            time.sleep(0.1)
        raise RuntimeError((self.room / "log").read_text())

    def __exit__(self, kind: type[BaseException] | None, error: BaseException | None, trace: TracebackType | None) -> None:
        self.stop("immediate")
        shutil.rmtree(self.room, ignore_errors=True)

    def stop(self, how: str) -> None:
        """`fast` is in order, and `immediate` a crash."""
        if self.process:
            subprocess.run(self.command(self.folder / "pg_ctl", "-D", self.room / "data", "-m", how, "-t", str(int(PATIENCE)), "stop"), stdout=subprocess.DEVNULL, stderr=subprocess.DEVNULL, cwd="/")
            self.process.wait()

    def put_back(self, data: pathlib.Path) -> None:
        """An older copy of the server's folder, while it is stopped."""
        shutil.rmtree(self.room / "data")
        shutil.move(data, self.room / "data")
        if os.getuid() == 0:
            subprocess.run(["chown", "-R", "postgres", self.room / "data"], check=True)
        os.chmod(self.room / "data", 0o700)

    def dsn(self, user: str = "postgres", database: str = "postgres") -> str:
        return f"host=127.0.0.1 port={self.port} user={user} dbname={database}"
