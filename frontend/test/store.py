"""A Redis of a test's own, on loopback, with a folder of its own and a sync for each append; and a way to it that can be cut."""
import contextlib
import json
import pathlib
import signal
import socket
import subprocess
import tempfile
import threading
import time
from typing import Any

import redis

from ports import free_port
from redis_stream import Log
from wire import PATIENCE

WORD = "a-password"
EPOCH = "0123456789abcdef" * 2
LONG = 600.0  # seconds of a lease that does not pass while a test runs


class Store:
    """A redis-server that can be killed and started again over what it has on disk."""

    def __init__(self, tls: bool = False, words: tuple[str, ...] = ()):
        self.folder = tempfile.TemporaryDirectory(prefix="store.")
        self.port = free_port()
        self.words = ["redis-server", "--bind", "127.0.0.1", "--dir", self.folder.name, "--save", "", "--requirepass", WORD,
                      "--appendonly", "yes", "--appendfsync", "always", *words]
        self.words += ["--port", "0", "--tls-port", str(self.port), *self.certificate()] if tls else ["--port", str(self.port)]
        scheme, more = ("rediss", f"?ssl_ca_certs={self.folder.name}/authority.pem") if tls else ("redis", "")
        self.url = f"{scheme}://:{WORD}@127.0.0.1:{self.port}/desk{more}"
        self.start()

    def certificate(self) -> list[str]:
        here = pathlib.Path(self.folder.name)
        for words in (["req", "-x509", "-newkey", "rsa:2048", "-nodes", "-days", "1", "-subj", "/CN=authority", "-keyout", "authority.key", "-out", "authority.pem"],
                      ["req", "-newkey", "rsa:2048", "-nodes", "-subj", "/CN=127.0.0.1", "-keyout", "redis.key", "-out", "redis.csr"]):
            subprocess.run(["openssl", *words], cwd=here, check=True, capture_output=True)
        (here / "names").write_text("subjectAltName=IP:127.0.0.1")
        subprocess.run(["openssl", "x509", "-req", "-in", "redis.csr", "-CA", "authority.pem", "-CAkey", "authority.key", "-CAcreateserial", "-days", "1",
                        "-extfile", "names", "-out", "redis.pem"], cwd=here, check=True, capture_output=True)
        return ["--tls-cert-file", f"{here}/redis.pem", "--tls-key-file", f"{here}/redis.key", "--tls-ca-cert-file", f"{here}/authority.pem", "--tls-auth-clients", "no"]

    def start(self) -> None:
        self.process = subprocess.Popen(self.words, stdout=subprocess.DEVNULL, stderr=subprocess.DEVNULL)
        end = time.monotonic() + PATIENCE
        self.client: Any = redis.Redis.from_url(self.url.replace("/desk", ""))
        while True:
            try:
                self.client.ping()
                return
            except redis.RedisError:
                assert time.monotonic() < end and self.process.poll() is None, "redis-server does not answer"
                time.sleep(0.02)

    def kill(self) -> None:
        self.process.send_signal(signal.SIGKILL)
        self.process.wait()

    def steps(self, first: int = 1) -> list[list[bytes]]:
        """The lines of each step, in their order."""
        return [fields[b"lines"].split(b"\n") for _, fields in self.client.xrange("desk", f"{first}-0")]

    def count(self) -> int:
        """The last position."""
        found = self.client.xrevrange("desk", count=1)
        return int(found[0][0].split(b"-")[0]) if found else 0

    def names(self) -> list[Any]:
        """The names of all steps that are there."""
        return [json.loads(line) for lines in self.steps() for line in lines if line.startswith(b'{"once":')]

    def end(self) -> None:
        self.kill()
        self.folder.cleanup()


class Way:
    """A port that leads to a Redis, until it is cut: nothing passes then, and nobody is told."""

    def __init__(self, to: Store):
        self.to, self.is_cut = to, False
        self.listener = socket.create_server(("127.0.0.1", 0))
        self.url = to.url.replace(f":{to.port}/", f":{self.listener.getsockname()[1]}/")
        threading.Thread(target=self.serve, daemon=True).start()

    def serve(self) -> None:
        with contextlib.suppress(OSError):
            while True:
                one = self.listener.accept()[0]
                try:
                    other = socket.create_connection(("127.0.0.1", self.to.port))
                except OSError:
                    one.close()
                    continue
                for pair in ((one, other), (other, one)):
                    threading.Thread(target=self.pass_on, args=pair, daemon=True).start()

    def pass_on(self, given: socket.socket, taken: socket.socket) -> None:
        with contextlib.suppress(OSError):
            while data := given.recv(1 << 16):
                while self.is_cut:
                    time.sleep(0.01)
                taken.sendall(data)
        for it in (given, taken):
            with contextlib.suppress(OSError):
                it.shutdown(socket.SHUT_RDWR)

    def end(self) -> None:
        self.listener.close()


def entry(number: int, who: str = "ann") -> bytes:
    return b'{"as":"ann","do":"write","entries":[{"on":"notes","insert":[%d,"%s"]}]}' % (number, who.encode())


def opened(store: Store, url: str = "", seconds: float = LONG) -> Log:
    it = Log(url or store.url, seconds)
    assert it.begun(EPOCH)
    return it


def written(store: Store, count: int) -> Log:
    """A log of so many steps."""
    log = opened(store)
    assert log.take()
    for at in range(0, count, 1000):
        log.append([[entry(number)] for number in range(at, min(at + 1000, count))])
    log.release()
    return log
