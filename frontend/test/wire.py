"""A client of a gateway that is written from RFC 6455 and docs/PROTOCOL.md alone: a socket, frames, and lines.

It can say what no browser would: frames without masks, of reserved kinds, cut anywhere; heads that do not end; and it can leave unread
what it is told."""
import base64
import contextlib
import hashlib
import json
import os
import pathlib
import re
import resource
import select
import signal
import socket
import struct
import subprocess
import tempfile
import time
import urllib.error
import urllib.request
from collections.abc import Callable
from typing import Any

from ports import free_port

Line = dict[str, Any]  # a line of JSON, or a request
TOP = pathlib.Path(__file__).resolve().parent.parent.parent
PROGRAM = pathlib.Path(os.environ.get("GATEWAY", TOP / "crates/gateway/out/gateway")).resolve()
PATIENCE = float(os.environ.get("PATIENCE", 600))  # seconds for anything that has to come: a slow machine fails no test
COMING = 10  # seconds that the gateway leaves a connection from its first byte to its token
GUID = b"258EAFA5-E914-47DA-95CA-C5AB0DC85B11"
TEXT, BINARY, CLOSE, PING, PONG = 1, 2, 8, 9, 10


def frame(payload: bytes, kind: int = TEXT, final: bool = True, reserved: int = 0, mask: bytes | None = b"\0\0\0\0") -> bytes:
    """A frame of a client (RFC 6455, 5.2). A mask of zeros leaves the bytes as they are; none at all is an error."""
    head = bytes([(0x80 if final else 0) | reserved << 4 | kind])
    bit, size = (0 if mask is None else 0x80), len(payload)
    if size < 126:
        head += bytes([bit | size])
    elif size < 1 << 16:
        head += bytes([bit | 126]) + struct.pack("!H", size)
    else:
        head += bytes([bit | 127]) + struct.pack("!Q", size)
    if mask is None:
        return head + payload
    if mask != b"\0\0\0\0":
        long = (mask * (size // 4 + 1))[:size]
        payload = (int.from_bytes(payload, "big") ^ int.from_bytes(long, "big")).to_bytes(size, "big")
    return head + mask + payload


def masked(payload: bytes, kind: int = TEXT) -> bytes:
    return frame(payload, kind, mask=os.urandom(4))


def request(path: str = "/live", key: bytes | None = None, more: str = "") -> bytes:
    key = key or base64.b64encode(os.urandom(16))
    return (f"GET {path} HTTP/1.1\r\nHost: localhost\r\nUpgrade: websocket\r\nConnection: Upgrade\r\n"
            f"Sec-WebSocket-Version: 13\r\nSec-WebSocket-Key: {key.decode()}\r\n{more}\r\n").encode()


class Ended(Exception):
    """The connection ended, by a close with a code, or without one."""


class Wire:
    """A connection. `lines` are those that were read and not taken yet."""

    def __init__(self, port: int, token: str | None = None, receive: int | None = None, open_it: bool = True):
        self.socket = socket.socket()
        if receive:
            self.socket.setsockopt(socket.SOL_SOCKET, socket.SO_RCVBUF, receive)
        self.socket.settimeout(PATIENCE)
        self.socket.connect(("127.0.0.1", port))
        self.socket.setsockopt(socket.IPPROTO_TCP, socket.TCP_NODELAY, 1)
        self.input, self.words, self.messages = b"", b"", 0
        self.lines: list[str] = []
        self.kinds: list[tuple[int, bytes]] = []
        self.code: int | None = None
        self.role: str | None = None
        self.place = ""  # where names of its holder stood as it came in
        self.shape: list[str] = []
        if open_it:
            self.open()
        if token is not None:
            self.say(token)

    def open(self) -> None:
        key = base64.b64encode(os.urandom(16))
        self.socket.sendall(request(key=key))
        while b"\r\n\r\n" not in self.input:
            self.more()
        head, self.input = self.input.split(b"\r\n\r\n", 1)
        lines = head.split(b"\r\n")
        if lines[0].startswith(b"HTTP/1.1 503"):  # a log lets nobody in
            raise Ended(503)
        assert lines[0] == b"HTTP/1.1 101 Switching Protocols", head
        fields = {name.strip().lower(): value.strip() for name, _, value in (line.partition(b":") for line in lines[1:])}
        assert fields[b"sec-websocket-accept"] == base64.b64encode(hashlib.sha1(key + GUID).digest()), head

    def more(self, seconds: float = PATIENCE) -> None:
        """Waits for bytes. Raises Ended, and TimeoutError."""
        poll = select.poll()
        poll.register(self.socket, select.POLLIN)
        if not poll.poll(seconds * 1000):
            raise TimeoutError(f"nothing came; {self.lines[-3:]}")
        try:
            got = self.socket.recv(1 << 18)
        except ConnectionError:
            got = b""
        if not got:
            raise Ended(self.code)
        self.input += got

    def send(self, data: bytes) -> None:
        self.socket.sendall(data)

    def say(self, message: str | bytes | Line) -> None:
        """A message, in one frame."""
        if isinstance(message, dict):
            message = json.dumps(message, separators=(",", ":"))
        self.send(masked(message.encode() if isinstance(message, str) else message))

    def frames(self) -> list[tuple[int, bytes]]:
        """The whole frames that were read: no server's has a mask, a reserved bit, or is a part."""
        found = []
        while len(self.input) >= 2:
            first, size = self.input[0], self.input[1]
            assert first & 0x70 == 0 and first & 0x80 and size < 128, self.input[:20]
            at = 2
            if size == 126:
                if len(self.input) < 4:
                    break
                size, at = struct.unpack("!H", self.input[2:4])[0], 4
                assert size >= 126
            elif size == 127:
                if len(self.input) < 10:
                    break
                size, at = struct.unpack("!Q", self.input[2:10])[0], 10
                assert size >= 1 << 16
            if len(self.input) < at + size:
                break
            found.append((first & 15, self.input[at:at + size]))
            self.input = self.input[at + size:]
        return found

    def take_in(self) -> None:
        """The lines of the frames that were read."""
        for kind, payload in self.frames():
            assert self.code is None, "a frame behind a close"
            if kind == TEXT:
                assert payload.endswith(b"\n"), payload[-50:]
                self.lines += payload[:-1].decode().split("\n")
                self.messages += 1
            elif kind == CLOSE:
                self.code, self.words = struct.unpack("!H", payload[:2])[0] if payload else 1005, payload[2:]
            else:
                assert kind in (PING, PONG), kind
                self.kinds.append((kind, payload))

    def read(self, seconds: float = PATIENCE) -> None:
        self.more(seconds)
        self.take_in()

    def line(self, seconds: float = PATIENCE) -> str:
        """The next line but for those that say that the gateway is there."""
        end = time.monotonic() + seconds
        self.take_in()
        while True:
            while self.lines:
                line: str = self.lines.pop(0)
                if line != '{"alive":true}':
                    return line
            self.read(max(end - time.monotonic(), 0.001))

    def event(self, seconds: float = PATIENCE) -> list[str]:
        """The lines up to the next `settled`, without it."""
        lines = []
        while (line := self.line(seconds)) != '{"settled":true}':
            lines.append(line)
        return lines

    def ask(self, message: str | Line) -> list[str]:
        self.say(message)
        return self.event()

    def enter(self) -> str:
        """The role that the token opens. Then it is told where names of its holder stand, and an administrator the shape, too."""
        role, place, *self.shape = self.event()
        self.place = str(json.loads(place)["at"])
        assert json.loads(place) == {"at": self.place, "names": 64}, place
        return str(json.loads(role)["role"])

    def end(self, seconds: float = PATIENCE) -> int | None:
        """Reads until the connection ends. The code of the close."""
        end = time.monotonic() + seconds
        try:
            while True:
                self.read(max(end - time.monotonic(), 0.001))
        except Ended:
            return self.code

    def shut(self) -> None:
        self.socket.close()


def in_time(attempt: Callable[[], Any], seconds: float = COMING) -> Any:
    """What an attempt gives. If it gives None after so long that this host may have left it no time, it is made again."""
    end = time.monotonic() + PATIENCE
    while True:
        began = time.monotonic()
        found = attempt()
        now = time.monotonic()
        if found is not None or now < began + 0.8 * seconds or now > end:
            return found


# (proxies of the host are for others: all is on loopback)
DIRECT = urllib.request.build_opener(urllib.request.ProxyHandler({}))


def http(port: int, path: str, token: str | None = None, method: str = "GET", head: dict[str, str] | None = None) -> tuple[int, dict[str, str], bytes]:
    """A plain request."""
    ask = urllib.request.Request(f"http://127.0.0.1:{port}{path}", method=method,
                                 headers={**({"Authorization": f"Bearer {token}"} if token else {}), **(head or {})})
    try:
        with DIRECT.open(ask, timeout=PATIENCE) as answer:
            return answer.status, dict(answer.headers), answer.read()
    except urllib.error.HTTPError as error:
        with error:
            return error.code, dict(error.headers), error.read()


def plain(port: int, data: bytes, seconds: float = PATIENCE) -> bytes:
    """All that is answered to these bytes, until the connection ends."""
    def attempt() -> bytes | None:
        got = b""
        with socket.create_connection(("127.0.0.1", port), seconds) as to, contextlib.suppress(ConnectionError):
            to.sendall(data)
            while more := to.recv(1 << 16):
                got += more
        return got or None
    return in_time(attempt) or b""


def digest(token: str) -> str:
    return hashlib.sha256(token.encode()).hexdigest()


class Gateway:
    """The program, with a journal in a folder of its own. A token is the name of its role and `-demo`."""

    running: list["Gateway"] = []

    def __init__(self, roles: tuple[str, ...] = ("admin", "ann", "bob", "mia"), words: tuple[Any, ...] = (), journal: bytes | None = None, start: bool = True):
        self.place = tempfile.TemporaryDirectory(prefix="gateway.")
        self.folder = pathlib.Path(self.place.name)
        self.journal, self.tokens = self.folder / "journal.jsonl", self.folder / "tokens.toml"
        self.logs: list[pathlib.Path] = []
        self.know(*roles)
        if journal is not None:
            self.journal.write_bytes(journal)
        self.port, self.words, self.env = free_port(), words, dict[str, str]()
        self.started: subprocess.Popen[bytes] | None = None
        self.running.append(self)
        if start:
            self.start()

    @property
    def process(self) -> subprocess.Popen[bytes]:
        """Of one that was started."""
        assert self.started, "it was not started"
        return self.started

    def know(self, *roles: str, lines: tuple[str, ...] = ()) -> None:
        """The tokens of these roles are known from now on, and those of these lines."""
        self.put_tokens("\n".join(["[tokens]", *(f'"{digest(role + "-demo")}" = "{role}"' for role in roles), *lines, ""]))

    def put_tokens(self, text: str) -> None:
        """A file of this text stands in the place of the tokens, never a part of it."""
        fresh = self.folder / "tokens.new"
        fresh.write_text(text)
        fresh.rename(self.tokens)

    def command(self) -> list[Any]:
        return [PROGRAM, "--journal", self.journal, "--tokens", self.tokens, "--port", str(self.port), *self.words]

    def launch(self, most: int | None = None, memory: int | None = None, files: int | None = None) -> subprocess.Popen[bytes]:
        """Starts it. It makes no file longer than so many bytes, has no more memory than so many, and no more files open than so many."""
        def limit() -> None:
            signal.signal(signal.SIGXFSZ, signal.SIG_IGN)
            for kind, size in ((resource.RLIMIT_FSIZE, most), (resource.RLIMIT_AS, memory), (resource.RLIMIT_NOFILE, files)):
                if size is not None:
                    resource.setrlimit(kind, (size, size))
        with (path := self.folder / f"log.{len(self.logs)}").open("wb") as log:
            self.logs.append(path)
            self.started = subprocess.Popen(self.command(), stdin=subprocess.DEVNULL, stderr=log, env={**os.environ, **self.env},
                                            preexec_fn=None if most is memory is files is None else limit)
        return self.process

    def start(self, most: int | None = None, memory: int | None = None) -> None:
        """Starts it, and waits until it listens."""
        self.launch(most, memory)
        end = time.monotonic() + PATIENCE
        while True:
            assert self.process.poll() is None, self.said()
            try:
                socket.create_connection(("127.0.0.1", self.port), 1).close()
                return
            except OSError:
                assert time.monotonic() < end, "it does not listen"
                time.sleep(0.02)

    def kill(self, by: int = signal.SIGKILL) -> int:
        self.process.send_signal(by)
        return self.process.wait(PATIENCE)

    def knock(self, token: str, receive: int | None = None) -> Wire:
        """A connection that has presented a token: its `role` if it was let in, and else the code with which it was turned away."""
        def attempt() -> Wire | None:
            wire: Wire | None = None
            try:
                wire = Wire(self.port, token, receive)
                wire.role = wire.enter()
            except (Ended, ConnectionError):
                if wire is None or wire.code is None:
                    return None
            return wire
        wire: Wire | None = in_time(attempt)
        if wire is None:
            raise Ended(None)
        return wire

    def enter(self, role: str, receive: int | None = None) -> Wire:
        """A client of the role."""
        wire = self.knock(f"{role}-demo", receive)
        if wire.role is None:
            raise Ended(wire.code)
        assert wire.role == role
        return wire

    def texts(self) -> list[bytes]:
        """What the lines of the journal say behind its head, in their order."""
        return [line[75:] for line in self.journal.read_bytes().split(b"\n")[1:-1]]

    def noted(self) -> list[Line]:
        """The requests of the journal with their notes: `at`, and `by`, the holder of the token."""
        return [json.loads(b"{" + text) for text in self.texts() if not text.startswith((b'"once":', b'"holder":'))]

    def entries(self) -> list[Line]:
        return [{key: it for key, it in entry.items() if key not in ("at", "by")} for entry in self.noted()]

    def names(self) -> list[Line]:
        """The names of the journal, with their answers."""
        return [json.loads(b"{" + text) for text in self.texts() if text.startswith(b'"once":')]

    def epoch(self) -> str:
        """That of the journal."""
        return str(json.loads(self.journal.read_bytes().split(b"\n")[0])["epoch"])

    def lines(self) -> bytes:
        """The journal's requests as they were before they had digests and notes."""
        return b"".join(b'{"as":' + text.partition(b'"as":')[2] + b"\n" for text in self.texts() if not text.startswith((b'"once":', b'"holder":')))

    def said(self) -> str:
        """All that it has written on standard error, since it was first started."""
        return "".join(it.read_text() for it in self.logs)

    def memory(self) -> int:
        """Bytes of the process."""
        return int(pathlib.Path(f"/proc/{self.process.pid}/statm").read_text().split()[1]) * os.sysconf("SC_PAGE_SIZE")

    def most_memory(self) -> int:
        """Bytes of the process when they were most."""
        found = re.findall(r"(?m)^VmHWM:\s+(\d+) kB$", pathlib.Path(f"/proc/{self.process.pid}/status").read_text())
        return int(found[0]) * 1024

    def processor(self) -> float:
        """Seconds of processor that the process, which has one thread, has taken."""
        return int(pathlib.Path(f"/proc/{self.process.pid}/schedstat").read_text().split()[0]) / 1e9

    def end(self) -> None:
        self.running.remove(self)
        if self.started and self.started.poll() is None:
            self.kill()
        self.place.cleanup()
