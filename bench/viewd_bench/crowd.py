"""Clients of a gateway for bench/gateway: raw WebSockets, readers by the thousand in processes of their own, and one who writes."""
import base64
import collections
import contextlib
import multiprocessing
import os
import re
import resource
import secrets
import select
import socket
import struct
import time
from multiprocessing.connection import Connection

CAME = re.compile(rb"\[1,\[(\d+),")
PLACE = re.compile(rb'"at":"([0-9a-f]{32}\.\d+)"')
UNDER_WAY = 64  # tokens, and then subscriptions, of a process that are not answered yet
QUIET = 10.0  # seconds without a row, after which those that are missing are lost
WINDOW = 32  # writes without a reply
FILES = 2000  # that a process has beside its clients


def more_files(count: int) -> None:
    """The process may have so many files open, or it ends with words."""
    most = resource.getrlimit(resource.RLIMIT_NOFILE)[1]
    if most != resource.RLIM_INFINITY and most < count + FILES:
        raise SystemExit(f"bench: {count} clients are files, and a process has {most} here (ulimit -n)")
    resource.setrlimit(resource.RLIMIT_NOFILE, (count + FILES, most))


def frame(text: bytes) -> bytes:
    """A text in a frame with a mask of zeros (RFC 6455, 5.2)."""
    size = len(text)
    head = bytes([0x81, 0x80 | size]) if size < 126 else struct.pack("!BBH", 0x81, 0xFE, size)
    return head + bytes(4) + text


def begin(port: int, token: str) -> socket.socket:
    """A client that presents its token."""
    it = socket.create_connection(("127.0.0.1", port), 60)
    it.setsockopt(socket.IPPROTO_TCP, socket.TCP_NODELAY, 1)
    key = base64.b64encode(os.urandom(16)).decode()
    it.sendall(f"GET /live HTTP/1.1\r\nHost: localhost\r\nUpgrade: websocket\r\nConnection: Upgrade\r\nSec-WebSocket-Version: 13\r\n"
               f"Sec-WebSocket-Key: {key}\r\n\r\n".encode() + frame(token.encode()))
    return it


def greeted(it: socket.socket) -> bytes:
    """What it is told once it was let in."""
    got = b""
    while b'{"settled":true}' not in got:
        more = it.recv(1 << 16)
        if not more:
            raise SystemExit(f"bench: a client was not let in: {got!r}")
        got += more
    return got


def came(it: socket.socket) -> socket.socket:
    """Waits until it was let in, and told so."""
    greeted(it)
    return it


class Told:
    """What readers of a process were told of writes, by the numbers of their rows: when last, and how often. A write brings a row, in a line
    of its own unless it is in a step with others."""

    def __init__(self) -> None:
        self.last: dict[bytes, float] = {}
        self.count: collections.Counter[bytes] = collections.Counter()
        self.rows = 0

    def hear(self, data: bytes, now: float) -> None:
        numbers = CAME.findall(data)
        self.rows += len(numbers)
        self.count.update(numbers)
        self.last.update(dict.fromkeys(numbers, now))

    def add(self, other: "Told") -> None:
        self.rows += other.rows
        self.count.update(other.count)
        for number, at in other.last.items():
            self.last[number] = max(self.last.get(number, 0.0), at)


class Readers:
    """The readers of a process."""

    def __init__(self, port: int, tokens: list[str], pipe: Connection) -> None:
        self.sockets: dict[int, socket.socket] = {}
        for at in range(0, len(tokens), UNDER_WAY):
            some = [begin(port, token) for token in tokens[at:at + UNDER_WAY]]
            self.sockets.update({it.fileno(): came(it) for it in some})
        self.pipe, self.poll, self.tails = pipe, select.epoll(), dict[int, bytes]()
        for number, it in self.sockets.items():
            it.setblocking(False)
            self.poll.register(number, select.EPOLLIN)

    def subscribe(self) -> list[float]:
        """All subscribe, some at a time. Seconds until each had the contents."""
        todo, began, seen, took = list(self.sockets), dict[int, float](), collections.Counter[int](), list[float]()
        while todo or began:
            while todo and len(began) < UNDER_WAY:
                began[number := todo.pop()] = time.monotonic()
                self.sockets[number].send(frame(b'{"do":"subscribe","on":"tickets"}'))
            for number, _ in self.poll.poll(1.0):
                seen[number] += self.sockets[number].recv(1 << 18).count(b'"sub":1}')
                if seen[number] >= 2 and number in began:  # the reply, and the contents
                    took.append(time.monotonic() - began.pop(number))
        return took

    def read(self, number: int) -> bytes:
        """Whole lines that came to one of them."""
        with contextlib.suppress(BlockingIOError):
            data = self.sockets[number].recv(1 << 16)
            if not data:
                raise SystemExit("bench: a reader was dropped")
            if number in self.tails:
                data = self.tails.pop(number) + data
            cut = data.rfind(b"}") + 1
            if len(data) - cut > 1:
                self.tails[number] = data[cut:]
            return data[:cut]
        return b""

    def listen(self) -> Told:
        """Hears until as many rows have come as the pipe says, or none comes any more."""
        told, wanted, heard = Told(), -1, time.monotonic()
        self.poll.register(self.pipe.fileno(), select.EPOLLIN)
        while told.rows != wanted:
            numbers = [number for number, _ in self.poll.poll(0.5, 512)]
            if self.pipe.fileno() in numbers:
                wanted, heard = self.pipe.recv(), time.monotonic()
                self.poll.unregister(self.pipe.fileno())
            data = b"".join(self.read(it) for it in numbers if it in self.sockets)
            now = time.monotonic()
            if data:
                told.hear(data, now)
                heard = now
            elif wanted >= 0 and now > heard + QUIET:
                break
        return told


def process(port: int, tokens: list[str], pipe: Connection) -> None:
    """A process of readers: they come in, subscribe, and then hear what is written, until there is nothing more to hear."""
    more_files(len(tokens))
    readers = Readers(port, tokens, pipe)
    pipe.send(None)
    pipe.recv()
    pipe.send(readers.subscribe())
    while pipe.recv():
        pipe.send(readers.listen())


class Crowd:
    """Readers with these tokens, in so many processes."""

    def __init__(self, port: int, tokens: list[str], processes: int) -> None:
        self.size, self.pipes, self.sizes = len(tokens), list[Connection](), list[int]()
        self.processes: list[multiprocessing.Process] = []
        for number in range(min(processes, len(tokens))):
            ours, theirs = multiprocessing.Pipe()
            part = tokens[number::processes]
            self.processes.append(multiprocessing.Process(target=process, args=(port, part, theirs), daemon=True))
            self.processes[-1].start()
            theirs.close()
            self.pipes.append(ours)
            self.sizes.append(len(part))
        self.answers()

    def answers(self) -> list[object]:
        try:
            return [it.recv() for it in self.pipes]
        except EOFError:
            raise SystemExit("bench: readers have ended") from None

    def tell(self, *words: object) -> None:
        for it, word in zip(self.pipes, words * len(self.pipes) if len(words) == 1 else words):
            it.send(word)

    def subscribe(self) -> list[float]:
        self.tell(None)
        return [seconds for some in self.answers() if isinstance(some, list) for seconds in some]

    def begin(self) -> None:
        """They hear from now on."""
        self.tell(True)

    def told(self, writes: int) -> Told:
        """What all were told of so many writes."""
        self.tell(*(writes * it for it in self.sizes))
        told = Told()
        for it in self.answers():
            if isinstance(it, Told):
                told.add(it)
        return told

    def end(self) -> None:
        for it in self.processes:
            it.kill()
            it.join()


class Writer:
    """Who writes, by names if that is asked for. The numbers of its rows rise; so many rows are there at a time."""

    def __init__(self, port: int, token: str, kept: int, is_named: bool = False) -> None:
        self.socket, self.kept, self.next, self.rest, self.is_named, self.place = begin(port, token), kept, 1_000_000, b"", is_named, b""
        self.learn(greeted(self.socket))

    def learn(self, told: bytes) -> None:
        """Where its names stand by now."""
        if found := PLACE.findall(told):
            self.place = found[-1]

    def framed(self, request: bytes) -> bytes:
        if not self.is_named:
            return frame(request)
        return frame(b'{"once":"%s","at":"%s",%s' % (secrets.token_urlsafe(16).encode(), self.place, request[1:]))

    def ask(self, *requests: bytes) -> None:
        """Requests that have to be accepted, one after another."""
        for it in requests:
            self.socket.sendall(self.framed(it))
            while not self.replies(60.0):
                pass

    def replies(self, seconds: float) -> int:
        """How many replies come within so many seconds."""
        if not select.select([self.socket], [], [], seconds)[0]:
            return 0
        data = self.rest + self.socket.recv(1 << 16)
        cut = data.rfind(b"}") + 1
        data, self.rest = data[:cut], data[cut:]
        if b'"error"' in data or b'"undecided"' in data or not cut and not self.rest:
            raise SystemExit(f"bench: a request was refused: {data!r}")
        self.learn(data)
        return data.count(b'"ok":true')

    @staticmethod
    def entry(do: str, number: int) -> bytes:
        return b'{"on":"tickets","%s":[%d,"bob","The quick brown fox",true]}' % (do.encode(), number)

    def fill(self) -> None:
        """The rows that are there before the first write."""
        for at in range(self.next - self.kept, self.next, 100):
            entries = b",".join(self.entry("insert", at + it) for it in range(100))
            self.ask(b'{"do":"write","entries":[%s]}' % entries)

    def write(self, rate: float, seconds: float) -> tuple[dict[bytes, float], dict[bytes, float], float]:
        """Writes so many a second, or as fast as replies come (0). When each was due, when it was answered, and how long all took."""
        due, replied, waiting = dict[bytes, float](), dict[bytes, float](), collections.deque[bytes]()
        start = time.monotonic()
        while (now := time.monotonic()) < start + seconds or waiting:
            if now > start + seconds + 120:
                raise SystemExit("bench: replies do not come")
            texts = []
            while now < start + seconds and len(waiting) < WINDOW and (not rate or len(due) <= (now - start) * rate):
                number = b"%d" % self.next
                due[number] = start + len(due) / rate if rate else now
                waiting.append(number)
                texts.append(self.framed(b'{"do":"write","entries":[%s,%s]}' % (self.entry("insert", self.next), self.entry("delete", self.next - self.kept))))
                self.next += 1
            self.socket.sendall(b"".join(texts))
            is_full = not rate or len(waiting) == WINDOW or now >= start + seconds
            count = self.replies(0.2 if is_full else max(0.0, min(0.2, start + len(due) / rate - time.monotonic())))
            now = time.monotonic()
            for _ in range(count):
                replied[waiting.popleft()] = now
        return due, replied, time.monotonic() - start
