"""Talks to `viewd serve` as clients on loopback do, and compares what they are sent byte for byte.

The conversations are two connections, a dialogue, clients that leave in the middle of a line, without a byte, with answers unread or before they
are served, lines without an end, so many lines of each connection, a row limit, and a program that may open no file more. Another address of the
host, 127.0.0.2, is refused. After them come the exit statuses and the words on standard error. VIEWD names another program to run. With the
library of .ci/refuse as its word, it has each request for memory of a short conversation refused in turn instead, and then each option of a
connection.
"""
import contextlib
import errno
import os
import random
import resource
import signal
import socket
import struct
import subprocess
import sys
import threading
from collections.abc import Callable
from typing import Any, NoReturn

from viewd_ci import common
from viewd_ci.common import TOP, Comparison

PROGRAM = os.environ.get("VIEWD", common.PROGRAM)
# of a conversation on a slow host: only one that hangs comes to it
SECONDS = 600
compared = Comparison("socket")
expect, failures = compared.expect, compared.failures
running: list[subprocess.Popen[bytes]] = []
held: dict[int, socket.socket] = {}


def contents(name: str) -> bytes:
    with open(os.path.join(TOP, "examples", name), "rb") as file:
        return file.read()


def tell_and_exit() -> NoReturn:
    for it in running:
        it.kill()
    sys.exit(compared.tell())


FIRST = contents("first_change.jsonl")
FIRST_ANSWERS = contents("first_change.answers.jsonl")
READER = b'{"do":"begin","role":"ann","session":2}\n{"do":"subscribe","on":"notes","session":2}\n'
BEGIN = b'{"do":"begin","role":"admin","session":1}\n'
OK = b'{"ok":true,"session":1}\n'
# what standard error has of a network fault, at its end
ANOTHER_PORT = "Does another program listen there? --port takes another one."
MORE_FILES = "May it open more files? ulimit -n tells how many."


def reader_answers(number: int) -> bytes:
    """What the reader is sent, whose subscription has the number."""
    return b'{"ok":true,"session":2}\n{"ok":true,"session":2,"sub":%d}\n{"changes":[[1,[1,"ann"]]],"session":2,"sub":%d}\n' % (number, number)


def free_port() -> int:
    """A port on which nobody listens. Tests beside this one take none whose name is held, and the system gives clients none below `low`."""
    with open("/proc/sys/net/ipv4/ip_local_port_range", encoding="utf-8") as file:
        low = int(file.read().split()[0])
    while True:
        port = random.randrange(10_000, low if low > 12_000 else 60_000)
        name = socket.socket(socket.AF_UNIX)
        with contextlib.suppress(OSError), socket.socket() as probe:
            name.bind(f"\0viewd test {port}")
            probe.bind(("127.0.0.1", port))
            held[port] = name
            return port
        name.close()


def started(*words: str, **more: Any) -> tuple[subprocess.Popen[bytes], int, bytes, threading.Timer]:
    """A program that serves, its port, its first line, and what ends it if it hangs. If somebody takes the port meanwhile, it gets another one."""
    left = 5
    while True:
        port, left = free_port(), left - 1
        child = subprocess.Popen([PROGRAM, "serve", "--port", str(port), *words], stdout=subprocess.PIPE, stderr=subprocess.PIPE, **more)
        running.append(child)
        late = threading.Timer(SECONDS, child.kill)
        late.daemon = True
        late.start()
        line = child.stdout.readline() if child.stdout else b""
        if line or not left or child.wait() != 2:
            return child, port, line, late
        late.cancel()


def say(client: socket.socket, requests: bytes) -> None:
    """Sends all, and says that no more comes. A server that hangs up meanwhile is judged by what it has sent."""
    with contextlib.suppress(OSError):
        client.sendall(requests)
        client.shutdown(socket.SHUT_WR)


class Serving:
    """The program as it serves on a port of its own."""

    def __init__(self, what: str, *words: str, **more: Any) -> None:
        compared.runs += 1
        self.what = what
        self.running, self.port, line, self.late = started(*words, **more)
        expect(f"{what}: the first line", b"listening on 127.0.0.1:%d\n" % self.port, line)

    def connect(self) -> socket.socket:
        return socket.create_connection(("127.0.0.1", self.port), timeout=SECONDS)

    def ends(self, status: int = 0, said: bytes = b"") -> None:
        written, told = self.running.communicate()
        self.late.cancel()
        if self.running.returncode == -signal.SIGKILL:
            failures.append(f"{self.what}: it did not end in {SECONDS} seconds; those behind it did not run")
            tell_and_exit()
        expect(f"{self.what}: the end", (status, b"", said), (self.running.returncode, written, told))


def received(client: socket.socket) -> bytes:
    """All that the client is sent until the server hangs up."""
    parts = []
    try:
        while part := client.recv(65536):
            parts.append(part)
    except ConnectionResetError:
        pass  # the server closed with bytes of the client unread
    return b"".join(parts)


def ask(serving: Serving, requests: bytes) -> bytes:
    with serving.connect() as client:
        say(client, requests)
        return received(client)


def two_connections() -> None:
    serving = Serving("two connections", "--connections", "2")
    expect("the first connection", FIRST_ANSWERS, ask(serving, FIRST))
    expect("the second connection", reader_answers(2), ask(serving, READER))
    serving.ends()
    try:
        serving.connect().close()
        failures.append("a connection was taken behind the last one")
    except ConnectionRefusedError:
        pass


def dialogue() -> None:
    """Each request is sent when the answers to the one before have come; the next client waits meanwhile."""
    serving = Serving("a dialogue", "--connections", "2")
    answers = FIRST_ANSWERS.splitlines(keepends=True)
    with serving.connect() as client, serving.connect() as waits:
        say(waits, READER)
        with client.makefile("rb") as lines:
            for place, request in enumerate(FIRST.splitlines(keepends=True)):
                for byte in request:
                    client.sendall(bytes([byte]))
                for wanted in answers[place : place + 1 if place < 6 else 8]:
                    expect(f"the answer to line {place + 1} of a dialogue", wanted, lines.readline())
            client.shutdown(socket.SHUT_WR)
            expect("the end of a dialogue", b"", lines.read())
        expect("the client that waited", reader_answers(2), received(waits))
    serving.ends()


def leave(serving: Serving, requests: bytes, at_once: bool) -> None:
    """Connects, sends what it can and leaves without reading, at once with a reset of the connection."""
    with serving.connect() as client:
        client.settimeout(2)
        with contextlib.suppress(TimeoutError):  # the server waits for room for its answers, and reads no more
            client.sendall(requests)
        if at_once:
            client.setsockopt(socket.SOL_SOCKET, socket.SO_LINGER, struct.pack("ii", 1, 0))


def clients_that_leave() -> None:
    serving = Serving("clients that leave", "--connections", "10")
    expect("before clients leave", FIRST_ANSWERS, ask(serving, FIRST))
    number = 2
    # in the middle of a line, without a byte, and with megabytes of answers unread
    for requests in (BEGIN + b'{"do":"begin","ro', b"", BEGIN * 150_000, BEGIN[:9]):
        leave(serving, requests, at_once=number % 2 == 0)
        expect(f"behind a client that leaves after {len(requests)} bytes", reader_answers(number), ask(serving, READER))
        number += 1
    expect("tables and roles behind them", [b'{"error":6,"session":1}'] * 2, ask(serving, FIRST).splitlines()[1:3])
    serving.ends()


def reset_while_it_waits() -> None:
    """A client that leaves with a reset before it has sent a byte, and before its connection is accepted, ends alone."""
    serving = Serving("a client that goes before it is served", "--connections", "3")
    with serving.connect() as served:
        leave(serving, b"", at_once=True)
        say(served, FIRST)
        expect("the client that is served meanwhile", FIRST_ANSWERS, received(served))
    expect("the client behind it", reader_answers(2), ask(serving, READER))
    serving.ends()


def endless_lines() -> None:
    serving = Serving("lines without an end", "--connections", "3")
    expect("65,537 bytes", b'{"error":22}\n', ask(serving, b"x" * 65537))
    with serving.connect() as client:
        with contextlib.suppress(ConnectionError):  # the server hangs up in the middle of it
            client.sendall(BEGIN + b"x" * 65537 + b"\n" + BEGIN)
        expect("an endless line among others", OK + b'{"error":22}\n', received(client))
    expect("the next client", OK, ask(serving, BEGIN))
    serving.ends()


def lines_of_each() -> None:
    serving = Serving("two lines of each connection", "--connections", "2", "--lines", "2")
    expect("two lines", b"".join(FIRST_ANSWERS.splitlines(keepends=True)[:2]), ask(serving, FIRST))
    expect("two lines again", OK + b'{"error":6,"session":1}\n', ask(serving, FIRST))
    serving.ends()


def row_limit() -> None:
    """The rows of a table are as many as `--rows` says."""
    serving = Serving("a row limit", "--connections=1", "--rows=1024", "--lines=4294967295")
    expect("a row limit", contents("cap_in_a_table.answers.jsonl"), ask(serving, contents("cap_in_a_table.jsonl")))
    serving.ends()


def no_file_more() -> None:
    """If no connection can be accepted, since the program may open no file more, the network fails."""
    serving = Serving("no file more", preexec_fn=lambda: resource.setrlimit(resource.RLIMIT_NOFILE, (4, 4)))
    told = f"viewd: network failed\nviewd: could not accept a connection on 127.0.0.1:{serving.port}. {MORE_FILES}\n"
    serving.ends(2, told.encode())


def other_addresses() -> None:
    """The server listens on 127.0.0.1 alone. Linux answers on all of 127.0.0.0/8, so 127.0.0.2 is another address of the host."""
    serving = Serving("another address", "--connections", "1")
    try:
        socket.create_connection(("127.0.0.2", serving.port), timeout=SECONDS).close()
        failures.append("a connection to another address of the host was taken")
    except ConnectionRefusedError:
        pass
    expect("the address that is told", OK, ask(serving, BEGIN))
    serving.ends()


def run(words: list[str], **ends: Any) -> tuple[int, bytes, bytes]:
    """The status, standard output and standard error of a run of the program."""
    compared.runs += 1
    done = subprocess.run([PROGRAM, *words], stderr=subprocess.PIPE, timeout=SECONDS, **ends)
    return done.returncode, done.stdout, done.stderr


def statuses() -> None:
    with socket.create_server(("127.0.0.1", 0)) as taken:
        port = taken.getsockname()[1]
        cause = f"{os.strerror(errno.EADDRINUSE)} (os error {errno.EADDRINUSE})"
        told_why = f"viewd: network failed\nviewd: could not listen on 127.0.0.1:{port}: {cause}. {ANOTHER_PORT}\n"
        expect("a port in use", (2, b"", told_why.encode()), run(["serve", "--port", str(port)], stdout=subprocess.PIPE))
    with open("/dev/full", "wb") as full:
        words = ["serve", "--port", str(free_port())]
        expect("full standard output", (2, None, b"viewd: write failed\n"), run(words, stdout=full))
        # the first port and the last are accepted as words: they are taken, or not allowed, or the line that tells them is not written
        for words in (["serve", "--port", "1"], ["serve", "--port=65535"]):
            status, _, told = run(words, stdout=full)
            is_told = told == b"viewd: write failed\n" or told.startswith(b"viewd: network failed\nviewd: could not listen on 127.0.0.1:")
            expect(f"{words}", (2, True), (status, is_told))
    cases: list[tuple[list[str], bytes]] = [
        ([], b"--port"),
        (["--port"], b"--port"),
        (["--port", "0"], b"invalid value '0'"),
        (["--port", "65536"], b"invalid value '65536'"),
        (["--port", "http"], b"invalid value 'http'"),
        (["--port", "-1"], b"-1"),
        (["--port", "8080", "--connections", "0"], b"invalid value '0'"),
        (["--port", "8080", "--connections", "4294967296"], b"invalid value '4294967296'"),
        (["--port", "8080", "--lines", "0"], b"invalid value '0'"),
        (["--port", "8080", "--lines", "4294967296"], b"invalid value '4294967296'"),
        (["--port", "8080", "more"], b"'more'"),
    ]
    for words, said in cases:
        status, written, told = run(["serve", *words], stdout=subprocess.PIPE)
        expect(f"the words {words}", (1, b"", True), (status, written, said in told))
    status, written, told = run(["serve", "--help"], stdout=subprocess.PIPE)
    expect("serve --help", (0, True, b""), (status, b"--connections" in written, told))


def refusing(library: str, number: int, told: int) -> tuple[int, bytes, bytes]:
    """The status, what the client was sent, and standard error if that request for memory is refused."""
    refuses = {**os.environ, "LD_PRELOAD": library, "REFUSE": str(number), "REFUSE_TELL": str(told)}
    child, port, line, late = started("--connections", "1", env=refuses, pass_fds=[told])
    sent = b""
    with contextlib.suppress(ConnectionError):  # it may have ended before it is asked
        if line:
            with socket.create_connection(("127.0.0.1", port), timeout=SECONDS) as client:
                say(client, FIRST)
                sent = received(client)
    _, said = child.communicate()
    late.cancel()
    running.remove(child)
    held.pop(port).close()
    return child.returncode, sent, said


def refused_memory(library: str) -> None:
    """Status 1 while the words are read, and 3 from then on, with the answers to the first so many requests."""
    answers = FIRST_ANSWERS.splitlines(keepends=True)
    whole = [b"".join(answers[:n]) for n in (0, 1, 2, 3, 4, 5, 6)]
    told, telling = os.pipe()
    os.set_blocking(told, False)
    expect("a conversation where nothing is refused", (0, FIRST_ANSWERS, b""), refusing(library, 0, telling))
    count = int(os.read(told, 100))
    begun = False
    for number in range(1, count + 1):
        compared.runs += 1
        status, sent, said = refusing(library, number, telling)
        if status == 3:
            begun = True
            expect(f"request {number} of {count} refused", (True, b"viewd: out of memory\n"), (sent in whole, said))
        elif begun or status not in (0, 1):
            failures.append(f"request {number} of {count} refused: status {status}, {said!r:.200}")
    expect("requests refused behind the words", True, begun)


def refused_options(library: str) -> None:
    """If no option of its connections can be set, the server answers all the same."""
    told, telling = os.pipe()
    os.set_blocking(told, False)
    refuses = {**os.environ, "LD_PRELOAD": library, "REFUSE_OPTIONS": "1", "REFUSE_TELL": str(telling)}
    serving = Serving("options refused", "--connections", "2", env=refuses, pass_fds=[telling])
    expect("the first connection without options", FIRST_ANSWERS, ask(serving, FIRST))
    expect("the second connection without options", reader_answers(2), ask(serving, READER))
    serving.ends()
    expect("options refused", b"2\n", os.read(told, 100))


CONVERSATIONS = [two_connections, dialogue, clients_that_leave, reset_while_it_waits, endless_lines, lines_of_each, row_limit, no_file_more]
CONVERSATIONS += [other_addresses, statuses]


def main(words: list[str]) -> int:
    signal.signal(signal.SIGPIPE, signal.SIG_IGN)
    conversations: list[Callable[[], None]] = [*CONVERSATIONS]
    if words:
        conversations = [lambda: refused_memory(words[0]), lambda: refused_options(words[0])]
    for conversation in conversations:
        try:
            conversation()
        except OSError as error:
            failures.append(f"{conversation.__name__}: {error}")
    tell_and_exit()
