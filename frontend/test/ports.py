"""Ports for the tests."""
import contextlib
import pathlib
import random
import socket

PORTS: list[socket.socket] = []  # names of the ports that this process holds


def free_port() -> int:
    """A port on which nobody listens. Tests beside this one take none whose name is held, and the system gives clients none below `low`."""
    low = int(pathlib.Path("/proc/sys/net/ipv4/ip_local_port_range").read_text().split()[0])
    while True:
        port, name = random.randrange(10_000, low if low > 12_000 else 60_000), socket.socket(socket.AF_UNIX)
        with contextlib.suppress(OSError), socket.socket() as probe:
            name.bind(f"\0viewd test {port}")
            probe.bind(("127.0.0.1", port))
            PORTS.append(name)
            return port
        name.close()
