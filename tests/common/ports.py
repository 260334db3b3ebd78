"""Ports of loopback for the servers of the tests."""

import contextlib
import random
import socket

# Below those that the system gives to clients: a client might have a port while its server is away.
PORTS = range(20_000, 30_000)
HELD: list[socket.socket] = []


def free_ports(count: int) -> list[int]:
    """Ports that nobody has now, all different. They are this process's as long as it lives: no
    other test that asks here is given them, even while no server listens."""
    found: list[int] = []
    while len(found) < count:
        port = random.choice(PORTS)
        sign = socket.socket(socket.AF_UNIX)
        with contextlib.suppress(OSError):
            sign.bind(f"\0steelnewt-port-{port}")
            with socket.create_server(("127.0.0.1", port)):
                HELD.append(sign)
                found.append(port)
                continue
        sign.close()
    return found


def free_port() -> int:
    return free_ports(1)[0]
