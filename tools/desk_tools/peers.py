"""Which host sent an event to a log server: the host that it names has to have the address that it
came from, or root on one host could speak for another.

Which address a host has says a file in the form of hosts(5), or else this machine's name service.
"""

from __future__ import annotations

import ipaddress
import socket


class BadPeers(Exception):
    """Why a file of hosts cannot be taken."""


def same(address: str) -> str:
    """One text for each address: IPv4 may come in the form of IPv6."""
    found = ipaddress.ip_address(address.partition("%")[0])
    mapped = found.ipv4_mapped if isinstance(found, ipaddress.IPv6Address) else None
    return str(mapped or found)


class Peers:
    """The addresses of hosts."""

    def __init__(self, path: str = "") -> None:
        self.named = read(path) if path else None
        self.known: dict[str, set[str]] = {}

    def are(self, host: str, address: str) -> bool:
        """Whether a host has an address."""
        if host not in self.known:
            self.known[host] = self.of(host)
        try:
            return same(address) in self.known[host]
        except ValueError:
            return False

    def of(self, host: str) -> set[str]:
        if self.named is not None:
            return self.named.get(host, set())
        try:
            return {same(str(it[4][0])) for it in socket.getaddrinfo(host, None)}
        except (OSError, UnicodeError, ValueError):
            return set()


def read(path: str) -> dict[str, set[str]]:
    """The addresses of each host of a file: an address and its names on each line."""
    found: dict[str, set[str]] = {}
    with open(path, encoding="utf-8", errors="surrogateescape") as file:
        for number, line in enumerate(file, 1):
            address, *names = line.partition("#")[0].split() or [""]
            if not address:
                continue
            try:
                known = same(address)
            except ValueError:
                raise BadPeers(f"{path}:{number}: {address} is no address") from None
            for name in names:
                found.setdefault(name.partition(".")[0].lower(), set()).add(known)
    return found
