"""What the machine knows of users and groups, and what a list of hosts says of names and addresses,
by the rules by which sudo compares them.

Each look-up gives two sets: `sure`, for rules that allow, and `perhaps`, for rules that deny.
"""

import ctypes
import ipaddress
import os
import re
import subprocess
from collections.abc import Callable
from dataclasses import dataclass, field
from typing import NamedTuple

from desk_tools.cvtsudoers import BadSudoers
from desk_tools.site import LINKED

# getent: it answers, and it knows none of that name
ANSWERS, KNOWS_NONE = 0, 2
# what a wildcard of sudo means here, too
WILDCARD = re.compile(r"(?:[A-Za-z0-9.*?_-]|\[[A-Za-z0-9.!^_-]+\])+")
NETWORK = re.compile(r"([0-9A-Fa-f.:]+)(?:/([0-9]{1,3}|[0-9]+(?:\.[0-9]+){3}))?")

TRIPLE = re.compile(r"\(([^,()]*),([^,()]*),([^,()]*)\)")
NSSWITCH = "/etc/nsswitch.conf"
# what a name service switch says of who is who
WHO = ("passwd", "group", "initgroups")
LIBC = ctypes.CDLL(None)
NO_CASE = 16  # FNM_CASEFOLD

Address = ipaddress.IPv4Address | ipaddress.IPv6Address


class Triple(NamedTuple):
    """A row of a netgroup."""

    host: str
    user: str
    domain: str


def run_getent(*words: str) -> "subprocess.CompletedProcess[str]":
    try:
        ran = subprocess.run(["getent", *words], capture_output=True, text=True, check=False)
    except FileNotFoundError:
        raise BadSudoers("it needs the program getent (Debian's package libc-bin)") from None
    if ran.returncode not in (ANSWERS, KNOWS_NONE):
        raise BadSudoers(f"getent {words[0]} fails: {ran.stderr.strip() or ran.returncode}")
    return ran


def getent(database: str, *keys: str) -> list[list[str]]:
    """The rows of a database of the machine, for a key or all. No key is taken for an option."""
    ran = run_getent(database, *(["--", *keys] if keys else []))
    rows = [line.split(":") for line in ran.stdout.splitlines()]
    return [row for row in rows if len(row) > 3]


class Machine:
    """The users, groups and netgroups of this machine, by getent."""

    nsswitch = NSSWITCH

    def __init__(self) -> None:
        self.databases: dict[str, list[list[str]]] = {}

    def rows(self, database: str) -> list[list[str]]:
        if database not in self.databases:
            self.databases[database] = self.asked(database)
        return self.databases[database]

    def asked(self, database: str, *keys: str) -> list[list[str]]:
        return getent(database, *keys)

    def lists_all(self) -> bool:
        """Whether everybody is listed: a directory may know people whom it does not list."""
        return is_files_alone(self.nsswitch)

    def group_rows(self, name: str | None, number: str | None) -> list[list[str]]:
        """The groups that sudo takes for one of this name or number: by the number it finds all
        members of groups that share it, and it compares names without case. (getent takes digits
        for a number, whatever was meant.)"""
        found = [
            row
            for row in [*self.asked("group", name or number or ""), *self.rows("group")]
            if row[2] == number or (name is not None and row[0].lower() == name.lower())
        ]
        numbers = {row[2] for row in found}
        found += [row for row in self.rows("group") if row[2] in numbers]
        return [row for place, row in enumerate(found) if row not in found[:place]]

    def members(self, name: str | None, number: str | None) -> list[str] | None:
        """Whoever is listed in a group; None where there is none, or where sudo takes the members
        of two for its own."""
        rows = self.group_rows(name, number)
        if not rows or len({row[0] for row in rows}) > 1:
            return None
        named = [user for row in rows for user in row[3].split(",") if user]
        first = [row[0] for row in self.rows("passwd") if row[3] == rows[0][2]]
        return list(dict.fromkeys([*first, *named]))

    def users(self, number: str) -> list[str]:
        """The names that have a number."""
        found = [row[0] for row in self.asked("passwd", number) if row[2] == number]
        found += [row[0] for row in self.rows("passwd") if row[2] == number]
        return list(dict.fromkeys(found))

    def netgroup(self, name: str) -> list[Triple] | None:
        """The triples of a netgroup; None where there is none."""
        return triples(run_getent("netgroup", "--", name).stdout)

    def linked(self, path: str) -> str | None:
        """The folder of a path that is a link here: it is the one of that name below /usr."""
        found = LINKED.match(path)
        is_link = found is not None and os.path.realpath(found[0]) == f"/usr{found[0]}"
        return found[0] if found and is_link else None


class Copy(Machine):
    """Another machine, by a copy of its /etc."""

    def __init__(self, folder: str) -> None:
        super().__init__()
        self.folder = folder
        self.nsswitch = os.path.join(folder, "nsswitch.conf")

    def asked(self, database: str, *keys: str) -> list[list[str]]:
        try:
            with open(os.path.join(self.folder, database), encoding="utf-8") as file:
                rows = [line.rstrip("\n").split(":") for line in file]
        except FileNotFoundError:
            return []
        return [row for row in rows if len(row) > 3 and (not keys or set(keys) & {row[0], row[2]})]

    def netgroup(self, name: str) -> list[Triple] | None:
        """(Of a copy nobody can be asked.)"""
        return None

    def linked(self, path: str) -> str | None:
        """(Nor does a copy of /etc have it.)"""
        return None


def is_files_alone(path: str) -> bool:
    """Whether a name service switch has users and groups of files alone."""
    try:
        with open(path, encoding="utf-8") as file:
            lines = [line.partition("#")[0].partition(":") for line in file]
    except OSError:
        return False
    asked = [sources.split() for name, _, sources in lines if name.strip() in WHO]
    return bool(asked) and all(it == ["files"] for it in asked)


def triples(text: str) -> list[Triple] | None:
    """What getent prints of a netgroup: hosts, users and domains, of which an empty one is any."""
    found = [Triple(*(it.strip() for it in held)) for held in TRIPLE.findall(text)]
    return found or None


def matches_form(form: str, text: str, flags: int = 0) -> bool:
    """sudo's own comparison with a wildcard: fnmatch(3) of the C library."""
    return bool(LIBC.fnmatch(os.fsencode(form), os.fsencode(text), flags) == 0)


@dataclass
class Host:
    """A host of the list: its canonical name, which comes first, the others, and its addresses."""

    canonical: str
    names: set[str] = field(default_factory=set)
    addresses: list[Address] = field(default_factory=list)

    def short(self) -> str:
        return self.canonical.partition(".")[0]


class Meant(NamedTuple):
    """The short names of the hosts that are surely meant, and of all that may be."""

    sure: list[str]
    perhaps: list[str]


def hosts_of(text: str) -> list[Host]:
    """A list of hosts, as /etc/hosts has it."""
    found: dict[str, Host] = {}
    for line in text.splitlines():
        address, *names = line.partition("#")[0].split() or [""]
        if not names:
            continue
        host = found.setdefault(names[0].lower(), Host(names[0].lower()))
        host.names |= {name.lower() for name in names}
        try:
            host.addresses.append(ipaddress.ip_address(address))
        except ValueError:
            raise BadSudoers(f"the list of hosts: {address} is no address") from None
    return list(found.values())


def by_name(form: str) -> Callable[[Host, bool], bool] | None:
    """Whether a host has a name: one with a dot is compared with the canonical name, another with
    its part before the first dot."""
    if not WILDCARD.fullmatch(form):
        return None

    def matches(host: Host, perhaps: bool) -> bool:
        if perhaps:
            names = {*host.names, *(name.partition(".")[0] for name in host.names)}
            return any(matches_form(form, name, NO_CASE) for name in names)
        return matches_form(form, host.canonical if "." in form else host.short(), NO_CASE)

    return matches


def by_address(form: str) -> Callable[[Host, bool], bool] | None:
    """Whether a host has an address, or one in a network. An address alone may also be that of a
    network on which the host is."""
    found = NETWORK.fullmatch(form)
    if found is None or not is_mask(found[2]):
        return None
    mask = found[2]
    try:
        network = ipaddress.ip_network(form, strict=False)
    except ValueError:
        return None

    def matches(host: Host, perhaps: bool) -> bool:
        if perhaps and mask is None:
            return any(may_be_network(it, network.network_address) for it in host.addresses)
        return any(it in network for it in host.addresses)

    return matches


def is_mask(mask: str | None) -> bool:
    """Whether sudo and Python mean the same by a mask: to sudo, /0 matches nothing, and 0.0.0.255
    is the mask that it is."""
    if mask is None or mask.isdigit():
        return mask is None or int(mask) > 0
    number = int(ipaddress.IPv4Address(mask)) if valid(mask) else 0
    return number >> 31 == 1 and "0" not in f"{number:b}".rstrip("0")


def valid(address: str) -> bool:
    try:
        ipaddress.IPv4Address(address)
    except ValueError:
        return False
    return True


def may_be_network(address: Address, network: Address) -> bool:
    """Whether an address is in a network of this number, whatever its mask."""
    if address.version != network.version:
        return False
    bits = address.max_prefixlen
    one, other = int(address), int(network)
    return any(one >> left << left == other for left in range(bits + 1))


def meant(hosts: list[Host], matches: Callable[[Host, bool], bool]) -> Meant:
    """The hosts of the list for which something holds. A short name is sure where it holds for each
    host that has it."""
    sure = [host for host in hosts if matches(host, False)]
    left = {host.short() for host in hosts if not matches(host, False)}
    perhaps = [host for host in hosts if matches(host, True)]
    return Meant(
        [name for name in dict.fromkeys(host.short() for host in sure) if name not in left],
        list(dict.fromkeys(host.short() for host in perhaps)),
    )
