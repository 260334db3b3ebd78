#!/usr/bin/env python3
"""Moves sudoers files to a desk as docs/IMPORT.md says it, and asks the real sudo about each step,
in this machine's root and those of Debian 12, 13 and sid (tests/hosts/hosts.py makes them).

`python3 -m tests.moving.moving --short` takes this machine's root and fewer files; `python3 -m
tests.moving.moving 13` takes that root alone, and with `--short` fewer files there. Needs root, and
Debian's packages debootstrap, sudo, openssh-server and ansible-core; DESK names another program
than build/desk. ONLY names parts, and CASES pieces of the files' names.
"""

from __future__ import annotations

import os
import subprocess
import sys
import tempfile
import time
from collections.abc import Callable

from tests.common import desk, others_sudoers
from tests.hosts.hosts import OWN, made_root
from tests.moving import compared, cut_over
from tests.moving.root import Mover
from tests.packages.package_test import furnish

NAMES = ("12", "13", "sid")


def parts(name: str) -> list[Callable[[Mover], None]]:
    """The parts in a root, or those that ONLY names: sshd is this machine's."""
    only = os.environ.get("ONLY", "").split()
    found = [*compared.PARTS, *cut_over.PARTS]
    return [it for it in found if not only or it.__name__ in only]


def inside(name: str, root: str, is_short: bool) -> int:
    """The parts in a root: how many checks were wrong."""
    subprocess.run(["ip", "link", "set", "lo", "up"], check=True)
    subprocess.run(["hostname", "db1"], check=True)
    with tempfile.TemporaryDirectory() as folder:
        host = Mover(name, furnish(folder, root), folder)
        host.is_short = is_short
        try:
            host.prepare()
            for part in parts(name):
                began = time.monotonic()
                part(host)
                print(f"{name}, {part.__name__}: {time.monotonic() - began:.1f} s", flush=True)
        finally:
            subprocess.run(["umount", "--lazy", folder], check=True)
    print(f"a host of {name}: {host.checks} checks, {host.wrong} wrong", flush=True)
    return host.wrong


def tried(name: str, is_short: bool) -> bool:
    """A host in namespaces of its own: whether nothing was wrong."""
    root = "" if name == OWN else made_root(name)
    if root is None:
        if is_short and not os.environ.get("WHOLE"):
            print(f"Debian {name} is LEFT OUT: debootstrap cannot make it here")
            return True
        return False
    words = ["unshare", "--mount", "--net", "--pid", "--ipc", "--uts", "--fork", "--kill-child"]
    words += ["--propagation", "private", "/usr/bin/python3", *desk.again()[1:]]
    shown = name if name == OWN else f"Debian {name}"
    words += ["--inside", shown, root, "short" if is_short else "whole"]
    return subprocess.run(words, check=False).returncode == 0


def main() -> int:
    if os.geteuid() != 0:
        sys.exit("moving.py needs root: it makes roots, and users in them")
    is_short = "--short" in sys.argv[1:]
    try:
        others_sudoers.of_packages()
    except others_sudoers.NoNetwork as fault:
        if os.environ.get("WHOLE") or not is_short:
            sys.exit(f"the sudoers files of Debian's packages cannot be fetched: {fault}")
        print(f"LEFT OUT: the sudoers files of Debian's packages cannot be fetched: {fault}")
        return 0
    names = [it for it in sys.argv[1:] if it != "--short"]
    names = names or ([OWN] if is_short else [OWN, *NAMES])
    failed = [name for name in names if not tried(name, is_short)]
    print(f"moving: {', '.join(failed)} failed" if failed else "moving: 0 failed")
    return 1 if failed else 0


if __name__ == "__main__":
    if sys.argv[1:2] == ["--inside"]:
        sys.exit(1 if inside(sys.argv[2], sys.argv[3], sys.argv[4] == "short") else 0)
    sys.exit(main())
