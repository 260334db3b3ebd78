#!/usr/bin/env python3
"""Tries desk-host, and what the sudo of each Debian makes of a desk's file, in roots of Debian 11,
12, 13 and sid, and of Debian 12 for a 32-bit PC.

Each root is debootstrap's, kept in ~/.cache/steelnewt-hosts (HOSTS names another folder), under an
overlay that is thrown away, with namespaces of its own for mounts, processes, network and its name,
db1: sudo is the real one, setuid, with PAM and a terminal. `python3 -m tests.hosts.hosts --short`
takes this machine's own root, and 13 where debootstrap can make it. `python3 -m tests.hosts.hosts
12` takes that one alone, and `ONLY="resolved edits"` these parts alone. `TREE=FOLDER` tries the
desk-host of another checkout by these tests, as that of 0.19.0, which has no plugin: so a test of a
hole is seen to fail by what it says of the hole. sudo's plugin is tried with random bytes, and by
this machine's systemd (systemd.sh). Needs root, and Debian's packages debootstrap, sudo, gcc, tmux
and python3-pexpect.
"""

from __future__ import annotations

import concurrent.futures
import fcntl
import os
import platform
import shutil
import signal
import subprocess
import sys
import tempfile
import time
from collections.abc import Callable

from tests.common import desk
from tests.hosts import beside, checked, crowd, faulty, fetch, kept, newer, plugged, prompt
from tests.hosts import sessions, signed, sudo, whole
from tests.hosts.root import HAS_PLUGIN, PLUGIN, TREE, Host, own_program
from tests.packages.package_test import furnish

CACHE = os.environ.get("HOSTS") or os.path.expanduser("~/.cache/steelnewt-hosts")
MIRROR = os.environ.get("MIRROR", "http://deb.debian.org/debian")
SUITES = {"11": "bullseye", "12": "bookworm", "13": "trixie", "sid": "sid"}
NARROW = "12-i386"  # 32 bits, for the moments of its own alone
OWN = "this machine"
PACKAGES = "sudo,python3,faketime,procps,tmux,openssh-client"
PARTS = (
    *fetch.PARTS,
    *newer.PARTS,
    *signed.PARTS,
    *sudo.PARTS,
    *prompt.PARTS,
    *sessions.PARTS,
    *plugged.PARTS,
    *kept.PARTS,
    *faulty.PARTS,
    *checked.PARTS,
    *whole.PARTS,
)


def made_root(name: str) -> str | None:
    """The folder with the root of a Debian, made where it is not there; nothing where that fails.
    (Two parts of the gate may need the same one: the second waits for the first.)"""
    os.makedirs(CACHE, exist_ok=True)
    with open(os.path.join(CACHE, f"{name}.lock"), "w", encoding="ascii") as lock:
        fcntl.flock(lock, fcntl.LOCK_EX)
        return root_of(name)


def root_of(name: str) -> str | None:
    release, _, architecture = name.partition("-")
    suite = SUITES[release]
    folder = os.path.join(CACHE, suite + architecture)
    packages = PACKAGES + (",sudo-rs" if name in ("13", "sid") else "")
    whole = os.path.join(folder, ".whole")  # has what it was made with
    if os.path.exists(whole) and desk.read(whole) == packages:
        return folder
    began = time.monotonic()
    os.makedirs(CACHE, exist_ok=True)
    words = ["debootstrap", "--variant=minbase", f"--include={packages}"]
    words += [f"--arch={architecture}"] if architecture else []
    words += [suite, folder, MIRROR]
    for _ in range(3):  # (a mirror may fail once)
        # (one that failed leaves them mounted, and nothing of theirs may be removed)
        for place in (os.path.join(folder, it) for it in ("proc", "sys")):
            if os.path.ismount(place):
                subprocess.run(["umount", "--lazy", place], check=True)
        shutil.rmtree(folder, ignore_errors=True)
        ran = subprocess.run(words, stdout=subprocess.PIPE, stderr=subprocess.STDOUT, text=True)
        if not ran.returncode:
            break
    if ran.returncode:
        print(f"debootstrap {suite}: {ran.stdout.strip()[-600:]}")
        return None
    desk.write(folder, ".whole", packages)
    print(f"Debian {name}: its root was made in {time.monotonic() - began:.0f} s", flush=True)
    return folder


def chosen(name: str, is_short: bool) -> list[Callable[[Host], None]]:
    """The parts of a host, or those that ONLY names."""
    only = os.environ.get("ONLY", "").split()
    parts = PARTS if is_short else (*PARTS, *crowd.PARTS, *beside.PARTS)
    if name.endswith(NARROW):
        parts = sudo.NARROW
    return [it for it in parts if not only or it.__name__ in only]


def told_to_end(*_: object) -> None:
    """The first process of a namespace ignores a signal that it does not ask for: what it runs
    would end by that, and be taken for a case that failed. With it all of its namespace ends."""
    print("hosts.py was told to end", flush=True)
    os._exit(1)


def inside(name: str, root: str, is_short: bool) -> int:
    """The parts in a root: how many checks were wrong."""
    signal.signal(signal.SIGTERM, told_to_end)
    subprocess.run(["ip", "link", "set", "lo", "up"], check=True)
    subprocess.run(["hostname", "db1"], check=True)
    with tempfile.TemporaryDirectory() as folder:
        host = Host(name, furnish(folder, root), folder)
        try:
            host.prepare()
            for part in chosen(name, is_short):
                began = time.monotonic()
                part(host)
                print(f"{name}, {part.__name__}: {time.monotonic() - began:.1f} s", flush=True)
        finally:
            host.unplug()
            subprocess.run(["umount", "--lazy", folder], check=True)
    print(f"a host of {name}: {host.checks} checks, {host.wrong} wrong", flush=True)
    return host.wrong


def enter(name: str, root: str, is_short: bool) -> bool:
    """The same, in namespaces of its own: whether nothing was wrong."""
    words = ["unshare", "--mount", "--net", "--pid", "--ipc", "--uts", "--fork", "--kill-child"]
    words += ["--propagation", "private", "/usr/bin/python3", *desk.again()[1:]]
    words += ["--inside", name, root, "short" if is_short else "whole"]
    return subprocess.run(words, check=False).returncode == 0


def tried(name: str, is_short: bool) -> bool:
    """Makes a host's root and tries it: whether nothing was wrong."""
    if name == OWN:
        return enter(name, "", is_short)
    root = made_root(name)
    if root is not None:
        return enter(f"Debian {name}", root, is_short)
    if is_short and not os.environ.get("WHOLE"):
        print(f"Debian {name} is LEFT OUT: debootstrap cannot make it here")
        return True
    return False


def tries_plugin(is_short: bool) -> bool:
    """Whether sudo's plugin reads and writes random bytes as it should, under the sanitizers."""
    with tempfile.TemporaryDirectory() as folder:
        tried = os.path.join(folder, "plugin")
        words = ["cc", "-std=c11", "-O1", "-g", "-Wall", "-Wextra", "-Werror"]
        words += ["-Wno-unused-function", "-fsanitize=address,undefined"]
        words += ["-fno-sanitize-recover=all", "-o", tried]
        subprocess.run([*words, os.path.join(desk.ROOT, "tests", "hosts", "plugin.c")], check=True)
        rounds = "500" if is_short else "100000"
        return subprocess.run([tried, folder, rounds, "1"], check=False).returncode == 0


def tries_tables(is_short: bool) -> bool:
    """Whether desk-host answers to random tables of processes, records and files."""
    words = [sys.executable, "-m", "tests.hosts.tables", "500" if is_short else "100000"]
    return subprocess.run(words, cwd=desk.ROOT, check=False).returncode == 0


def tries_lives(is_short: bool) -> bool:
    """Whether no host goes back in random lives of desks and hosts."""
    words = [sys.executable, "-m", "tests.hosts.lives", "12" if is_short else "300"]
    return subprocess.run(words, cwd=desk.ROOT, check=False).returncode == 0


def tries_systemd() -> bool:
    """Whether all is so under this machine's systemd too, in namespaces."""
    script = os.path.join(desk.ROOT, "tests", "hosts", "systemd.sh")
    with tempfile.TemporaryDirectory() as folder:
        program = own_program(os.path.join(folder, "desk-host"))
        ran = subprocess.run(["bash", script, program, PLUGIN], check=False)
    if ran.returncode == 77:
        print("a host with systemd is LEFT OUT")
    return ran.returncode in (0, 77)


def tried_once(is_short: bool, has_own: bool) -> list[str]:
    """What needs no root of its own, or those of it that ONLY names: what failed."""
    only = os.environ.get("ONLY", "plugin tables lives systemd").split()
    tries = {
        "plugin": lambda: tries_plugin(is_short),
        "tables": lambda: tries_tables(is_short),
        "lives": lambda: tries_lives(is_short),
        "systemd": lambda: not has_own or tries_systemd(),
    }
    return [f"the {name}" for name, tries_it in tries.items() if name in only and not tries_it()]


def main() -> int:
    if os.geteuid() != 0:
        sys.exit("hosts.py needs root: it makes roots, and users in them")
    is_short = "--short" in sys.argv[1:]
    names = [it for it in sys.argv[1:] if it != "--short"]
    names = names or ([OWN, "13"] if is_short else list(SUITES))
    if not sys.argv[1:] and platform.machine() == "x86_64":
        names.append(NARROW)
    if HAS_PLUGIN:
        subprocess.run(["bash", os.path.join(TREE, "scripts", "plugin.sh"), PLUGIN], check=True)
    with tempfile.TemporaryDirectory() as folder, concurrent.futures.ThreadPoolExecutor(3) as pool:
        once = pool.submit(tried_once, is_short, OWN in names)
        if any(beside.beside in chosen(name, is_short) for name in names):
            os.environ["QUESTIONS"] = beside.written(folder)
        rights = list(pool.map(tried, names, [is_short] * len(names)))
    failed = once.result() + [
        name if name == OWN else f"Debian {name}"
        for name, is_right in zip(names, rights)
        if not is_right
    ]
    print(f"the hosts: {', '.join(failed)} failed" if failed else "the hosts: 0 failed")
    return 1 if failed else 0


if __name__ == "__main__":
    if sys.argv[1:2] == ["--inside"]:
        sys.exit(1 if inside(sys.argv[2], sys.argv[3], sys.argv[4] == "short") else 0)
    sys.exit(main())
