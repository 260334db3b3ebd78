"""What the tests that ask sudo share: a mount namespace of their own, with its own users,
commands and /etc/sudoers, and sudo's answers there.

sudo compares files by inode, so the commands are small files under /srv, and its clock stands still
at the moment that is asked about (`faketime -f`). Users and hosts are looked up in files alone:
Debian's sudo asks for a host's canonical name, and no resolver is to be asked here. All of these
are bound over the machine's in that namespace alone, so nothing of the machine changes.
"""

import os
import subprocess
import sys
from collections.abc import Iterable, Mapping, Sequence
from typing import NoReturn

from tests.common import desk

PLACES = ("/etc/nsswitch.conf", "/etc/sudoers", "/etc/passwd", "/srv")


def enter_namespace() -> NoReturn:
    """Starts the script again in a mount namespace of its own."""
    if os.geteuid() != 0:
        sys.exit("this needs root: sudo -l answers for another user only to root")
    words = [
        desk.tool("unshare"),
        "--mount",
        "--propagation",
        "private",
        *desk.again(),
        "--inside",
    ]
    sys.exit(subprocess.run(words, check=False).returncode)


def bind(source: str, target: str) -> None:
    subprocess.run(["mount", "--bind", source, target], check=True)


def put_commands(top: str, commands: Iterable[str]) -> None:
    """Commands, given by their paths below this folder: each a small file of its own."""
    for name in commands:
        path = os.path.join(top, name)
        os.makedirs(os.path.dirname(path), exist_ok=True)
        with open(path, "w") as file:
            file.write(f"#!/bin/sh\n# {name}\n")
        os.chmod(path, 0o755)


def passwd_of(users: Iterable[str]) -> str:
    """/etc/passwd with root and these users."""
    named = enumerate(it for it in users if it != "root")
    lines = [f"{user}:x:{2001 + number}:2001::/:/bin/sh\n" for number, user in named]
    return "root:x:0:0:root:/root:/bin/sh\n" + "".join(lines)


def furnish(folder: str, users: Iterable[str], commands: Iterable[str]) -> str:
    """Commands, given by their paths below /srv, users and an empty sudoers file, bound over the
    machine's; the path of the file is answered."""
    os.chmod(folder, 0o755)
    top = os.path.join(folder, "srv")
    os.makedirs(top, exist_ok=True)
    put_commands(top, commands)
    os.makedirs("/srv", exist_ok=True)
    bind(top, "/srv")
    passwd = os.path.join(folder, "passwd")
    with open(passwd, "w") as file:
        file.write(passwd_of(users))
    os.chmod(passwd, 0o644)
    bind(passwd, "/etc/passwd")
    lookups = os.path.join(folder, "nsswitch.conf")
    with open(lookups, "w") as file:
        file.write("passwd: files\ngroup: files\nhosts: files\n")
    os.chmod(lookups, 0o644)
    bind(lookups, "/etc/nsswitch.conf")
    sudoers = os.path.join(folder, "sudoers")
    with open(sudoers, "w") as file:
        file.write("")
    os.chmod(sudoers, 0o440)
    bind(sudoers, "/etc/sudoers")
    return sudoers


def clear() -> None:
    """Takes away what was bound."""
    for place in PLACES:
        subprocess.run(["umount", place], check=True)


def accepts(visudo: str, what: str, text: str, folder: str) -> bool:
    """Whether visudo accepts the text."""
    path = os.path.join(folder, "checked")
    with open(path, "w") as file:
        file.write(text)
    os.chmod(path, 0o440)
    answer = desk.run([visudo, "-cf", path])
    if answer.returncode != 0:
        print(f"visudo refuses {what}: {answer.stdout}{answer.stderr}")
    return answer.returncode == 0


def host_program(path: str, tree: str = desk.ROOT) -> str:
    """Makes the program desk-host of a tree there: its path."""
    script = os.path.join(tree, "scripts", "host_program.py")
    subprocess.run([sys.executable, script, path], check=True)
    return path


def allows(programs: Mapping[str, str], words: Sequence[str]) -> bool:
    """What sudo itself answers to (user, host, target, moment, path, arguments ..), at that
    moment."""
    user, host, runas, moment, path, *args = words
    day = (
        f"{moment[0:4]}-{moment[4:6]}-{moment[6:8]} {moment[8:10]}:{moment[10:12]}:{moment[12:14]}"
    )
    asked = [programs["sudo"], "-n", "-l", "-U", user, "-h", host, "-u", runas, "--", path, *args]
    answer = subprocess.run(
        [programs["faketime"], "-f", day, *asked],
        stdin=subprocess.DEVNULL,
        stdout=subprocess.PIPE,
        stderr=subprocess.PIPE,
        text=True,
        check=False,
        env={"PATH": "/usr/sbin:/usr/bin:/sbin:/bin", "TZ": "UTC", "LC_ALL": "C"},
    )
    if answer.returncode not in (0, 1) or "parse error" in answer.stderr:
        sys.exit(f"sudo fails on {' '.join(words)}: {answer.stdout}{answer.stderr}")
    return answer.returncode == 0
