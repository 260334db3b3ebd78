"""`desk-import compare`: what sudo itself says of each account, by the old file, and by the base
with what stays on the host.

The files are put over /etc/sudoers in a mount namespace of its own, so nothing of the host changes.
A folder, in which the old files are kept, is put over /etc: the old file includes the old ones.
"""

import os
import platform
import re
import shutil
import subprocess
import sys
import tempfile
from collections.abc import Iterable, Iterator
from contextlib import contextmanager
from typing import NamedTuple

from desk_tools.cvtsudoers import BadSudoers
from desk_tools.found import Parser, visible
from desk_tools.machine import getent
from desk_tools.sudo_settings import TAGS

SAME, LESS, FAILED, MORE = 0, 1, 2, 3
ETC = "/etc"
SUDOERS = f"{ETC}/sudoers"
INSIDE = "--inside"
BLOCK = re.compile(r"^Sudoers entry:.*$", re.MULTILINE)
FIELD = re.compile(r"^    (\w+): (.*)$", re.MULTILINE)
COMMAND = re.compile(r"^\t(.*)$", re.MULTILINE)
# (sudo takes it for the program alone)
ANY_ARGUMENTS = re.compile(r"^(!?/[^ *?\[\\]+) \*$")
LITERAL = re.compile(r"/[A-Za-z0-9._/+-]*[A-Za-z0-9._+-](?: [A-Za-z0-9._/+@%=:-]+)*|/\S+ \"\"")
TARGET = re.compile(r":?[a-z_][a-z0-9._-]*")
# a command's flags that are so where nothing is said
DEFAULT = {key if tag.is_on else f"!{key}" for key, tag in TAGS.items()}
# who stands for ALL as target, where one command is asked about
SOME = ("root", "daemon", "nobody")
# an argument that no file names
ANY = "desk-import-compare"


class Right(NamedTuple):
    """One command of a list of sudo's, with the target, a user or a group, and how it runs."""

    target: str
    how: str
    command: str

    def __str__(self) -> str:
        return f"({self.target}) {self.how and f'[{self.how}] '}{self.command}"


def said(options: str, settings: str) -> str:
    """Options without those that say what holds anyway: no Defaults line speaks of the flag."""
    held = [it for it in options.split(", ") if it.lstrip("!") != "send_mail"]
    return ", ".join(it for it in held if it not in DEFAULT or it.lstrip("!") in settings)


def rights(listing: str) -> list[Right]:
    """The rights of a list, each with one target."""
    settings = "".join(re.split(r"^User .*$", listing, flags=re.MULTILINE)[:1])
    found = []
    for block in BLOCK.split(listing)[1:]:
        fields = dict(FIELD.findall(block.partition("    Commands:")[0]))
        users = fields.pop("RunAsUsers", "").split(", ")
        groups = [f":{it}" for it in fields.pop("RunAsGroups", "").split(", ") if it]
        fields["Options"] = said(fields.get("Options", ""), settings)
        how = "; ".join(f"{name}: {it}" for name, it in sorted(fields.items()) if it)
        for command in (ANY_ARGUMENTS.sub(r"\1", it) for it in COMMAND.findall(block)):
            found += [Right(it, how, command) for it in (*filter(None, users), *groups)]
    return found


class Sudo:
    """Asks sudo, by the sudoers file that is in place."""

    def __init__(self, host: str) -> None:
        is_here = host == platform.node().partition(".")[0]
        self.words = ["sudo", "-n", *([] if is_here else ["-h", host])]

    def asked(self, *words: str) -> "subprocess.CompletedProcess[str]":
        return subprocess.run(
            [*self.words, *words],
            stdin=subprocess.DEVNULL,
            capture_output=True,
            text=True,
            check=False,
            env={"PATH": "/usr/sbin:/usr/bin:/sbin:/bin", "LC_ALL": "C"},
        )

    def listing(self, user: str) -> str:
        ran = self.asked("-ll", "-U", user)
        if ran.returncode not in (0, 1) or "syntax error" in ran.stderr:
            raise BadSudoers(f"sudo fails on {user}: {ran.stderr.strip()}")
        return ran.stdout

    def allows(self, user: str, right: Right) -> bool:
        """Whether sudo allows a command with its arguments; where it has none, with some."""
        path, _, args = right.command.partition(" ")
        words = [] if args == '""' else args.split(" ") if args else [ANY]
        target = ["-g", right.target[1:]] if right.target.startswith(":") else ["-u", right.target]
        return self.asked("-l", "-U", user, *target, "--", path, *words).returncode == 0


class Answers:
    """What sudo says by one file: each account's list, and each command that is asked about."""

    def __init__(self, sudo: Sudo, path: str, users: Iterable[str], place: str = SUDOERS) -> None:
        self.sudo, self.path, self.place = sudo, path, place
        with in_place(path, place):
            self.listings = {user: sudo.listing(user) for user in users}
        self.rights = {user: rights(text) for user, text in self.listings.items()}
        self.allowed: dict[tuple[str, Right], bool] = {}

    def settings(self, user: str) -> str:
        return self.listings[user].partition("User ")[0]

    def ask(self, asked: Iterable[tuple[str, Right]]) -> None:
        with in_place(self.path, self.place):
            self.allowed = {(user, it): self.sudo.allows(user, it) for user, it in asked}


@contextmanager
def in_place(path: str, place: str) -> Iterator[None]:
    """Puts a file in the place of /etc/sudoers, or a folder in that of /etc, and has sudo's file
    read by visudo."""
    subprocess.run(["mount", "--bind", path, place], check=True)
    try:
        words = ["visudo", "-c", "-f", SUDOERS]
        ran = subprocess.run(words, capture_output=True, text=True, check=False)
        if ran.returncode:
            raise BadSudoers(f"visudo refuses {path}: {(ran.stderr or ran.stdout).strip()}")
        yield
    finally:
        subprocess.run(["umount", place], check=True)


def installed(folder: str, rest: str | None, base: str) -> str:
    """What stays, and behind it the base, as a host has them."""
    texts = []
    for path in (rest, base):
        if path:
            with open(path, encoding="utf-8", errors="surrogateescape") as file:
                texts += [line for line in file if not line.startswith("@includedir ")]
    return copied("".join(texts), os.path.join(folder, "new"))


def before(sudo: Sudo, old: str, users: list[str], folder: str) -> Answers:
    """What sudo says by the old file, or by the old files of a folder."""
    kept = os.path.join(folder, "old")
    if not os.path.isdir(old):
        with open(old, encoding="utf-8", errors="surrogateescape") as file:
            return Answers(sudo, copied(file.read(), kept), users)
    if not os.path.isfile(os.path.join(old, "sudoers")):
        raise BadSudoers(f"{old}: it has no file sudoers")
    subprocess.run(["cp", "-a", ETC, kept], check=True)
    for name in os.listdir(old):
        shutil.rmtree(os.path.join(kept, name), ignore_errors=True)
        subprocess.run(["cp", "-a", "--remove-destination", f"{old}/{name}", kept], check=True)
    return Answers(sudo, kept, users, ETC)


def copied(text: str, path: str) -> str:
    with open(path, "w", encoding="utf-8", errors="surrogateescape") as file:
        file.write(text)
    os.chmod(path, 0o440)
    return path


def literals(right: Right) -> list[Right]:
    """The rights to one command, without its sign, as some targets; none where it is of several."""
    command = right.command.lstrip("!")
    if not LITERAL.fullmatch(command):
        return []
    targets = SOME if right.target == "ALL" else (right.target,)
    return [Right(it, "", command) for it in targets if TARGET.fullmatch(it)]


def differences(before: Answers, after: Answers) -> tuple[list[str], list[str]]:
    """What is more and what is less: one command is asked about, of lists the words count."""
    asked = dict.fromkeys(
        (user, one)
        for user in before.rights
        for right in (*before.rights[user], *after.rights[user])
        for one in literals(right)
    )
    after.ask(asked)
    before.ask(asked)
    more: list[str] = []
    less: list[str] = []
    for user, one in asked:
        if before.allowed[user, one] != after.allowed[user, one]:
            (more if after.allowed[user, one] else less).append(f"{user}: {one}")
    for user, old in before.rights.items():
        new = after.rights[user]
        if before.settings(user) != after.settings(user):
            more.append(f"{user}: other Defaults")
        more += [f"{user}: {it}" for it in only(new, old, False) + only(old, new, True)]
        less += [f"{user}: {it}" for it in only(old, new, False) + only(new, old, True)]
    return more, less


def only(one: list[Right], other: list[Right], are_denied: bool) -> list[Right]:
    """The rights, or the denials, of one list alone: of several commands, or with other options
    than any of the other list for that target."""
    options = {(it.target, it.how) for it in other}
    return [
        it
        for it in dict.fromkeys(one)
        if it not in other and it.command.startswith("!") == are_denied
        if not literals(it) or (not are_denied and (it.target, it.how) not in options)
    ]


def parser() -> Parser:
    found = Parser(
        "desk-import compare",
        description="Asks sudo about each account of this host, by its old sudoers file and by the "
        "base with what stays, and says what is more and what is less.",
        epilog="Exit status: 0 nothing is more or less, 1 something is less, 2 it cannot be asked, "
        "3 something is more.",
    )
    found.add_argument(
        "--old",
        metavar="FILE",
        default=SUDOERS,
        help="the old sudoers file (/etc/sudoers), or a folder of it and all that it includes",
    )
    found.add_argument("--rest", metavar="FILE", help="what stays on the host")
    found.add_argument(
        "--base", metavar="FILE", required=True, help="the base, or the host's file of the desk"
    )
    found.add_argument(INSIDE, action="store_true", help="(in the namespace that it makes)")
    found.add_argument("host", metavar="HOST", help="the host's short name")
    return found


def compared(host: str, old: str, rest: str | None, base: str) -> int:
    users = list(dict.fromkeys(row[0] for row in getent("passwd")))
    with tempfile.TemporaryDirectory() as folder:
        after = Answers(Sudo(host), installed(folder, rest, base), users)
        more, less = differences(before(Sudo(host), old, users, folder), after)
    for what, lines in (("more", more), ("less", less)):
        print("".join(f"{what}: {visible(line)}\n" for line in dict.fromkeys(lines)), end="")
    print(f"{len(users)} accounts on {host}: {len(set(more))} more, {len(set(less))} less")
    return MORE if more else LESS if less else SAME


def main(words: list[str]) -> int:
    said = parser().parse_args(words)
    if os.geteuid() != 0:
        raise BadSudoers("compare needs root: sudo -l answers for another user only to root")
    if not said.inside:
        again = [sys.executable, *sys.orig_argv[1:], INSIDE]
        space = ["unshare", "--mount", "--propagation", "private"]
        return subprocess.run([*space, *again], check=False).returncode
    return compared(said.host, said.old, said.rest, said.base)
