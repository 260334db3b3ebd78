"""Whether sudo answers, after all that it reads, as the host's file alone has it answer.

sudo takes the last match of all its sources: a later file, SSSD or LDAP may give what the desk's
file denies, and take what it gives. So sudo is asked twice about some of the file's own lines: as
it is, and in a view of its own (a mount namespace) in which it reads nothing but this file."""

from __future__ import annotations

import contextlib
import os
import pwd
import re
import subprocess
from collections.abc import Iterator
from typing import NamedTuple, Optional

from steelnewt_host.judging import sudo_says
from steelnewt_host.settings import PATH, Settings
from steelnewt_host.state import read_some
from steelnewt_host.sudo import program

MOST = 16 * 1024 * 1024  # the bytes of a host's file
ASKED = 6  # so many lines that give are asked about, and so many that deny
RULE = re.compile(
    r"(?P<who>.+) \S+ = \((?P<target>.*?)\) (?:NOT\w+=\w+ )*(?:NOPASSWD: )?(?P<deny>!?)(?P<what>.+)"
)
ALIAS = re.compile(r"(User|Runas|Host|Cmnd)_Alias (\S+) = (.*)")
ALONE = """\
mount --bind "$1" /etc/sudoers && mount --bind "$2" /etc/nsswitch.conf || exit 125
shift 2; exec "$@"
"""
NOT_ENTERED = 125


class Question(NamedTuple):
    """One of the file's lines, as a question to sudo."""

    user: str
    target: str
    command: tuple[str, ...]
    is_denied: bool

    def __str__(self) -> str:
        return f"{self.user}'s `{' '.join(self.command)}` as {self.target}"


class Lines:
    """The lines of a desk's file."""

    def __init__(self, text: str) -> None:
        self.rules = [it for it in map(RULE.fullmatch, text.splitlines()) if it]
        found = (it for it in map(ALIAS.fullmatch, text.splitlines()) if it)
        self.aliases = {(it[1], it[2]): it[3].split(", ") for it in found}

    def plain(self, kind: str, words: str, depth: int = 9) -> Iterator[str]:
        """The names of a list that are not aliases, those of its aliases among them."""
        for word in words.split(", "):
            members = self.aliases.get((kind, word))
            if members is None:
                yield word
            elif depth:
                yield from self.plain(kind, ", ".join(members), depth - 1)

    def account(self, kind: str, words: str) -> Optional[str]:
        """The first of a list that is an account of this host."""
        for name in self.plain(kind, words):
            with contextlib.suppress(KeyError):
                return pwd.getpwnam(name).pw_name
        return None

    def questions(self) -> Iterator[Question]:
        """What is asked, the last lines first; ALL is asked about as one command."""
        for rule in reversed(self.rules):
            user, target = self.account("User", rule["who"]), self.account("Runas", rule["target"])
            target = target or ("root" if rule["target"] == "ALL" else None)
            for what in self.plain("Cmnd", rule["what"]) if user and target else ():
                is_denied = bool(rule["deny"]) != what.startswith("!")
                path, *words = what.lstrip("!").replace("\\", "").split(" ")
                path = "/usr/bin/env" if path == "ALL" else path
                if path.startswith("/") and os.path.isfile(path):
                    command = (path, *(it for it in words if it != '""'))
                    yield Question(str(user), str(target), command, is_denied)


def chosen(lines: Lines) -> list[Question]:
    """Some lines that give, and some that deny."""
    found: dict[bool, list[Question]] = {True: [], False: []}
    for it in lines.questions():
        held = found[it.is_denied]
        if len(held) < ASKED and it not in held:
            held.append(it)
    return found[True] + found[False]


def answer(it: Question, view: tuple[str, ...]) -> bool:
    """What sudo says."""
    ran = sudo_says(it.user, ("-u", it.target, "--", *it.command), PATH, view)
    if view and ran.returncode == NOT_ENTERED or ran.stderr.startswith("unshare: "):
        raise OSError(f"there is no view of its own here: {ran.stderr.strip()}")
    return ran.returncode == 0


def contradicted(settings: Settings) -> Iterator[str]:
    """What sudo answers otherwise than the file alone."""
    text = (read_some(settings.file, MOST) or b"").decode("ascii", "replace")
    lookups = os.path.join(settings.run, "nsswitch.alone")
    names = (read_some("/etc/nsswitch.conf", 1 << 20) or b"").decode("latin-1")
    words = (program("unshare"), "--mount", "--propagation", "private", "/bin/sh", "-c", ALONE)
    view = (*words, "sh", settings.file, lookups)
    try:
        os.makedirs(settings.run, mode=0o755, exist_ok=True)
        with open(lookups, "w", encoding="latin-1") as file:
            file.write(re.sub(r"(?m)^\s*sudoers\s*:.*$", "", names))
        os.chmod(lookups, 0o644)
        for it in chosen(Lines(text)):
            alone = answer(it, view)
            if alone == answer(it, ()) or alone == it.is_denied:
                continue
            told = "another file gives what the desk's denies" if it.is_denied else (
                "another file takes what the desk's gives"
            )
            yield f"{told}: {it}"
            return
    except (OSError, subprocess.SubprocessError) as why:
        yield f"sudo cannot be asked about {settings.file} alone: {why}"
