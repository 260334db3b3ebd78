#!/usr/bin/env python3
"""Asks sudo itself about what desk-import made (tests/common/sudo_peer.py says how sudo is asked).

A base is made of each sudoers file, and sudo is asked about random invocations of its words: by the
base, where sudo has to answer as the desk does; and by the base behind what stays on the host,
where sudo has to answer as it does by the file itself. The files are the named ones, and so many
random ones. beside_sudo.py RANDOM FILE..
"""

from __future__ import annotations

import base64
import hashlib
import json
import os
import random
import re
import subprocess
import sys
import tempfile
from collections.abc import Sequence

ROOT = os.path.dirname(os.path.dirname(os.path.dirname(os.path.abspath(__file__))))
sys.path[:0] = [os.path.join(ROOT, "tools"), ROOT]
sys.dont_write_bytecode = True

from tests.common import desk  # noqa: E402
from tests.common import sudo_peer  # noqa: E402

from desk_tools.cvtsudoers import BadSudoers, text_read  # noqa: E402

DESK = os.environ.get("DESK", os.path.join(ROOT, "build", "desk"))
ASKED = int(os.environ.get("ASKED", "8"))  # invocations of each file
USERS, HOSTS = ("ann", "bob", "eve", "kim"), ("db1", "db2", "web1")
GROUPS = {"wheel": ("ann", "bob"), "ops": ("kim",), "empty": ()}
FILES = ("/srv/bin/ls", "/srv/bin/lsof", "/srv/bin/kill", "/srv/sbin/tool")
AT = "20260105093000Z"
# why there may be no base of a file that sudo reads
REFUSED = re.compile(r":[0-9]+: a time without Z")


def digest(path: str) -> str:
    return base64.b64encode(hashlib.sha256(f"#!/bin/sh\n# {path.removeprefix('/srv/')}\n".encode()).digest()).decode()


def signed(rng: random.Random, word: str) -> str:
    """A word, or its negation; the sign of a command stands behind its digest."""
    sign = rng.choice(("", "", "", "!"))
    return word.replace(" ", f" {sign}", 1) if word.startswith("sha") else sign + word


def chosen(rng: random.Random, words: Sequence[str], most: int = 3) -> str:
    return ", ".join(signed(rng, rng.choice(words)) for _ in range(rng.randint(1, most)))


def random_command(rng: random.Random, targets: list[str], commands: list[str]) -> str:
    """A command or two, with a target, options and tags or without."""
    target = rng.choice(["", "", f"({chosen(rng, targets, 2)}) ", f"({chosen(rng, targets, 2)} : op) "])
    odd = (["TIMEOUT=60 ", "CWD=/ "], ["NOEXEC: ", "EXEC: ", "SETENV: ", "MAIL: "]) if len(commands) > 12 else ([], [])
    option = rng.choice([*[""] * 5, "NOTBEFORE=2026010509Z ", "NOTAFTER=20260105093000Z ", "NOTAFTER=2026010509Z ", *odd[0]])
    tag = rng.choice([*[""] * 4, "NOPASSWD: ", "PASSWD: ", *odd[1]])
    return f"{target}{option}{tag}{chosen(rng, commands, 2)}"


def random_sudoers(rng: random.Random) -> str:
    """Aliases and rules; two thirds of the files have some words that the desk cannot say."""
    users = [*USERS, "ALL", "ALL", "%wheel", "%ops", "%empty", "#2002", "%nobody-knows"]
    hosts, targets = [*HOSTS, "ALL", "ALL", "ALL", "DB1"], ["root", "root", "op", "ALL", "ALL", "%ops"]
    commands = [*FILES, "ALL", "ALL", "/srv/bin/", "/srv/bin/ls -l", '/srv/bin/ls ""']
    if rng.random() < 0.67:
        users, hosts = [*users, "+net", "Odd"], [*hosts, "10.0.0.0/8", "db1.example.org"]
        commands += ["/srv/bin/l*", "/srv/bin/ls -*", "/srv/*/kill", f"sha256:{digest(FILES[0])} {FILES[0]}"]
    users, hosts, targets, commands = [*users, "U0", "U1"], [*hosts, "H0"], [*targets, "R0"], [*commands, "C0", "C1"]
    lines = [f"User_Alias U0 = {chosen(rng, users[:-2])}", f"User_Alias U1 = {chosen(rng, users[:-1])}", f"Host_Alias H0 = {chosen(rng, hosts[:-1])}"]
    lines += [f"Runas_Alias R0 = {chosen(rng, targets[:-1])}", f"Cmnd_Alias C0 = {chosen(rng, commands[:-2])}", f"Cmnd_Alias C1 = {chosen(rng, commands[:-1])}"]
    rng.shuffle(lines)
    lines.insert(0, rng.choice(["Defaults !lecture", "# a comment", "Defaults runas_default=op", ""]))
    for _ in range(rng.randint(1, 4)):
        parts = [random_command(rng, targets, commands) for _ in range(rng.choice([1, 1, 2, 3]))]
        lines.append(f"{chosen(rng, users)} {chosen(rng, hosts, 2)} = {', '.join(parts)}")
    return "".join(f"{line}\n" for line in lines)


class File:
    """A sudoers file, with its paths below /srv, where all commands are files of this test."""

    def __init__(self, name: str, text: str) -> None:
        self.name = name
        self.text = re.sub(r"(?<=[\s,!=:)])/(?!srv/)(?=[A-Za-z])", "/srv/", text)
        read = json.dumps(text_read(self.text, name))
        self.commands = sorted(set(re.findall(r'"command": "((?:/[A-Za-z0-9._+-]+)+/?(?: [^"\\*?\[\]]*)?)"', read)))
        self.users = sorted({*USERS, "root", *re.findall(r'"username": "([a-z_][a-z0-9._-]{0,31})"', read)})
        self.hosts = sorted({*HOSTS, *(it.lower() for it in re.findall(r'"hostname": "([A-Za-z][A-Za-z0-9-]{0,31})"', read))} - {"all"})

    def paths(self) -> set[str]:
        """The files that its commands name, and one in each directory."""
        found = {command.split(" ")[0] for command in self.commands}
        return {f"{path}tool" if path.endswith("/") else path for path in found if path.startswith("/srv/")}

    def invocation(self, rng: random.Random) -> list[str]:
        path, *args = rng.choice(self.commands or ["/srv/bin/ls"]).split(" ")
        path = f"{path}tool" if path.endswith("/") else path
        args = rng.choice([args, args, [], ["-l"], [*args, "x"]])
        args = [arg for arg in args if re.fullmatch(r"[A-Za-z0-9._/+@%,:=-]{1,64}", arg)]
        names = [*self.users, *self.users, "op"]
        return [rng.choice(names), rng.choice(self.hosts), rng.choice(["root", "root", "op", rng.choice(names)]), AT, path, *args]


def read_files(named: list[str], count: int) -> tuple[list[File], int]:
    """The files that sudo reads, and how many it does not."""
    rng, found, unread = random.Random(1), [], 0
    for path in named:
        with open(path, encoding="utf-8", errors="surrogateescape") as file:
            text = "".join(line for line in file if "include" not in line)
        try:
            found.append(File(os.path.basename(path), text))
        except BadSudoers:
            unread += 1
    found += [File(f"random-{number}", random_sudoers(rng)) for number in range(count)]
    return found, unread


class Run:
    def __init__(self, folder: str, sudoers: str) -> None:
        self.folder, self.sudoers = folder, sudoers
        self.programs = {name: desk.tool(name) for name in ("sudo", "visudo", "faketime")}
        self.count = {"bases": 0, "refused": 0, "rules kept": 0, "asked": 0, "allowed": 0, "wrong": 0}

    def wrong(self, file: File, said: str) -> None:
        self.count["wrong"] += 1
        print(f"{file.name}: {said}\n{file.text}")

    def is_accepted(self, name: str, text: str) -> bool:
        return sudo_peer.accepts(self.programs["visudo"], name, text, self.folder)

    def by_sudo(self, text: str, words: list[str]) -> bool:
        with open(self.sudoers, "w", encoding="utf-8", errors="surrogateescape") as target:
            target.write(text)
        return sudo_peer.allows(self.programs, words)

    def look(self, file: File, rng: random.Random) -> None:
        source = os.path.join(self.folder, "source")
        with open(source, "w", encoding="utf-8", errors="surrogateescape") as target:
            target.write(file.text)
        rest = os.path.join(self.folder, "rest")
        words = [os.path.join(ROOT, "tools", "desk-import"), "--desk", DESK, "--all-hosts"]
        words += ["--rest", rest, source]
        ran = subprocess.run(words, capture_output=True, text=True, check=False)
        if ran.returncode == 2 and REFUSED.search(ran.stderr):
            self.count["refused"] += 1
            return
        if ran.returncode != 0:
            self.wrong(file, ran.stderr)
            return
        self.count["bases"] += 1
        self.count["rules kept"] += ran.stderr.count(": kept: ")
        with open(rest, encoding="utf-8", errors="surrogateescape") as kept:
            both = kept.read() + ran.stdout
        base = os.path.join(self.folder, "base")
        with open(base, "w", encoding="ascii") as target:
            target.write(ran.stdout)
        if not self.is_accepted(file.name, both):
            # (what stays has the file's own lines, so a fault of the file is one of both)
            if self.is_accepted(file.name, file.text):
                self.wrong(file, f"visudo refuses it\n{both}--")
            return
        for _ in range(ASKED):
            self.ask(file, base, ran.stdout, both, file.invocation(rng))

    def ask(self, file: File, base: str, text: str, both: str, words: list[str]) -> None:
        answer = desk.run([DESK, "decide", base, *words[:5], "--", *words[5:]])
        ours = answer.returncode == 0
        theirs, before = self.by_sudo(text, words), self.by_sudo(file.text, words)
        after = self.by_sudo(both, words)
        self.count["asked"] += 1
        self.count["allowed"] += ours
        shown = " ".join(words)
        if answer.returncode not in (0, 1) or ours != theirs:
            self.wrong(file, f"{shown}: by the base sudo says {theirs}, the desk {answer.stdout}{answer.stderr}\n{text}--")
        elif before != after:
            what = "the file" if before else "the base, behind what stays,"
            self.wrong(file, f"{shown}: {what} alone allows it\n{both}--")


def inside(count: int, named: list[str]) -> None:
    files, unread = read_files(named, count)
    rng = random.Random(2)
    users = sorted({*USERS, "op", *(user for file in files for user in file.users)} - {"ALL"})
    commands = sorted({*(it.removeprefix("/srv/") for it in FILES), *(path.removeprefix("/srv/") for file in files for path in file.paths())})
    # (a file where another has a directory is left out)
    commands = [it for it in commands if not any(other.startswith(f"{it}/") for other in commands)]
    with tempfile.TemporaryDirectory() as folder:
        sudoers = sudo_peer.furnish(folder, users, commands)
        groups = os.path.join(folder, "group")
        with open(groups, "w", encoding="ascii") as file:
            file.write("root:x:0:\n" + "".join(f"{name}:x:{3001 + number}:{','.join(held)}\n" for number, (name, held) in enumerate(GROUPS.items())))
        os.chmod(groups, 0o644)
        sudo_peer.bind(groups, "/etc/group")
        ran = Run(folder, sudoers)
        for each in files:
            ran.look(each, rng)
        subprocess.run(["umount", "/etc/group"], check=True)
        sudo_peer.clear()
    print(f"of {len(files) + unread} sudoers files sudo reads {len(files)}: {ran.count}")
    found = ran.count
    is_idle = not found["allowed"] or not found["rules kept"] or found["refused"] * 8 > found["bases"]
    sys.exit(1 if found["wrong"] or is_idle else 0)


if __name__ == "__main__":
    if sys.argv[1:2] == ["--inside"]:
        inside(int(sys.argv[2]), sys.argv[3:])
    words = [desk.tool("unshare"), "--mount", "--propagation", "private", sys.executable, os.path.abspath(__file__), "--inside", *sys.argv[1:]]
    sys.exit(subprocess.run(words, check=False).returncode)
