#!/usr/bin/env python3
"""Asks sudo itself whether a base that desk-import made gives, behind what stays on the host, just
what the old file gives (tests/common/sudo_peer.py says how sudo is asked).

The files are wideners.py's, each of which once had a base that gave more, and random ones: with
comments, continuations, included files of all modes and owners, Defaults of every scope, netgroups,
digests and negations. About the random ones, `sudo -l` is asked a third of the questions: it sees no
tag. For the others the user runs the command: without a password, with one, and with a variable of
the user's own; and the command starts another. Where desk-import makes no base, it has to refuse the
file by name, with its line. never_wider.py RANDOM [SEED]; DESK_IMPORT names another desk-import.
"""

import collections
import os
import platform
import random
import re
import shutil
import socket
import subprocess
import sys
import tempfile
from collections.abc import Callable
from typing import NamedTuple

ROOT = os.path.dirname(os.path.dirname(os.path.dirname(os.path.abspath(__file__))))
sys.path[:0] = [os.path.join(ROOT, "tools"), ROOT]
sys.dont_write_bytecode = True

from tests.common import desk  # noqa: E402
from tests.common import sudo_peer  # noqa: E402

from desk_tools.sudoers import read  # noqa: E402

import odd_sudoers  # noqa: E402
from wideners import MORE, WIDENERS, File, Widener  # noqa: E402

DESK = os.environ.get("DESK", os.path.join(ROOT, "build", "desk"))
IMPORT = os.environ.get("DESK_IMPORT", os.path.join(ROOT, "tools", "desk-import"))
ASKED = int(os.environ.get("ASKED", "10"))  # invocations of each random file
SUDOERS = "/etc/sudoers"
NOBODY = 65534
# another zone than the host's: no time is the same in both
ZONE = "EAST-13:30"
AT = "2026-01-05 09:30:00"
# what sudo asks of PAM is no matter here; and a library sees what a command starts, since sudo waits
# for ever where the kernel does not let it trace the command
NO_PAM = "Defaults !pam_acct_mgmt, !pam_session, !pam_setcred, intercept_type=dso\n"
PATIENCE = 600
VERDICT = re.compile(r"^(/.*?:[0-9]+): (?:kept|in part|gone|not for this host): ", re.MULTILINE)
END = (" entry\n", " entries\n")  # of the report
REFUSAL = re.compile(r"desk-import: (sudo cannot read it: )?/[\w./*-]+:[0-9]+(:[0-9]+)?: \S.*\n")
# how sudo is asked: by `sudo -l -U`, and by who runs it without a password, with one, and with a
# variable, too
LIST, RUN, KNOWS, SET = "list", "run", "knows", "set"
WAYS = (LIST, LIST, RUN, KNOWS, KNOWS, SET)
PAM = "auth sufficient pam_permit.so\n"  # whoever is asked for a password knows it
LOGS = "/var/log"  # sudo's logs of what a command reads and writes are below


class Question(NamedTuple):
    """What sudo is asked."""

    user: str
    host: str
    target: str
    command: tuple[str, ...]
    way: str = LIST
    group: str = ""


class Answer(NamedTuple):
    """Whether sudo allows the command, and the kinds of its logs."""

    is_allowed: bool
    logged: frozenset[str] = frozenset()

    def is_more(self, other: "Answer") -> bool:
        """Whether somebody may do more, or the same with less of a log."""
        if self.is_allowed and other.is_allowed:
            return not self.logged >= other.logged
        return self.is_allowed


class Machine:
    """What sudo and desk-import find, in a mount namespace of its own."""

    def __init__(self, folder: str) -> None:
        self.folder = folder
        # (a copy: what is bound over a file of /etc ends where another program puts a new one there)
        subprocess.run(["cp", "-a", "/etc", os.path.join(folder, "etc")], check=True)
        sudo_peer.bind(os.path.join(folder, "etc"), "/etc")
        self.sudoers = sudo_peer.furnish(folder, odd_sudoers.USERS, odd_sudoers.FILES)
        self.rest = os.path.join(folder, "rest")
        self.more = os.path.join(folder, "srv", os.path.basename(MORE))
        self.append("passwd", odd_sudoers.PASSWD)
        self.append("nsswitch.conf", "netgroup: files\n")
        for name, text in odd_sudoers.DATABASES.items():
            self.write(f"/etc/{name}", text)
        for name in odd_sudoers.FILES:
            self.append(f"srv/{name}", "/bin/true\n")
        self.write("/etc/pam.d/sudo", PAM)
        self.logs = os.path.join(folder, "logs")
        os.mkdir(self.logs)
        sudo_peer.bind(self.logs, LOGS)
        self.host = socket.gethostname()
        self.programs = {name: desk.tool(name) for name in ("sudo", "faketime", "setpriv")}

    def append(self, name: str, text: str) -> None:
        with open(os.path.join(self.folder, name), "a", encoding="ascii") as file:
            file.write(text)

    def write(self, path: str, text: str) -> None:
        with open(path, "w", encoding="utf-8", errors="surrogateescape") as file:
            file.write(text)

    def clear(self) -> None:
        sudo_peer.clear()
        for place in ("/etc", LOGS):
            subprocess.run(["umount", place], check=True)

    def furnish(self, text: str, files: dict[str, File]) -> None:
        """The sudoers file, and those that it includes."""
        self.write(self.sudoers, text)
        shutil.rmtree(self.more, ignore_errors=True)
        os.mkdir(self.more)
        for name, file in files.items():
            path = os.path.join(self.more, name.replace("HOST", platform.node().partition(".")[0]))
            os.makedirs(os.path.dirname(path), exist_ok=True)
            self.write(path, file.text)
            os.chown(path, file.owner, file.group)
            os.chmod(path, file.mode)

    def imported(self, hosts: str, is_nobody: bool) -> "subprocess.CompletedProcess[str]":
        """What desk-import makes of the sudoers file."""
        words = [IMPORT, "--desk", DESK, "--all-hosts", "--rest", self.rest]
        if hosts:
            self.write(os.path.join(self.folder, "list"), hosts)
            words += ["--host-list", os.path.join(self.folder, "list")]
        if is_nobody:
            words = [*self.as_nobody(), *words[3:]]
        self.clear_rest()
        environment = {**os.environ, "TZ": ZONE}
        return subprocess.run(
            [*words, SUDOERS], capture_output=True, text=True, check=False, env=environment
        )

    def clear_rest(self) -> None:
        if os.path.isdir(self.rest):
            shutil.rmtree(self.rest)
        elif os.path.exists(self.rest):
            os.remove(self.rest)

    def imported_hosts(self, hosts: list[str]) -> "subprocess.CompletedProcess[str]":
        """What desk-import makes of some hosts' own files."""
        self.clear_rest()
        words = [it for host in hosts for it in ("--host", f"{host}={SUDOERS}-{host}")]
        words = [IMPORT, "--desk", DESK, "--rest", self.rest, *words]
        return subprocess.run(words, capture_output=True, text=True, check=False)

    def stays(self, path: str) -> str:
        """What stays on a host, without the folders whose files are in it."""
        with open(path, encoding="utf-8", errors="surrogateescape") as file:
            return "".join(line for line in file if not line.startswith("@includedir "))

    def accepts(self) -> bool:
        """Whether sudo reads the file that is there."""
        words = [desk.tool("visudo"), "-c", "-f", SUDOERS]
        ran = subprocess.run(words, capture_output=True, check=False)
        return ran.returncode == 0

    def as_nobody(self) -> list[str]:
        """desk-import for somebody who may read the sudoers file, and not what it includes."""
        os.chmod(self.sudoers, 0o444)
        tools = os.path.join(self.folder, "tools")
        if not os.path.exists(tools):
            shutil.copytree(os.path.dirname(os.path.realpath(IMPORT)), tools)
            client = os.path.join(os.path.dirname(os.path.dirname(os.path.realpath(IMPORT))), "steelnewt_client")
            shutil.copytree(client, os.path.join(self.folder, "steelnewt_client"))
            shutil.copy(DESK, os.path.join(self.folder, "desk"))
        who = [self.programs["setpriv"], f"--reuid={NOBODY}", f"--regid={NOBODY}", "--clear-groups"]
        return [*who, f"{tools}/desk-import", "--desk", f"{self.folder}/desk"]

    def answer(self, it: Question) -> Answer:
        """What sudo says, by the files that are there."""
        asked = [self.programs["sudo"], "-u", it.target]
        if it.way == LIST:
            asked = [self.programs["faketime"], "-f", AT, *asked]
            return Answer(self.ran([*asked, "-l", "-U", it.user, "-h", it.host, "--", *it.command]))
        # (-k: nobody is remembered)
        asked += ["-k", *(["-n"] if it.way == RUN else []), *(["-g", it.group] if it.group else [])]
        asked += ["A=1"] if it.way == SET else ["--"]
        asked = [self.programs["setpriv"], f"--reuid={it.user}", "--init-groups", *asked]
        socket.sethostname(it.host)
        is_allowed = self.ran([*asked, *it.command])
        socket.sethostname(self.host)
        return Answer(is_allowed, self.logged())

    def ran(self, words: list[str]) -> bool:
        ran = subprocess.run(
            words,
            stdin=subprocess.DEVNULL,
            capture_output=True,
            check=False,
            timeout=PATIENCE,
            env={"PATH": "/usr/sbin:/usr/bin:/sbin:/bin", "TZ": "UTC", "LC_ALL": "C"},
        )
        return ran.returncode == 0

    def logged(self) -> frozenset[str]:
        """The kinds of what was logged of a command, whose log is taken away."""
        found = frozenset(name for _, _, names in os.walk(self.logs) for name in names)
        for name in os.listdir(self.logs):
            shutil.rmtree(os.path.join(self.logs, name))
        return found


class Run:
    def __init__(self, machine: Machine) -> None:
        self.machine = machine
        self.count: collections.Counter[str] = collections.Counter()
        self.wrong: list[str] = []

    def case(self, it: Widener, questions: Callable[[str], list[Question]]) -> bool:
        """Whether the base of a case, with what stays on the host before it, gives just what its
        file gives, by some questions about it."""
        self.machine.furnish(it.text, it.files)
        ran = self.machine.imported(it.hosts, it.is_nobody)
        if not self.is_made(it.name, it.text, ran):
            return ran.returncode == 2
        unnamed = self.unnamed(SUDOERS, ran.stderr)
        new = self.machine.stays(self.machine.rest) + ran.stdout
        is_same = self.is_same(it, new, questions(ran.stdout))
        self.wrong += [f"UNNAMED: {it.name}: {place}: {ran.stderr}\n{new}" for place in unnamed]
        return is_same and not unnamed

    def is_made(self, name: str, text: str, ran: "subprocess.CompletedProcess[str]") -> bool:
        """Whether there is a base; what is refused has to be refused by its line."""
        self.count[f"status {ran.returncode}"] += 1
        self.count["by the base"] += bool(ran.stdout)
        if ran.returncode == 2 and REFUSAL.fullmatch(ran.stderr):
            return False
        if ran.returncode != 0 or not ran.stderr.endswith(END):
            self.wrong.append(f"{name}: status {ran.returncode}: {ran.stderr}\n{text}")
            ran.returncode = 1
            return False
        return True

    def is_same(self, it: Widener, new: str, asked: list[Question]) -> bool:
        more = NO_PAM if any(one.way != LIST for one in asked) else ""
        self.machine.furnish(more + new, {})
        if not self.machine.accepts():
            self.wrong.append(f"{it.name}: visudo refuses it\n{it.text}--\n{new}--")
            return False
        after = [self.machine.answer(one) for one in asked]
        self.machine.furnish(more + it.text, it.files)
        before = [self.machine.answer(one) for one in asked]
        self.count["asked"] += len(asked)
        for way in dict.fromkeys(WAYS):
            held = [ans.is_allowed for one, ans in zip(asked, after) if one.way == way]
            self.count[f"allowed, {way}"] += sum(held)
        self.count["logged"] += sum(bool(ans.logged) for ans in after)
        shown = f"{it.name}\n{it.text}{it.files or ''}\n--\n{new}--"
        rows = list(zip(asked, before, after))
        self.wrong += [f"WIDENED: {one}: {shown}" for one, old, ans in rows if ans.is_more(old)]
        self.wrong += [f"LOST: {one}: {shown}" for one, old, ans in rows if old.is_more(ans)]
        return before == after

    def unnamed(self, path: str, report: str) -> list[str]:
        """The rules of a file that have no verdict, or two."""
        places = {str(place) for place, _ in read(path).specs}
        named = collections.Counter(VERDICT.findall(report))
        self.count["kept"] += report.count(": kept: ")
        return [place for place in places if named[place] != 1]

    def hosts(self, cases: dict[str, Widener], rng: random.Random) -> None:
        """The same of one base of several hosts' own files: each host, by its own."""
        for host, it in cases.items():
            self.machine.write(f"{SUDOERS}-{host}", it.text)
        ran = self.machine.imported_hosts(list(cases))
        text = "".join(it.text for it in cases.values())
        if not self.is_made("several hosts", text, ran):
            return
        for host, it in cases.items():
            rest = self.machine.stays(os.path.join(self.machine.rest, host))
            asked = [one._replace(host=host) for one in questions(rng, ran.stdout, it.text)]
            self.is_same(it, rest + ran.stdout, asked)
            for place in self.unnamed(f"{SUDOERS}-{host}", ran.stderr):
                self.wrong.append(f"UNNAMED: {place}: {ran.stderr}")


def question(rng: random.Random, text: str) -> Question:
    user, host, target, *command = odd_sudoers.question(rng, text)
    return Question(user, host, target, tuple(command), rng.choice(WAYS))


def questions(rng: random.Random, base: str, text: str) -> list[Question]:
    """Some of the words of the base's rules, and some of the file's."""
    found = [question(rng, base) for _ in range(ASKED)] if base else []
    return found + [question(rng, text) for _ in range(ASKED // 2)]


def named_question(it: Widener) -> Question:
    user, host, target, *command = it.asks
    return Question(user, host, target, tuple(command), RUN if it.is_run else LIST, it.group)


def inside(count: int, seed: int = 53) -> int:
    rng, failed = random.Random(seed), 0
    with tempfile.TemporaryDirectory() as folder:
        machine = Machine(folder)
        run = Run(machine)
        for it in WIDENERS:
            asked = [named_question(it)]
            is_right = run.case(it, lambda _: asked)  # noqa: B023
            failed += not is_right
            print(f"{'ok' if is_right else 'WIDENED'}: {it.name}")
        named, run.count = run.count, collections.Counter()
        for number in range(count):
            if number % 3 == 2:
                names = ("db1", "web1")
                run.hosts({it: odd_sudoers.random_text(rng, f"{it}-{number}") for it in names}, rng)
                continue
            it = odd_sudoers.random_case(rng, f"random-{number}")
            texts = it.text + "".join(file.text for file in it.files.values())
            run.case(it, lambda base: questions(rng, base, texts))  # noqa: B023
        machine.clear()
    print("\n".join(run.wrong))
    print(f"{len(WIDENERS)} named files: {dict(named)}; {failed} failed")
    print(f"{count} random files: {dict(run.count)}; {len(run.wrong)} wrong in all")
    needed = ("by the base", *(f"allowed, {way}" for way in WAYS))
    is_idle = count > 0 and not all(run.count[it] for it in needed)
    return 1 if run.wrong or failed or is_idle else 0


if __name__ == "__main__":
    if sys.argv[1:2] == ["--inside"]:
        sys.exit(inside(*map(int, sys.argv[2:])))
    if os.geteuid() != 0:
        sys.exit("this needs root: sudo -l answers for another user only to root")
    again = [sys.executable, os.path.abspath(__file__), "--inside", *sys.argv[1:]]
    words = [desk.tool("unshare"), "--mount", "--uts", "--propagation", "private", *again]
    sys.exit(subprocess.run(words, check=False).returncode)
