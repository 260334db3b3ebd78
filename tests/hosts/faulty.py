"""What desk-host makes of records, clocks, folders and control groups that are not as they have to
be: each is a line of the log, `check` names it, and nothing counts as allowed by it. For hosts.py.
"""

from __future__ import annotations

import contextlib
import os
import re
import subprocess
from collections.abc import Callable, Iterator

from pexpect import TIMEOUT

from tests.common.replies import desk_of
from tests.hosts.fetch import GOOD, MORE, begin, serving
from tests.hosts.plugged import nothing_is_kept
from tests.hosts.prompt import Terminal, line, sudos
from tests.hosts.root import CHANGED, GROUPS, STARTS, Host
from tests.hosts.sessions import ended, processes, stop, there

RUN = "/run/desk-host"
HOUR = 3600


def look(host: Host, **more: str) -> str:
    """What a look says, and then `check`, each line of both."""
    host.conf("http://127.0.0.1:1", **{"GRACE": "1", "PROMPT": "60"} | more)
    return host.run("desk-host", "end-sessions").stdout


def checked(host: Host) -> str:
    return host.run("desk-host", "check").stdout


def record_of(host: Host, mark: str) -> str:
    """The path of the record of the sudo that runs such a command."""
    for name in os.listdir(host.path(STARTS)):
        with open(host.path(f"{STARTS}/{name}"), "rb") as file:
            if f"\0word={mark}\0".encode() in file.read():
                return host.path(f"{STARTS}/{name}")
    raise LookupError(f"no record names {mark}")


def start_of(host: Host, pid: int) -> int:
    """When a process was started, in the kernel's ticks."""
    return int(host.read(f"/proc/{pid}/stat").rpartition(") ")[2].split()[19])


# What becomes of a record: its name, what is made of its bytes and of another's, and what is told.
DAMAGES: list[tuple[str, str, Callable[[bytes, bytes], bytes], str]] = [
    ("its end is cut off", "7701", lambda own, _: own[:-3], "its record was cut off"),
    ("half of it", "7702", lambda own, _: own[: own.index(b"word=")], "its record was cut off"),
    ("another's", "7703", lambda _, other: other, "its record is of another start"),
    ("it is too long", "7704", lambda own, _: own * 20000, "its record is gone, or too long"),
    ("it stands there twice", "7706", lambda own, _: own * 2, "its record was cut off, or put"),
    ("it is empty", "7705", lambda own, _: b"", "its record is of another start"),
]


def damaged(host: Host) -> None:
    """Whatever stands in a record that sudo did not write so, what it is of is not allowed by it,
    though the same command is."""
    if not host.is_fit or not host.has_groups:
        return
    host.put("password", "Defaults:ann,bob !authenticate\n")
    host.put("desk", line("ann", HOUR, "ALL") + line("bob", HOUR, "ALL"))
    with contextlib.ExitStack() as stack:
        stack.enter_context(Terminal(host, "bob")).send("sudo sleep 7709")
        host.check("bob's runs", there(host, "7709"))
        with open(record_of(host, "7709"), "rb") as file:
            other = file.read()
        for what, mark, made, _ in DAMAGES:
            stack.enter_context(Terminal(host, "ann")).send(f"sudo sleep {mark}")
            host.check(f"{what}: it runs", there(host, mark))
            path = record_of(host, mark)
            with open(path, "rb") as file:
                own = file.read()
            with open(path, "wb") as file:
                file.write(made(own, other))
        said, found = look(host, UNJUDGED="warn"), checked(host)
        for what, mark, _, why in DAMAGES:
            is_right = said.count(why) >= 1 and why in found and there(host, mark, seconds=0)
            host.check(f"{what}: it is told of", is_right, f"{said} {found}")
        told = len(re.findall("cannot be judged, and is left alone: its record ", said))
        host.check("each is a line", told == len(DAMAGES) == len(said.splitlines()), said)
        named = found.count("\ndesk-host: it cannot be judged: ")
        named += found.startswith("desk-host: it cannot be judged: ")
        host.check("check names each", named == len(DAMAGES), found)
        again = look(host, UNJUDGED="warn")
        host.check("each is told of once", not again, again)
        said = look(host)
        for what, mark, _, _ in DAMAGES:
            host.check(f"{what}: it is ended", there(host, mark, False, 20), said)
        host.check("bob's goes on", there(host, "7709", seconds=0), said)
        found = checked(host)
        host.check("check names none any longer", "cannot be judged" not in found, found)
        stop(host, "7709")
    host.drop("password")
    nothing_is_kept(host)


def foreign(host: Host) -> None:
    """A record names a process or a group that is none of its sudo's: nothing of that ends."""
    if not host.is_fit or not host.has_groups:
        return
    host.put("password", "Defaults:ann !authenticate\n")
    host.put("desk", line("ann", HOUR, "ALL"))
    other = f"{host.group}/other"
    with Terminal(host, "ann") as first, Terminal(host, "bob") as second:
        second.send("sleep 7711")
        first.send("sudo sleep 7712")
        host.check("both run", there(host, "7711") and there(host, "7712"))
        (pid,) = processes(host, "7711")
        path, start = record_of(host, "7712"), start_of(host, pid)
        with open(path, encoding="ascii") as file:
            own = file.read()
        name = os.path.basename(path)
        for what, odd, says in (
            ("a number that is used again", f"{pid}-{start - 1}", "^$"),
            ("a process that is no sudo", f"{pid}-{start}", f"^desk-host: .*/{pid}-{start} names "),
        ):
            host.write(f"{STARTS}/{odd}", own.replace(name, odd))
            said = host.does(what, "desk-host", "end-sessions", says=says)
            is_gone = not os.path.exists(host.path(f"{STARTS}/{odd}"))
            is_left = there(host, "7711", seconds=0) and there(host, "7712", seconds=0)
            host.check(f"{what} is cleared, and nothing ends", is_gone and is_left, said)
        os.mkdir(host.path(other))
        with open(host.path(f"{other}/cgroup.procs"), "w", encoding="ascii") as group:
            group.write(str(pid))
        host.write(path.removeprefix(host.root), re.sub("cgroup=[^\0]*", f"cgroup={other}", own))
        said = look(host)
        is_right = there(host, "7712", False, 20) and there(host, "7711", seconds=0)
        host.check("a group of another's: it is left", is_right, said)
        host.check("it is told", "its record is of another start" in said, said)
        stop(host, "7711")
    os.rmdir(host.path(other))
    host.drop("password")
    nothing_is_kept(host)


def another_start(host: Host) -> None:
    """What /run kept over a restart is told of, and goes: it keeps nobody from sudo."""
    if not host.is_fit:
        return
    host.put("password", "Defaults:ann !authenticate\n")
    host.put("desk", line("ann", HOUR, "/usr/bin/true"))
    look(host)
    host.write(f"{RUN}/boot", "00000000-0000-0000-0000-000000000000\n")
    host.write(CHANGED, "99999999.5\n")
    host.write(f"{RUN}/looked", "99999999.5\n")
    host.write(f"{STARTS}/99999-77", "form=1\0name=99999-77\0user=ann\0end=true\0")
    ran = host.as_user("ann", "sudo", "-n", "true")
    host.check("sudo starts nothing before a look", ran.returncode == 1, ran.stdout)
    says = f"{RUN} is of another start of this machine: mount a tmpfs on /run"
    found = checked(host)
    host.check("check says so", f"desk-host: {says}" in found.splitlines(), found)
    said = look(host)
    host.check("a look says so", said.splitlines() == [f"desk-host: {says}"], said)
    host.check("no record is left", not os.listdir(host.path(STARTS)))
    found = checked(host)
    is_right = says not in found and "end-sessions" not in found
    host.check("then it is as it has to be", is_right, found)
    ran = host.as_user("ann", "sudo", "-n", "true")
    host.check("and sudo starts it", ran.returncode == 0, ran.stdout)
    host.drop("password")


@contextlib.contextmanager
def mounted(host: Host, place: str, *words: str) -> Iterator[None]:
    """As long as the block lasts, something else is mounted there."""
    subprocess.run(["mount", *words, host.path(place)], check=True)
    try:
        yield
    finally:
        subprocess.run(["umount", "--lazy", host.path(place)], check=True)


SMALL = ("-t", "tmpfs", "-o", "size=64k,mode=0755", "tmpfs")
FILL = f"head -c 100000 /dev/zero > {RUN}/filled"


def fetched_full(host: Host) -> None:
    """Where /run is full, a revocation is fetched all the same, and so is the next one."""
    if not host.is_fit:
        return
    begin(host)
    os.makedirs(host.path(RUN), exist_ok=True)
    with mounted(host, RUN, *SMALL):
        host.run("sh", "-c", FILL)
        for messages, text in ((1, MORE), (2, GOOD)):
            with serving(host, desk_of(text, messages)):
                status, said = host.fetch()
            is_told = "/changed cannot be written: No space left on device" in said
            host.check("it is told of", is_told, said)
            host.check("a file is taken", (status, host.held()) == (0, text), f"{status}: {said}")


def full_run(host: Host) -> None:
    """Where /run is full, what has lost its right is ended all the same; and where nothing can be
    said, too."""
    if not host.is_fit or not host.has_groups:
        return
    host.put("password", "Defaults:ann !authenticate\n")
    for mark, to in (("7721", "/proc/self/fd/1"), ("7722", "/dev/full")):
        with mounted(host, RUN, *SMALL), Terminal(host, "ann") as terminal:
            host.put("desk", line("ann", HOUR, "ALL"))
            terminal.send(f"sudo sleep {mark}")
            host.check("it runs", there(host, mark))
            host.run("sh", "-c", FILL)
            host.put("desk", "")
            host.conf("http://127.0.0.1:1", GRACE="1")
            ran = host.run("sh", "-c", f"exec desk-host end-sessions 2> {to}")
            is_right = there(host, mark, False, 20) and ran.returncode != 0
            host.check("it is ended", is_right, f"{ran.returncode} {ran.stdout}")
            is_told = "cannot be written: No space left on device; free space in /run" in ran.stdout
            host.check("it is told of", is_told == (to != "/dev/full"), ran.stdout)
            found = checked(host)
            told = f"desk-host: {RUN} cannot be written to (No space left on device): sudo starts"
            host.check("check says so", told in found, found)
    host.drop("password")


def clock_back(host: Host) -> None:
    """A clock that went back over the end of a grant: what runs under it is not allowed by that."""
    if not host.is_fit:
        return
    host.put("password", "Defaults:ann,bob !authenticate\n")
    grant = line("ann", HOUR, "ALL")
    host.put("desk", grant + "bob ALL = (root) ALL\n")
    host.conf("http://127.0.0.1:1", GRACE="1")
    later = ("env", "FAKETIME_DONT_FAKE_MONOTONIC=1", "faketime", "-f", f"+{2 * HOUR}s")
    host.does("a look two hours later", *later, "desk-host", "end-sessions", says="^$")
    with Terminal(host, "ann") as first, Terminal(host, "bob") as second:
        first.send("sudo sleep 7731")
        second.send("sudo sleep 7732")
        host.check("both run", there(host, "7731") and there(host, "7732"))
        host.conf("http://127.0.0.1:1", GRACE="1")
        says = "ann's .* this host's clock went back by 7[0-9]{3} seconds, over the end of a grant"
        said = host.does("a look", "desk-host", "end-sessions", status=1, says=says)
        is_left = there(host, "7731", seconds=0) and there(host, "7732", seconds=0)
        host.check("it is left alone, and no other told of", is_left and "bob's" not in said, said)
        found = checked(host)
        is_named = re.search("desk-host: this host's clock went back by 7[0-9]{3} sec", found)
        host.check("check says so", is_named is not None, found)
        host.put("desk", "bob ALL = (root) ALL\n")
        host.conf("http://127.0.0.1:1", GRACE="8")
        with host.running("desk-host", "end-sessions"):
            is_warned = first.child.expect(["it is ended in 8 seconds", TIMEOUT], 60) == 0
            host.put("desk", grant + "bob ALL = (root) ALL\n")
            host.check("what was revoked is warned", is_warned)
        is_right = there(host, "7731", False, 20) and there(host, "7732", seconds=0)
        host.check("it is ended, though its window opens again", is_right)
        stop(host, "7732")
    host.drop(f"{RUN}/clock")
    said, found = ended(host), checked(host)
    host.check("without the note all is well", not said and "clock" not in found, said + found)
    host.drop("password")


def groups_gone(host: Host) -> None:
    """Where control groups are missing, or cannot be written to, sudo works, a look says so, and
    ends what it finds; `check` says so."""
    if not host.is_fit or not host.has_groups:
        return
    host.put("password", "Defaults:ann !authenticate\n")
    read_only = ("-o", "bind,ro", host.path(GROUPS))
    for mark, words, why in (
        ("7741", ("-t", "tmpfs", "tmpfs"), "this host has no control groups of version 2"),
        ("7742", read_only, f"{GROUPS} cannot be written to"),
    ):
        host.put("desk", line("ann", HOUR, "ALL"))
        with mounted(host, GROUPS, *words), Terminal(host, "ann") as terminal:
            terminal.send(f"sudo sleep {mark}")
            host.check("it runs", there(host, mark))
            said = look(host)
            told = f"has no control group ({why}): what leaves it is lost"
            host.check("a look says so", said.count(told) == len(said.splitlines()) == 1, said)
            said = look(host)
            host.check("once", not said, said)
            found = checked(host)
            host.check("check says so", f"{why}: what leaves its sudo is lost" in found, found)
            host.put("desk", "")
            said = look(host)
            host.check("it is ended", there(host, mark, False, 20) and "was ended" in said, said)
    host.check("no sudo is left", not sudos(host))
    host.drop("password")
    nothing_is_kept(host)


PARTS = (damaged, foreign, another_start, fetched_full, full_run, clock_back, groups_gone)
