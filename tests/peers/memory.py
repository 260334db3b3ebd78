#!/usr/bin/env python3
"""The memory that the desk's unit gets: it follows the messages of the store at each start, and the
log of the desk warns where they may need half of it. The desk itself may have all of that but a
rest: so it answers K5, and goes on, before the kernel would kill it, also in a real control group.

`python3 -m tests.peers.memory WORDS..` runs another program than build/desk. As root it also looks
at who reads the store.
"""

import contextlib
import os
import signal
import sqlite3
import subprocess
import sys
import tempfile
from collections.abc import Iterator
from typing import NamedTuple

from steelnewt_client.desk import Desk, Silent
from tests.common import desk

Row = tuple[str, bool, str]
MEMORY = os.path.join(desk.ROOT, "packaging", "desk-memory")
SERVE = os.path.join(desk.ROOT, "packaging", "desk-serve")
A_UNIT = 1 << 20
MACHINE = os.sysconf("SC_PHYS_PAGES") * os.sysconf("SC_PAGE_SIZE")
MOST = MACHINE // 10 * 9
# systemd, as far as a unit's MemoryMax goes: what it is, and what it is set to
SYSTEMCTL = """#!/bin/bash
case $1 in
    show) cat "$ROOM/has" ;;
    set-property) echo "${*:2}" > "$ROOM/set" ;;
esac
"""
# what a unit needs beside its desk, and what a limit leaves of a desk that is served
REST, ROOM, MANY = 64 << 20, 3 << 20, 20_000
# a program that says what it may have
FAKE = """#!/bin/bash
case $1 in
    --version) echo "$SAID" ;;
    serve)
        ulimit -S -d > "$ROOM/limit"
        echo "listening $5"
        exec sleep 600 ;;
esac
"""
HOSTILE = "CREATE VIEW messages AS SELECT 'x' AS body WHERE edit('x', 'touch {room}/ran #') <> '';"


def filled(path: str, count: int) -> None:
    """A store whose table of messages has so many rows."""
    with sqlite3.connect(path) as base:
        base.execute("CREATE TABLE messages (body TEXT PRIMARY KEY NOT NULL) STRICT")
        base.executemany("INSERT INTO messages VALUES (?)", ((str(it),) for it in range(count)))
    base.close()


def given(room: str, has: str, store: str) -> tuple[str, str]:
    """What a unit that has so much memory is set to, and what the log says."""
    desk.write(room, "has", f"{has}\n")
    if os.path.exists(f"{room}/set"):
        os.unlink(f"{room}/set")
    held = {"PATH": f"{room}/bin:{os.environ['PATH']}", "ROOM": room, "STORE": store}
    held |= {"ACCOUNT": "nobody" if os.geteuid() == 0 else str(os.getuid())}
    ran = subprocess.run(
        [MEMORY, "desk.service"],
        env=os.environ | held,
        stdout=subprocess.PIPE,
        stderr=subprocess.STDOUT,
        text=True,
        check=False,
    )
    return desk.read(room, "set") if os.path.exists(f"{room}/set") else "", ran.stdout


def follows(room: str) -> Iterator[Row]:
    """2 KiB a message, four times over; no less than the unit has, and no more than there is."""
    store = f"{room}/store/desk.db"
    count = 2_000
    filled(store, count)
    own(room)
    wants = min(count * 2048 * 4, MOST)
    for what, has, said in (
        ("the unit's own", str(A_UNIT), f"--runtime -- desk.service MemoryMax={wants}\n"),
        ("somebody's who wants more", str(wants + 1), ""),
        ("as much", str(wants), ""),
        ("no limit", "infinity", ""),
    ):
        found, told = given(room, has, store)
        yield f"{what}", found == said, f"{found!r}: {told}"
    for what, path in (("no store", "-"), ("a new one", f"{room}/store/none.db")):
        found, told = given(room, str(A_UNIT), path)
        yield what, (found, told) == ("", ""), f"{found!r}: {told}"
    found, told = given(room, "1", store)
    yield "a small unit", found.endswith(f"={wants}\n"), f"{found!r}: {told}"


def unread(room: str) -> Iterator[Row]:
    """What is not surely a number of messages changes nothing, and says so."""
    hostile = f"{room}/store/hostile.db"
    with sqlite3.connect(hostile) as base:
        base.executescript(HOSTILE.format(room=room))
    base.close()
    desk.write(f"{room}/store", "junk.db", os.urandom(8192))
    own(room)
    os.chmod(room, 0o777)
    for name in ("hostile", "junk"):
        found, told = given(room, str(A_UNIT), f"{room}/store/{name}.db")
        is_said = "cannot be counted: desk.service keeps its MemoryMax" in told
        yield f"{name}", found == "" and is_said, f"{found!r}: {told}"
    ran = os.path.exists(f"{room}/ran")
    yield "what somebody wrote into it is not run", not ran, str(os.listdir(room))
    if os.geteuid() == 0:
        os.chown(f"{room}/store/desk.db", 0, 0)
        os.chmod(f"{room}/store/desk.db", 0o600)
        found, told = given(room, str(A_UNIT), f"{room}/store/desk.db")
        yield "it is read as its account", "cannot be counted" in told, f"{found!r}: {told}"


def own(room: str) -> None:
    """The store is another account's, as that of the service is."""
    if os.geteuid() == 0:
        subprocess.run(["chown", "-R", "nobody", f"{room}/store"], check=True)


def warned(room: str) -> Iterator[Row]:
    """The log of a desk over two messages, each of which would need so much."""
    roster, base = desk.write(room, "roster.toml", desk.read(desk.ROSTER)), desk.read(desk.BASE)
    base = desk.write(room, "base.sudo", base)
    store = f"{room}/served.db"
    told = f"{desk.request()}\n{desk.approval()}\n"
    program = desk.named()
    desk.run([*program, "deliver", roster, base, store, "chat"], told)
    words = {"ROSTER": roster, "BASE": base, "STORE": store, "ADDR": f"unix:{room}/desk.sock"}
    for a_message, is_said in ((MACHINE // 4 + 4096, True), (1024, False)):
        held = words | {"DESK": program[0], "A_MESSAGE": str(a_message)}
        job = subprocess.Popen(
            [SERVE],
            env=os.environ | held,
            stdout=subprocess.PIPE,
            stderr=subprocess.STDOUT,
            text=True,
        )
        assert job.stdout is not None
        lines = []
        for line in job.stdout:
            lines.append(line)
            if line.startswith("desk: serving 2 messages"):
                job.terminate()
        job.wait()
        warning = [it for it in lines if "WARNING: 2 messages may need" in it and "desk-cut" in it]
        yield f"{a_message} bytes a message", bool(warning) == is_said, "".join(lines)


def most_data() -> int:
    """What the desk itself may have here, in KiB."""
    memory = MACHINE // 10 * 9
    with open("/proc/self/cgroup", encoding="ascii") as file:
        own = next((it[3:].strip() for it in file if it.startswith("0::")), "")
    path = f"/sys/fs/cgroup{own}/memory.max"
    limit = desk.read(path).strip() if os.path.exists(path) else ""
    return (min(memory, int(limit) if limit.isdecimal() else memory) - REST) // 1024


def limited(room: str) -> Iterator[Row]:
    """A proved desk may have so much; one that is not proved has checks that ask for more."""
    os.chmod(desk.write(f"{room}/bin", "desk", FAKE), 0o755)
    roster, base = (desk.write(room, f"{it}.text", "") for it in ("roster", "base"))
    words = {"ROSTER": roster, "BASE": base, "STORE": f"{room}/none/desk.db", "ROOM": room}
    words |= {"ADDR": f"unix:{room}/fake.sock", "DESK": f"{room}/bin/desk"}
    os.mkdir(f"{room}/none")
    for said, wanted in (("desk 1.0", f"{most_data()}\n"), ("NOT PROVED", "unlimited\n")):
        job = subprocess.Popen(
            [SERVE], env=os.environ | words | {"SAID": said}, stdout=subprocess.PIPE, text=True
        )
        assert job.stdout is not None
        lines = []
        for line in job.stdout:
            lines.append(line)
            if "listening at" in line:
                job.terminate()
        job.wait()
        found = desk.read(room, "limit")
        yield f"the limit of {said}", found == wanted, f"{found!r} {wanted!r} {''.join(lines)}"


def answers(room: str) -> Iterator[Row]:
    """A desk whose limit is reached answers K5, and then goes on. (The checks of one that is not
    proved ask for more memory than there is, and end it: that is tried with a proved one alone.)"""
    program = desk.named()
    if "NOT PROVED" in desk.run([*program, "--version"]).stdout:
        print("the program is not proved: that it answers K5 at its limit is not tried")
        return
    files = [f"{room}/roster.toml", f"{room}/base.sudo", f"{room}/many.db"]
    told = "".join(f"{desk.approval(number)}\n" for number in range(1, MANY + 1))
    desk.run([*program, "deliver", *files, "chat"], told)
    address = f"unix:{room}/many.sock"
    with subprocess.Popen([*program, "serve", *files, address], stdout=subprocess.PIPE) as job:
        assert job.stdout is not None
        job.stdout.readline()
        peer = Desk(address)
        limit = data_of(job.pid) + ROOM
        subprocess.run(["prlimit", "--pid", str(job.pid), f"--data={limit}"], check=True)
        for what, route, wanted in (
            ("all messages", "/v1/messages", (503, "K5 NoMemory\n")),
            ("its count", "/v1/count", (200, f"{MANY} ")),
        ):
            found = peer.exchange("GET", route)
            is_right = found.status == wanted[0] and found.text.startswith(wanted[1])
            yield f"past the limit: {what}", is_right, f"{found.status} {found.text[:80]}"
        job.terminate()


# where the kernel has control groups for memory, and the file of a group's limit
GROUPS = (
    ("/sys/fs/cgroup", "memory.max"),
    ("/sys/fs/cgroup/memory", "memory.limit_in_bytes"),
)
INTO = 'echo $$ > "$1/cgroup.procs" && shift && exec "$@"'


class Group(NamedTuple):
    """A control group for memory: its folder, and the file of its limit."""

    folder: str
    limit: str

    def may_have(self, size: int) -> None:
        desk.write(self.folder, self.limit, str(size))


def made_group() -> Group | None:
    """A group of this test's own; nothing where this account, or this machine, makes none."""
    for top, limit in GROUPS:
        folder = f"{top}/desk-memory-{os.getpid()}"
        with contextlib.suppress(OSError):
            os.mkdir(folder)
            if os.path.exists(f"{folder}/{limit}"):
                return Group(folder, limit)
            os.rmdir(folder)
    return None


def before_the_kernel(room: str) -> Iterator[Row]:
    """In a group of the kernel's that has what its desk may have and the rest, as the unit has, the
    desk answers K5 and goes on: the kernel does not end it."""
    program = desk.named()
    if "NOT PROVED" in desk.run([*program, "--version"]).stdout:
        return
    files = [f"{room}/roster.toml", f"{room}/base.sudo", f"{room}/many.db"]
    unit = made_group()
    if unit is None:
        print("no control group can be made: that the kernel kills nothing is not tried")
        return
    address = f"unix:{room}/unit.sock"
    words = ["sh", "-c", INTO, "sh", unit.folder, *program, "serve", *files, address]
    with subprocess.Popen(words, stdout=subprocess.PIPE) as job:
        assert job.stdout is not None
        job.stdout.readline()
        found = asked_within(job, unit, Desk(address))
        yield "in a group of the kernel's", found == [503, 200, -signal.SIGTERM], f"{found}"
    os.rmdir(unit.folder)


def asked_within(job: subprocess.Popen[bytes], unit: Group, peer: Desk) -> list[int]:
    """The statuses of a question for all messages and of one behind it, and how the desk ended."""
    limit = data_of(job.pid) + ROOM
    subprocess.run(["prlimit", "--pid", str(job.pid), f"--data={limit}"], check=True)
    unit.may_have(limit + REST)
    found = []
    for route in ("/v1/messages", "/v1/count"):
        try:
            found.append(peer.exchange("GET", route).status)
        except Silent:
            found.append(0)
    job.terminate()
    return [*found, job.wait()]


def data_of(process: int) -> int:
    """The memory that a process has asked for, in bytes."""
    status = desk.read(f"/proc/{process}/status")
    return 1024 * int(next(it.split()[1] for it in status.splitlines() if "VmData" in it))


def main() -> None:
    checks, wrong = 0, 0
    with tempfile.TemporaryDirectory() as room:
        os.chmod(room, 0o755)
        for name in ("bin", "store"):
            os.mkdir(f"{room}/{name}")
        os.chmod(desk.write(f"{room}/bin", "systemctl", SYSTEMCTL), 0o755)
        for part in (follows, unread, warned, limited, answers, before_the_kernel):
            for what, is_right, said in part(room):
                checks += 1
                if not is_right:
                    wrong += 1
                    print(f"{what}: otherwise. {said}")
    print(f"the memory of the unit: {checks} checks, {wrong} wrong")
    sys.exit(1 if wrong else 0)


if __name__ == "__main__":
    main()
