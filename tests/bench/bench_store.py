#!/usr/bin/env python3
"""Times a desk over a file, beside C SQLite and beside the reading of its messages.

C SQLite is Python's `sqlite3`: it makes the same tables and takes 10,000 messages by the same
statements and the same commits, one a message, with the desk's journal mode (`wal`) and
synchronous level (`full`), on the same disk, in rounds of 2,000 that alternate with those of
`desk deliver`. Beside both stands `fdatasync` alone, as often, each after a block of 4,096 bytes;
and `deliver` to memory, which is what the desk does beside keeping.

Then, over files in memory so that no disk is asked:

- what a delivery costs over 1,000, over 100,000 and over 1,000,000 messages: 10,000 more, which
  are given once the file is open, so that the opening is not counted;
- opening 100,000 messages (`deliver` of no line), beside what it costs to read them alone
  (`deliver` of them over a roster that lists nobody, which keeps none); and the memory of that
  opening, less what a desk without messages takes;
- `rebuild` of 100,000 messages with another roster, beside opening them;
- the first question over a file of 8,000 grants, beside a later one and the reading of its rows;
- a POST of a message to a desk in memory.

What is counted in instructions (valgrind's callgrind, where it is there) does not depend on the
machine's load; the rest is the least processor time of a few runs. Prints each figure, and the
ratios with what the desk promises; the status is 1 where one does not hold. `python3 -m
tests.bench.bench_store WORDS..` runs another program than build/desk.
"""

import json
import os
import re
import shutil
import sqlite3
import subprocess
import sys
import tempfile
import time
from collections.abc import Callable, Sequence
from typing import NamedTuple

from tests.common import desk, store_files

DELIVERED, HELD, MORE, GRANTS, RUNS, ROUNDS = 10_000, 100_000, 10_000, 8_000, 3, 5
SIZES = (1_000, 100_000, 1_000_000)
POSTS = (500, 1_500)
# The rows, by the library, and the texts of the requests. What stands between is inlined.
READS = ("*sqlite*Connection*query_near*", "*messages*MessageReader*read*")
NOBODY = 'relays = ["chat"]\nhosts = ["db1"]\nduties = []\nconflicts = []\n[people]\n[ceilings]\n'
ASKED = desk.asked(b"GET", b"/v1/grants/20260105093000Z")
NOWHERE = desk.asked(b"GET", b"/none")


class Cost(NamedTuple):
    """Seconds of wall time, and seconds of processor time."""

    wall: float
    busy: float


def bodies(first: int, count: int) -> list[str]:
    """So many messages: a request, and an approval of it."""
    return [
        desk.approval(no // 2) if no % 2 else desk.request(no // 2)
        for no in range(first, first + count)
    ]


def lines_of(messages: list[str]) -> str:
    return "".join(message + "\n" for message in messages)


def delivering(store: str, roster: str = desk.ROSTER) -> list[str]:
    """The words of a delivery."""
    return [*desk.named(), "deliver", roster, desk.BASE, store, "chat"]


def ended(process: subprocess.Popen[bytes], begun: float, status: int) -> Cost:
    """What a process took, which ends with this status."""
    _, how, used = os.wait4(process.pid, 0)
    wall = time.perf_counter() - begun
    process.returncode = os.waitstatus_to_exitcode(how)
    if process.returncode != status:
        sys.exit(f"bench_store: {process.args!r} ends with {process.returncode}")
    return Cost(wall, used.ru_utime + used.ru_stime)


def run(words: Sequence[str], given: str = os.devnull, status: int = 0) -> Cost:
    """What a run takes, over a file's input."""
    with open(given, "rb") as source:
        begun = time.perf_counter()
        process = subprocess.Popen(words, stdin=source, stdout=subprocess.DEVNULL)
        return ended(process, begun, status)


def best(measure: Callable[[], Cost]) -> Cost:
    """The least times of a few runs."""
    runs = [measure() for _ in range(RUNS)]
    return Cost(*(min(cost[n] for cost in runs) for n in (0, 1)))


def judged(what: str, ratio: float, most: float) -> bool:
    """Prints a figure beside the promised one; returns whether it is more."""
    holds = ratio <= most
    print(f"{what}: {ratio:,.2f}, at most {most:,g}: {'holds' if holds else 'FAILS'}", flush=True)
    return not holds


# ---- a disk


def take_in(conn: sqlite3.Connection, body: str) -> None:
    """A message that comes to the tables, by the desk's statements, in one commit."""
    it = json.loads(body)
    name = (it["by"], it["no"]) if it["kind"] == "request" else (it["of"], it["no"])
    conn.execute("BEGIN")
    if not conn.execute("SELECT body FROM messages WHERE body = ?", (body,)).fetchall():
        conn.execute("INSERT INTO messages (body) VALUES (?)", (body,))
        asked = conn.execute("SELECT body FROM names WHERE asker = ? AND no = ?", name).fetchall()
        if it["kind"] == "request":
            conn.execute("DELETE FROM names WHERE asker = ? AND no = ?", name)
            conn.execute("INSERT INTO names VALUES (?, ?, ?, ?)", (*name, body, len(asked)))
            conn.execute("SELECT body FROM parked WHERE asker = ? AND no = ?", name).fetchall()
            conn.execute("DELETE FROM parked WHERE asker = ? AND no = ?", name)
        elif asked:
            row = (*name, it["by"], it["kind"], store_files.seconds(it["at"]))
            conn.execute("INSERT INTO verdicts VALUES (?, ?, ?, ?, ?)", row)
        else:
            conn.execute("INSERT INTO parked VALUES (?, ?, ?)", (body, *name))
    conn.execute("COMMIT")


def by_sqlite(folder: str, messages: list[str]) -> float:
    """The same commits by C SQLite: seconds of wall time."""
    store = os.path.join(folder, "sqlite.db")
    begun = time.perf_counter()
    with store_files.connected(store) as conn:
        conn.execute("PRAGMA journal_mode = wal")
        conn.execute("PRAGMA synchronous = full")
        for table in store_files.TABLES[2]:
            conn.execute(store_files.definition(table))
        for message in messages:
            take_in(conn, message)
    return time.perf_counter() - begun


def by_disk(folder: str, count: int) -> float:
    """`fdatasync` alone: seconds of wall time."""
    begun = time.perf_counter()
    with open(os.path.join(folder, "blocks"), "wb", buffering=0) as file:
        for _ in range(count):
            file.write(bytes(4096))
            os.fdatasync(file.fileno())
    return time.perf_counter() - begun


def on_disk() -> int:
    """Deliveries to a disk, in rounds, each beside the same commits by C SQLite, so that what the
    disk does meanwhile falls on both; 1 where they do not hold."""
    costs, theirs, synced = [], [], []
    with tempfile.TemporaryDirectory(dir=desk.BUILD) as folder:
        for turn in range(ROUNDS):
            messages = bodies(turn * DELIVERED // ROUNDS, DELIVERED // ROUNDS)
            place = os.path.join(folder, str(turn))
            os.mkdir(place)
            given = desk.write(place, "given", lines_of(messages))
            costs.append(run(delivering(os.path.join(place, "desk.db")), given))
            theirs.append(by_sqlite(place, messages))
            synced.append(by_disk(place, len(messages)))
        given = desk.write(folder, "given", lines_of(bodies(0, DELIVERED)))
        alone = run(delivering("-"), given)
    walls = [cost.wall for cost in costs]
    print(
        f"deliver of {DELIVERED:,} messages to files, {ROUNDS} rounds: {sum(walls):.2f} s, of which"
        f" {sum(cost.busy for cost in costs):.2f} s of the processor"
    )
    print(
        f"C SQLite {sqlite3.sqlite_version}, the same commits: {sum(theirs):.2f} s; fdatasync"
        f" alone: {sum(synced):.2f} s; deliver to memory: {alone.wall:.2f} s"
    )
    each = ", ".join(f"{ours / other:.2f}" for ours, other in zip(walls, theirs))
    print(f"of each round: {each}")
    return judged("deliver to a file, beside C SQLite", sum(walls) / sum(theirs), 1.2)


# ---- files in memory


def held(folder: str, count: int) -> str:
    """The file of a desk with so many messages."""
    store = os.path.join(folder, f"held{count}.db")
    if not os.path.exists(store):
        store_files.make_desk(store, desk.read(desk.ROSTER), bodies(0, count))
    return store


def copy_of(store: str) -> str:
    """Another file of the same desk, in place of the one before."""
    copy = os.path.join(os.path.dirname(store), "copy.db")
    for end in ("", "-wal"):
        if os.path.exists(copy + end):
            os.unlink(copy + end)
    shutil.copy(store, copy)
    return copy


def used_by(pid: int) -> int:
    """The nanoseconds of the processor that a process has used."""
    with open(f"/proc/{pid}/schedstat", encoding="ascii") as file:
        return int(file.read().split()[0])


def opened_by(process: subprocess.Popen[bytes]) -> int:
    """Waits until a desk is open: it reads its input then, and uses no more of the processor. The
    nanoseconds that it used."""
    before, idle = -1, 0
    while idle < 5:
        time.sleep(0.05)
        now = used_by(process.pid)
        idle, before = (idle + 1 if now == before else 0), now
    return before


def once_open(store: str, messages: list[str]) -> tuple[Cost, int]:
    """What it takes to deliver messages to a desk that is open, and the most memory, in bytes, that
    it had once it was open."""
    process = subprocess.Popen(
        delivering(store), stdin=subprocess.PIPE, stdout=subprocess.DEVNULL
    )
    assert process.stdin is not None
    before = opened_by(process)
    peak = desk.memory_of(process.pid)[1] * 1024
    begun = time.perf_counter()
    process.stdin.write(lines_of(messages).encode())
    process.stdin.close()
    cost = ended(process, begun, 0)
    return cost._replace(busy=cost.busy - before / 1e9), peak


def deliveries(folder: str) -> int:
    """What a delivery costs by how many messages are held; how many rows do not hold."""
    each = {}
    for count in SIZES:
        store = held(folder, count)
        cost = best(lambda: once_open(copy_of(store), bodies(count, MORE))[0])
        each[count] = cost.busy / MORE
        print(f"a delivery over {count:,} messages: {each[count] * 1e6:.0f} us", flush=True)
        if count > HELD:
            os.unlink(store)
    # the tree of the messages' texts has a level more
    return sum(
        judged(f"a delivery over {more:,} messages, beside {less:,}", each[more] / each[less], 1.2)
        for less, more in ((SIZES[0], SIZES[1]), (SIZES[0], SIZES[2]))
    )


def opening(folder: str) -> int:
    """Openings beside reading alone, and `rebuild` beside opening; how many rows do not hold."""
    nobody = desk.write(folder, "nobody.toml", NOBODY)
    given = desk.write(folder, "given", lines_of(bodies(0, HELD)))
    store = held(folder, HELD)
    reading, opens = delivering("-", nobody), delivering(store)
    read, opened = best(lambda: run(reading, given, 2)), best(lambda: run(opens))
    _, peak = once_open(store, [])
    _, least = once_open(held(folder, 0), [])
    print(f"reading {HELD:,} messages alone: {read.busy:.3f} s")
    print(
        f"opening a file of them: {opened.busy:.3f} s, {peak / 2**20:.0f} MiB, of which"
        f" {least / 2**20:.0f} for a desk without messages"
    )
    counts = [
        desk.instructions(opens),
        desk.instructions(reading, given),
        desk.instructions(opens, inside="*store_opening*look_within*"),
    ]
    if 0 in counts:
        ratio = opened.busy / read.busy
    else:
        ratio = counts[0] / counts[1]
        print(
            f"in millions of instructions: opening {counts[0] / 1e6:,.0f}, of which the desk"
            f" {counts[2] / 1e6:,.0f} and the library that opens the database the rest; reading"
            f" {counts[1] / 1e6:,.0f}"
        )
    wrong = judged(f"opening {HELD:,} messages, beside reading them", ratio, 2)
    wrong += judged("opening, bytes of memory a message", (peak - least) / HELD, 1_000)
    other = desk.write(folder, "other.toml", desk.read(desk.ROSTER) + "# another roster\n")
    rebuilt = best(
        lambda: run([*desk.named(), "rebuild", other, desk.BASE, copy_of(store)])
    )
    print(f"rebuild of {HELD:,} messages: {rebuilt.busy:.3f} s")
    return wrong + judged(
        f"rebuild of {HELD:,} messages, beside opening them", rebuilt.busy / opened.busy, 6
    )


def served(store: str, requests: list[bytes], inside: str = "") -> int:
    """The instructions of a server that answers these requests, one a connection; or those of the
    functions alone that this pattern names."""
    words = desk.counting(inside)
    with desk.Server(
        store,
        "--requests",
        str(len(requests)),
        program=desk.named(),
        before=words,
        stderr=subprocess.PIPE,
    ) as server:
        for given in requests:
            with server.connect(seconds=600) as peer:
                peer.sendall(given)
                desk.received(peer)
        said = server.error.read().decode()
        server.wait(600)
    counted = re.search(r"Collected : (\d+)", said)
    return int(counted[1]) if counted else 0


def questions(folder: str) -> int:
    """The first question over a file beside a later one; 1 where that does not hold.

    The rows are read by functions that open the store too, so what these cost before a question is
    taken off.
    """
    if not desk.found("valgrind"):
        return 0
    store = held(folder, 2 * GRANTS)
    none, one, two = (served(store, asked) for asked in ([NOWHERE], [ASKED], [ASKED, ASKED]))
    read = [served(store, [ASKED], name) - served(store, [NOWHERE], name) for name in READS]
    if min(none, one, two, *read) <= 0:
        print("the first question: valgrind found no such function: FAILS")
        return 1
    first, later, rows = one - none, two - one, sum(read)
    print(
        f"in millions of instructions, over {GRANTS:,} grants: the first question"
        f" {first / 1e6:,.0f}, a later one {later / 1e6:,.0f}, the reading of the rows"
        f" {rows / 1e6:,.0f}"
    )
    return judged(
        "the first question, beside a later one and the rows", first / (later + rows), 1.5
    )


def posts() -> None:
    """What a POST of a new message costs, beside a delivery of it, in memory."""
    if not desk.found("valgrind"):
        return
    counts = [
        served("-", [desk.posted(b"chat", body.encode()) for body in bodies(0, count)])
        for count in POSTS
    ]
    print(f"a POST: {(counts[1] - counts[0]) / (POSTS[1] - POSTS[0]):,.0f} instructions")
    with tempfile.TemporaryDirectory() as folder:
        counts = [
            desk.instructions(
                delivering("-"), desk.write(folder, "given", lines_of(bodies(0, count)))
            )
            for count in POSTS
        ]
    print(f"a delivery: {(counts[1] - counts[0]) / (POSTS[1] - POSTS[0]):,.0f} instructions")


def main() -> int:
    wrong = on_disk()
    posts()
    with tempfile.TemporaryDirectory(dir=desk.MEMORY) as folder:
        wrong += questions(folder) + opening(folder) + deliveries(folder)
    return 1 if wrong else 0


if __name__ == "__main__":
    sys.exit(main())
