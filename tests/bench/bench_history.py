#!/usr/bin/env python3
"""What a long history costs a desk that is asked for what is in force.

- **A host's file** of 20 live lines (`/v1/hosts/HOST/sudoers/MOMENT`) of a desk that holds these
  messages alone, and of one that holds a million others beside: a half of them of other hosts and
  live, a half of this host and of the past. A later question is counted, not one of the first: in
  some tens of those the C library's `malloc` sorts what the opening gave back, once.
- **A report** of 100 live grants alone, and beside 100,000 that have ended.
- **A message and the count after it** (`/v1/count`, which each host asks before its file) beside 40
  messages, and beside 4,000: the count is kept up to date, and not made anew.
- **Another roster** that an open desk takes, beside 40 messages, and beside 4,000: it is one row of
  the store. Beside a million, how long it takes; and beside 100,000 no question that comes
  meanwhile waits longer than a second.
- **What became of one request** (`/v1/requests/ASKER/NO`) beside 100,000 other messages, and the
  file of a host that has this request's grant alone, of the same desk.
- **An opening and the first file**: of 100,000 messages the instructions, beside what it costs to
  read the messages alone (`deliver` of them over a roster that lists nobody, which keeps none); and
  of a million messages the processor time, and the most memory, less what a desk without messages
  takes.
- **A cut** by desk-cut, where half of the messages have ended, beside such an opening: of 100,000
  messages in instructions, and of a million in time.

Instructions are counted by valgrind's callgrind: they do not depend on the machine's load. While
a desk opens a long history its instructions are not counted, so that this takes no quarter of an
hour, nor while it gives that back as it ends. A part whose tools are missing is left out, and said
to be. Each line that judges ends with `holds` or `FAILS`, and the status is 1 where one fails.

`python3 -m tests.bench.bench_history [--others N] [--ended N] [--opened N] [--counted N] WORDS..`;
WORDS run another program than build/desk, and the numbers are for smaller histories.
"""

import argparse
import hashlib
import os
import re
import subprocess
import sys
import tempfile
import threading
import time
from collections.abc import Iterator, Sequence

from tests.bench.bench_store import judged
from tests.common import desk, store_files

LIVE, GRANTS, TOLD = 20, 100, 4_000
TAKEN = 10  # how many rosters are taken while somebody asks
BEFORE = 300  # questions before the one that is counted
OTHERS, ENDED, OPENED, COUNTED = 1_000_000, 100_000, 1_000_000, 100_000
HOSTS = ["db1", *(f"web{n}" for n in range(40))]
ASKERS = [f"user{n}" for n in range(500)]
MOMENT = "20260105093000Z"
FILE = f"/v1/hosts/db1/sudoers/{MOMENT}".encode()
REQUEST = f"/v1/requests/{ASKERS[0]}/0".encode()
COUNT = b"/v1/count"
REPORT = f"/v1/reviews/{MOMENT}".encode()
# 0.65 of what it was while the first question read what the opening had read: 8.5 times
MOST_BESIDE_READING = 5.5
# a window that has ended before that moment
PAST = {"at": "20250105060000Z", "from": "20250105090000Z", "until": "20250105110000Z"}
PAST_APPROVAL = {"at": "20250105083000Z"}
NOBODY = 'relays = ["web"]\nhosts = ["db1"]\nduties = []\nconflicts = []\n[people]\n[ceilings]\n'


def roster() -> str:
    """Under which all may ask for what they ask for, and the boss may approve it."""
    people = {"boss": ["approve-db"]} | {name: ["operate-db"] for name in ASKERS}
    ceiling = desk.ceiling("db-care", hosts=HOSTS, commands=["/usr/bin/id"])
    return desk.roster(people, [ceiling], hosts=HOSTS)


def granted(first: int, count: int, host: str | None, is_past: bool = False) -> Iterator[str]:
    """So many messages, a request and its approval in turn, for one host or for the others."""
    for number in range(first, first + count // 2):
        asker = ASKERS[number % len(ASKERS)]
        hosts = [host or HOSTS[1 + number % (len(HOSTS) - 1)]]
        yield desk.request(number, by=asker, hosts=hosts, **(PAST if is_past else {}))
        more = PAST_APPROVAL if is_past else {}
        yield desk.approval(number, by="boss", of=asker, **more)


def others(count: int, first: int = 1_000_000) -> Iterator[str]:
    """Messages that give the host nothing after the moment."""
    yield from granted(first, count // 2, None)
    yield from granted(first + count, count // 2, "db1", is_past=True)


class Site:
    """The files of a roster and of a base, and stores of messages under them."""

    def __init__(self, folder: str, program: Sequence[str]) -> None:
        self.folder, self.program = folder, program
        self.roster = desk.write(folder, "roster.toml", roster())
        self.base = desk.write(folder, "base.sudo", "root ALL = (ALL) ALL\n")

    def store(self, name: str, *parts: Iterator[str]) -> str:
        path = os.path.join(self.folder, f"{name}.db")
        bodies = [body for part in parts for body in part]
        store_files.make_desk(path, desk.read(self.roster), bodies)
        return path

    def serving(
        self,
        store: str,
        *more: str,
        before: Sequence[str] = (),
        stderr: int = subprocess.DEVNULL,
        takes_orders: bool = False,
    ) -> desk.Server:
        return desk.Server(
            store, *more, program=self.program, roster=self.roster, base=self.base, before=before,
            stderr=stderr, takes_orders=takes_orders,
        )


def answer(server: desk.Server, target: bytes, patience: float = 3_600) -> bytes:
    """The body of the reply, which is not refused."""
    with server.connect(seconds=patience) as peer:
        peer.sendall(desk.asked(b"GET", target))
        head, _, body = desk.received(peer).partition(b"\r\n\r\n")
    if not head.startswith(b"HTTP/1.1 200 "):
        sys.exit(f"bench_history: {target!r}: {head[:80]!r}")
    return body


def collected(server: desk.Server) -> int:
    """What valgrind has counted of a desk that has ended by itself."""
    said = server.error.read().decode()
    server.wait(600)
    found = re.search(r"Collected : (\d+)", said)
    return int(found[1]) if found else 0


def later(site: Site, store: str, target: bytes) -> tuple[int, bytes]:
    """The instructions of a later question over a store, and its answer. (What a desk does as it
    ends, where it gives all its memory back, is not counted: one more question ends it.)"""
    before = [*desk.counting(), "--instr-atstart=no"]
    with site.serving(
        store, "--requests", str(BEFORE + 2), before=before, stderr=subprocess.PIPE
    ) as server:
        for _ in range(BEFORE):
            answer(server, target)
        count(server, "on")
        body = answer(server, target)
        count(server, "off")
        answer(server, target)
        return collected(server), body


def count(server: desk.Server, state: str) -> None:
    """Has valgrind count from here on, or no longer."""
    words = ["callgrind_control", f"--instr={state}", str(server.process.pid)]
    subprocess.run(
        words, check=True, stdout=subprocess.DEVNULL, stderr=subprocess.DEVNULL, timeout=600
    )


def from_start(site: Site, store: str, target: bytes) -> int:
    """The instructions of an opening and a first question."""
    with site.serving(
        store, "--requests", "1", before=desk.counting(), stderr=subprocess.PIPE
    ) as server:
        answer(server, target)
        return collected(server)


def beside(site: Site, what: str, target: bytes, most: float, few: str, many: str) -> bool:
    """A later question over two stores, which is answered alike."""
    (least, first), (all_of_it, second) = (later(site, store, target) for store in (few, many))
    if first != second:
        sys.exit(f"bench_history: {what}: the answers differ")
    print(f"{what}: {least:,} instructions alone, {all_of_it:,} beside the others")
    return judged(what, all_of_it / least, most)


def files(site: Site, count: int) -> bool:
    few = site.store("few", granted(0, 2 * LIVE, "db1"))
    many = site.store("many", granted(0, 2 * LIVE, "db1"), others(count))
    what = f"a host's file of {LIVE} live lines, beside {count:,} other messages"
    return beside(site, what, FILE, 1.5, few, many)


def reports(site: Site, count: int) -> bool:
    few = site.store("live", granted(0, 2 * GRANTS, "db1"))
    ended = granted(1_000_000, 2 * count, None, is_past=True)
    many = site.store("ended", granted(0, 2 * GRANTS, "db1"), ended)
    what = f"a report of {GRANTS} live grants, beside {count:,} that have ended"
    return beside(site, what, REPORT, 3.0, few, many)


def one_request(site: Site, count: int) -> bool:
    store = site.store("named", granted(0, 2, "db1"), granted(1_000_000, count, None))
    (file, _), (named, told) = (later(site, store, target) for target in (FILE, REQUEST))
    if f'"{ASKERS[0]}"'.encode() not in told:
        sys.exit(f"bench_history: one request: {told[:80]!r}")
    print(f"one request of {count:,} messages: {named:,} instructions, its host's file {file:,}")
    return judged(f"one request of {count:,} messages, beside its host's file", named / file, 1.0)


def counted_after_a_message(site: Site, store: str) -> int:
    """The instructions of a message and of the count after it, over a store whose messages were
    counted before."""
    before = [*desk.counting(), "--instr-atstart=no"]
    body = desk.request(9_999_999, by=ASKERS[0], hosts=[HOSTS[1]]).encode()
    with site.serving(
        store, "--requests", str(BEFORE + 4), before=before, stderr=subprocess.PIPE
    ) as server:
        for _ in range(BEFORE + 1):
            told = answer(server, COUNT)
        count(server, "on")
        with server.connect(seconds=600) as peer:
            peer.sendall(desk.posted(b"web", body))
            desk.received(peer)
        more = answer(server, COUNT)
        count(server, "off")
        answer(server, COUNT)
        if int(more.split()[0]) != int(told.split()[0]) + 1:
            sys.exit(f"bench_history: {told[:20]!r} messages, and one more are {more[:20]!r}")
        return collected(server)


def counts(site: Site, count: int) -> bool:
    few = counted_after_a_message(site, site.store("a few", granted(0, 40, "db1")))
    many = counted_after_a_message(site, site.store("told", granted(0, count, "db1")))
    what = f"a message and the count after it, beside {count:,} messages"
    print(f"{what}: {few:,} instructions beside 40, {many:,} beside all")
    return judged(what, many / few, 1.5)


def take_another(site: Site, server: desk.Server, number: int = 0) -> None:
    """An open desk takes another roster. (Its file has the first one again then.)"""
    first = desk.read(site.roster)
    text = f"{first}# another, {number}\n".encode()
    desk.write(site.folder, "roster.toml", text)
    server.order(text)
    told = f", roster {hashlib.sha256(text).hexdigest()}\n".encode()
    if not any(line.endswith(told) for line in server.error):
        sys.exit("bench_history: the desk did not take another roster")
    desk.write(site.folder, "roster.toml", first)


def taken_counted(site: Site, store: str) -> int:
    """The instructions of another roster that an open desk takes over a store."""
    before = [*desk.counting(), "--instr-atstart=no"]
    with site.serving(
        store, "--requests", "2", before=before, stderr=subprocess.PIPE, takes_orders=True
    ) as server:
        answer(server, COUNT)
        count(server, "on")
        take_another(site, server)
        count(server, "off")
        answer(server, COUNT)
        return collected(server)


def takings(site: Site, count: int) -> bool:
    few = taken_counted(site, site.store("few rows", granted(0, 40, "db1")))
    many = taken_counted(site, site.store("many rows", granted(0, count, "db1")))
    what = f"another roster, beside {count:,} messages"
    print(f"{what}: {few:,} instructions beside 40, {many:,} beside all")
    return judged(what, many / few, 1.5)


def waiting(site: Site, count: int) -> bool:
    """The longest that a question waits while an open desk takes one roster after the other."""
    store, longest, ended = site.store("waiting", granted(0, count, "db1")), 0.0, threading.Event()

    def ask(server: desk.Server) -> None:
        nonlocal longest
        while not ended.is_set():
            begun = time.perf_counter()
            answer(server, COUNT)
            longest = max(longest, time.perf_counter() - begun)

    with site.serving(store, stderr=subprocess.PIPE, takes_orders=True) as server:
        answer(server, COUNT)
        asker = threading.Thread(target=ask, args=[server])
        asker.start()
        for number in range(TAKEN):
            take_another(site, server, number)
        ended.set()
        asker.join()
    what = f"a question while one of {TAKEN} rosters is taken, beside {count:,} messages, seconds"
    return judged(what, longest, 1.0)


def cutting(site: Site, store: str) -> list[str]:
    """The words that cut a store's history at the moment."""
    folder, name = os.path.split(site.program[-1])
    cutter = os.path.join(folder, name.replace("desk", "desk-cut", 1))
    return [cutter, store, f"{store}.cut.db", MOMENT, "--archive", f"{store}.archive"]


def opening_counted(site: Site, count: int) -> int:
    """An opening and the first file, beside reading the messages, and a cut beside that, in
    instructions."""
    bodies = [*granted(0, 2 * LIVE, "db1"), *others(count - 2 * LIVE)]
    store = site.store("counted", iter(bodies))
    given = desk.write(site.folder, "given", "".join(body + "\n" for body in bodies))
    nobody = desk.write(site.folder, "nobody.toml", NOBODY)
    reading = [*site.program, "deliver", nobody, site.base, "-", "web"]
    opened, read = from_start(site, store, FILE), desk.instructions(reading, given)
    print(
        f"in millions of instructions: opening {count:,} messages and the first file"
        f" {opened / 1e6:,.0f}, reading the messages {read / 1e6:,.0f}"
    )
    what = f"opening {count:,} messages and the first file, beside reading them"
    wrong = judged(what, opened / read, MOST_BESIDE_READING)
    cut = desk.instructions(cutting(site, store))
    print(f"in millions of instructions: a cut of {count:,} messages {cut / 1e6:,.0f}")
    return wrong + judged(f"a cut of {count:,} messages, beside their opening", cut / opened, 2.0)


def opening(site: Site, count: int) -> bool:
    """What an opening and the first file take of the processor and of memory."""
    peaks: dict[str, int] = {}
    parts: dict[str, list[Iterator[str]]] = {
        "none": [], "opened": [granted(0, 2 * LIVE, "db1"), others(count - 2 * LIVE)]
    }
    for name, bodies in parts.items():
        store = site.store(name, *bodies)
        begun = time.perf_counter()
        with site.serving(store, stderr=subprocess.PIPE, takes_orders=True) as server:
            opened = time.perf_counter() - begun
            answer(server, FILE)
            first = time.perf_counter() - begun - opened
            answer(server, FILE)
            last = time.perf_counter() - begun - opened - first
            peaks[name] = server.memory()[1] * 1024
            begun = time.perf_counter()
            take_another(site, server)
            taken = time.perf_counter() - begun
        if name == "opened":
            print(
                f"{count:,} messages: opening {opened:.2f} s, the first file {first * 1e3:.1f} ms,"
                f" a later one {last * 1e3:.1f} ms, another roster {taken * 1e3:.1f} ms;"
                f" {peaks[name] / 2**20:,.0f} MiB, of which {peaks['none'] / 2**20:.0f} for a desk"
                " without messages"
            )
            begun = time.perf_counter()
            subprocess.run(cutting(site, store), check=True)
            cut = time.perf_counter() - begun
            print(f"{count:,} messages: a cut {cut:.2f} s, {cut / opened:.1f} times the opening")
    each = (peaks["opened"] - peaks["none"]) / count
    return judged(f"opening {count:,} messages and the first file, bytes a message", each, 1_000)


def arguments() -> argparse.Namespace:
    parser = argparse.ArgumentParser(description="What a long history costs.")
    for name, number in (
        ("others", OTHERS), ("ended", ENDED), ("opened", OPENED), ("counted", COUNTED)
    ):
        parser.add_argument(f"--{name}", type=int, default=number, metavar="N")
    parser.add_argument("words", nargs="*", default=desk.PROGRAM)
    return parser.parse_args()


def main() -> int:
    given, wrong = arguments(), 0
    with tempfile.TemporaryDirectory(dir=desk.MEMORY) as folder:
        site = Site(folder, given.words)
        if desk.found("valgrind"):
            wrong += files(site, given.others) + reports(site, given.ended)
            wrong += one_request(site, given.ended) + counts(site, TOLD) + takings(site, TOLD)
            wrong += opening_counted(site, given.counted)
        else:
            print("instructions: left out, for valgrind is not there")
        wrong += waiting(site, given.counted) + opening(site, given.opened)
    return 1 if wrong else 0


if __name__ == "__main__":
    sys.exit(main())
