#!/usr/bin/env python3
"""The desk while reads and writes fail, the disk fills, and its file is changed under it.

A read that fails at each byte of a request is H1, and nothing is answered or stored. A write that
fails at each byte of a reply is H2: what went out is the beginning of the reply, and a message is
stored. The next peer is answered as ever. Each call on the file of a desk fails in turn, once or
from then on; a disk is full at each page; a file may grow to each page and no further; it is
removed, cut, replaced or made read-only while it is served, or its log is removed; it lies beside
the log of another; and a byte is turned in each page, and in its log. Each answer is the plain one
or a named refusal, and what was acknowledged is there afterwards. `python3 -m
tests.soak.reads_and_writes WORDS..` runs another program than build/desk; `--only PART..` before
them tries some of the parts, and `--whole` each place instead of some. A long reply is cut at each
byte in copies of the desk (cut_replies.c); over a socket it is so at each of its first and last
1,000 bytes, those at each 4,096th, and some by chance.
"""

from __future__ import annotations

import contextlib
import itertools
import os
import random
import shutil
import signal
import sqlite3
import subprocess
import sys
import tempfile
import threading
import time
from collections import Counter
from collections.abc import Callable, Iterable, Iterator
from concurrent.futures import ThreadPoolExecutor
from typing import Any

from tests.common import desk, store_files
from tests.common.tally import PATIENCE, Count, program, try_parts
from tests.soak.failing import CALL, CALLS, ERRORS, READ, WRITE, Cuts, Plan

GRANTS = 8_000
AT = "20260105093000Z"
REQUEST, APPROVAL = desk.request(), desk.approval()
LISTED = desk.asked(b"GET", b"/v1/messages")
STATED = (b"serving ", b"ended: ", b"new store: ", b"WARNING: EVERY ACCOUNT OF THIS MACHINE ")
NAMED = ("F1 FileFailed\n", "K1 RosterChanged\n", "K2 NotADesk\n", "K4 Storage\n")
REPLIES = (b"HTTP/1.1 200 OK\r\n", b"HTTP/1.1 503 Service Unavailable\r\n")
# what a delivery brings to a disk that is full, and more pages than it needs
ROOMFUL = [REQUEST, *map(desk.approval, range(12))]
MOST_PAGES = 180
# what is made of numbers: requests and verdicts on them, or verdicts that wait
MAKERS: dict[int, tuple[Callable[[int], str], ...]] = {
    10: (desk.request, desk.approval),
    900: (lambda number: desk.approval(900 + number),),
}
# takes root's right to pass over the modes of files from a program
UNPRIVILEGED = ("setpriv", "--bounding-set", "-dac_override,-dac_read_search", "--")
# words that begin a command which goes on past its limit of a file's size
UNSIGNALLED = ("sh", "-c", "trap '' XFSZ; exec \"$@\"", "sh")
# A program without a proof is slow over a file: SPARSE=8 tries an eighth of the places.
SPARSE = int(os.environ.get("SPARSE", "1"))
LANES = max(1, (os.cpu_count() or 2) - 1)


class Trial:
    """What the parts share: the program, a folder, the counts, and whether each place is tried."""

    def __init__(self, words: list[str], folder: str, is_whole: bool) -> None:
        self.words, self.folder, self.is_whole = words, folder, is_whole
        self.count = Count()

    def path(self, name: str) -> str:
        return os.path.join(self.folder, name)

    def step(self, most: int) -> int:
        """How far places are apart: 1 where each is tried."""
        return 1 if self.is_whole else most * SPARSE

    def deliver(
        self, store: str, lines: list[str], *before: str, plan: Plan | None = None
    ) -> tuple[int, str, str]:
        words = [*before, *self.words, "deliver", desk.ROSTER, desk.BASE, store, "chat"]
        done = subprocess.run(
            words,
            input="".join(f"{line}\n" for line in lines),
            capture_output=True,
            text=True,
            timeout=PATIENCE,
            env=plan.environment if plan else None,
            check=False,
        )
        return done.returncode, done.stdout, desk.without_names(done.stderr)

    def review(self, store: str, *before: str) -> tuple[int, str, str]:
        words = [*before, *self.words, "review", desk.ROSTER, desk.BASE, store, AT]
        done = desk.run(words, "", PATIENCE)
        return done.returncode, done.stdout, desk.without_names(done.stderr)


def lines_of(given: bytes) -> list[bytes]:
    """What a server says on its standard error of what failed."""
    return [line for line in given.splitlines() if not line.startswith(STATED)]


def clear(store: str) -> None:
    for end in ("", "-wal", "-shm"):
        with contextlib.suppress(FileNotFoundError):
            os.unlink(store + end)


def kept(store: str) -> list[str]:
    """The messages of a file; none where it has no tables yet, or is half made: `sqlite3` reads
    none such, and the next command makes it whole."""
    if not os.path.exists(store):
        return []
    try:
        return store_files.read(store)[1]
    except sqlite3.DatabaseError as error:
        if str(error) not in ("no such table: desk", "file is not a database"):
            raise
    return []


def body_of(reply: bytes) -> list[str]:
    return reply.partition(b"\r\n\r\n")[2].decode().splitlines()


def ask(
    server: desk.Server,
    given: bytes,
    seconds: float = PATIENCE,
    begins: Callable[[], bool] = lambda: True,
) -> bytes:
    """What comes of a reply until the desk lets the peer go, which reads once it begins to."""
    whole = b""
    with server.connect(None if begins() else 4_096, seconds) as peer:
        with contextlib.suppress(ConnectionError):
            peer.sendall(given)
            while not begins():
                time.sleep(0.01)
            while piece := peer.recv(65_536):
                whole += piece
    return whole


# ---- an exchange


class Exchanges:
    """A server whose peers fail: what is asked, what the whole reply is, and what it has to say."""

    def __init__(self, trial: Trial, plan: Plan, server: desk.Server) -> None:
        self.trial, self.plan, self.server = trial, plan, server
        self.said: list[bytes] = []

    def fails(self, what: int, place: int, error: str, given: bytes, whole: bytes) -> None:
        """One exchange fails at a place, and the next is answered."""
        count, title = self.trial.count, f"{given[:40]!r}, {error} at byte {place}"
        is_read = what == READ
        self.plan.set(what, place, ERRORS[error])
        got = ask(self.server, given)
        count.same(title, got, b"" if is_read else whole[:place])
        count.same(f"{title}: calls that failed", self.plan.failures(), 1)
        self.plan.clear()
        self.said.append(b"H1 ReadFailed" if is_read else b"H2 WriteFailed")
        parked = ask(self.server, desk.asked(b"HEAD", b"/v1/parked"))
        count.holds(f"{title}: the next", parked.startswith(REPLIES[0]), parked)

    def passes(self, what: int, place: int, given: bytes, whole: bytes) -> None:
        """Behind the last byte nothing is read or written."""
        self.plan.set(what, place)
        self.trial.count.same(f"{given[:40]!r}, behind its end", ask(self.server, given), whole)
        if what == WRITE:
            # (a reply is followed by reads, until the peer closes)
            self.trial.count.same("calls that failed", self.plan.failures(), 0)
        self.plan.clear()


def fail_posts(trial: Trial) -> None:
    """A message's POST fails at each byte of its 70 bytes and of its head, and so does its reply.
    What was not read whole is not stored; what was, is, whether the reply went out or not."""
    with serving(trial) as asked:
        ack = b"HTTP/1.1 200 OK\r\nContent-Type: text/plain\r\nContent-Length: 4\r\n"
        ack += b"Connection: close\r\n\r\nack\n"
        held: set[str] = set()
        given = desk.posted(b"chat", APPROVAL.encode())
        for place in range(len(given)):
            for error in ERRORS if trial.is_whole or place % 8 == 0 else ("EIO",):
                if error != "nothing":
                    asked.fails(READ, place, error, given, ack)
        listed(trial, asked.server, held)
        asked.passes(READ, len(given), given, ack)
        held.add(APPROVAL)
        for place in range(len(ack)):
            body = desk.approval(100 + place)
            error = list(ERRORS)[place % len(ERRORS)]
            asked.fails(WRITE, place, error, desk.posted(b"chat", body.encode()), ack)
            held.add(body)
        listed(trial, asked.server, held)
        asked.passes(WRITE, len(ack), desk.posted(b"chat", desk.approval(99).encode()), ack)
        listed(trial, asked.server, held | {desk.approval(99)})


def listed(trial: Trial, server: desk.Server, held: set[str]) -> None:
    trial.count.same("what is stored", body_of(ask(server, LISTED)), sorted(held))


def fail_questions(trial: Trial) -> None:
    """The file of a host with 8,000 grants, as GET and as HEAD: each byte of the request, each byte
    of HEAD's reply, and of GET's each at its ends and some between."""
    store = trial.path("large.db")
    store_files.make_desk(
        store,
        desk.read(desk.ROSTER),
        [make(no) for no in range(GRANTS // SPARSE) for make in (desk.request, desk.approval)],
    )
    with serving(trial, store) as asked:
        for method in (b"HEAD", b"GET"):
            given = desk.asked(method, b"/v1/hosts/db1/sudoers")
            whole = ask(asked.server, given)
            trial.count.holds("a whole reply", whole.startswith(REPLIES[0]), whole[:80])
            for place in range(0, len(given), 1 if trial.is_whole else 5):
                asked.fails(READ, place, "EIO", given, whole)
            for place in places(whole, trial.is_whole):
                asked.fails(WRITE, place, "EIO", given, whole)
            asked.passes(WRITE, len(whole), given, whole)
    cut_replies(trial, store, len(whole))


def cut_replies(trial: Trial, store: str, longest: int) -> None:
    """In copies of a desk its reply is cut at each byte: the file of the host to a peer that reads
    at once, and in many writes to one that reads late; that to HEAD, and that to a message."""
    cuts = Cuts(trial.folder, longest)
    question, step = b"/v1/hosts/db1/sudoers", trial.step(211)
    late = 16 if trial.is_whole else 4 * step
    get, head = desk.asked(b"GET", question), desk.asked(b"HEAD", question)
    post = desk.posted(b"chat", APPROVAL.encode())
    with open(trial.path("said"), "w+b") as said:
        with desk.Server(
            store, program=trial.words, environment=cuts.environment, stderr=said
        ) as server:
            for title, given, apart, is_late in (
                (f"the reply of {GRANTS // SPARSE:,} grants", get, step, False),
                ("the same to a peer that reads late", get, late, True),
                ("the reply to HEAD", head, 1, False),
                ("the reply to a message", post, 1, False),
            ):
                whole = ask(server, given)
                wanted = len(range(0, len(whole), apart))
                cuts.set(whole, apart, *((50_000, 16_384) if is_late else ()))
                begins = lambda: (
                    not is_late or cuts.seen().waits > 0 or cuts.seen().copies == wanted
                )
                trial.count.same(title, ask(server, given, 7_200, begins) == whole, True)
                seen = cuts.seen()
                trial.count.same(f"{title}: cuts", seen.copies, wanted)
                trial.count.holds(f"{title}: the desk waits for its peer", is_late <= seen.waits)
                trial.count.tried += seen.copies
                trial.count.wrong += seen.wrong
                print(
                    f"{seen.copies} of {len(whole)} bytes at which {title} was cut, in"
                    f" {seen.writes} writes: {seen.wrong} went otherwise {seen.first()}".rstrip(),
                    flush=True,
                )
            # a desk that goes on at another byte than the next is seen
            cuts.set(whole, len(whole), lie=20)
            ask(server, given, 7_200)
            trial.count.same("a copy that is misled", cuts.seen()[2:], (2, 1, 20, 78))
            server.end()
        said.seek(0)
        trial.count.same("the standard error", lines_of(said.read()), [])


def places(whole: bytes, is_whole: bool) -> list[int]:
    """Each byte of a short reply; a long one's ends, each 4,096th byte, and some by chance."""
    if len(whole) < 1_000:
        return [*range(0, len(whole), 1 if is_whole else 7)]
    chance, most = random.Random(len(whole)), 1_000 if is_whole else 8
    between = {it + near for it in range(4_096, len(whole), 4_096) for near in (-1, 0, 1)}
    between |= {chance.randrange(len(whole)) for _ in range(most)}
    some = between if is_whole else chance.sample(sorted(between), 8)
    return sorted({*range(most), *range(len(whole) - most, len(whole)), *some})


@contextlib.contextmanager
def serving(trial: Trial, store: str = "-") -> Iterator[Exchanges]:
    """A server with a plan; behind it, what it said of failures is compared."""
    plan = Plan(trial.folder)
    with open(trial.path("said"), "w+b") as said:
        with desk.Server(
            store, program=trial.words, environment=plan.environment, stderr=said
        ) as server:
            asked = Exchanges(trial, plan, server)
            yield asked
            server.end()
        said.seek(0)
        trial.count.same("the standard error", lines_of(said.read()), asked.said)


# ---- calls on the file


def fail_calls(trial: Trial) -> None:
    """Each call on the file of a delivery fails, once or from then on."""
    store, plan = trial.path("calls.db"), Plan(trial.folder)
    lines = [APPROVAL, REQUEST]
    befores: list[list[str]] = [[], [desk.approval(8)]]
    for held in befores:
        clear(store)
        trial.deliver(store, held)
        first = {end: open(store + end, "rb").read() for end in ("", "-wal")} if held else {}
        plan.set(CALL, 0)
        trial.count.same("plain", trial.deliver(store, lines, plan=plan)[1:], ("ack\nack\n", ""))
        calls, rows = plan.calls(), store_files.read(store)
        trial.count.holds("calls on the file", calls > 5, calls)
        some = range(1, calls + 1, trial.step(5))
        for what, place in [(what, place) for what in (CALL, CALLS) for place in some]:
            clear(store)
            for end, data in first.items():
                desk.write(*os.path.split(store + end), data)
            plan.set(what, place)
            got = trial.deliver(store, lines, plan=plan)
            plan.clear()
            title = f"a delivery whose call {place} fails, {what}, over {len(held)} messages"
            is_refused(trial, title, got, lines)
            acked = {line for line, said in zip(lines, got[1].splitlines()) if said == "ack"}
            found = {*kept(store)}
            trial.count.holds(
                title, acked <= found <= {*lines, *held} and {*held} <= found, (found, got)
            )
            again = trial.deliver(store, lines)
            trial.count.same(f"{title}, then once more", again, (0, "ack\nack\n", ""))
            trial.count.same(f"{title}: the rows", store_files.read(store), rows)


def is_refused(trial: Trial, title: str, got: tuple[int, str, str], lines: list[str]) -> None:
    """Whether each line is acknowledged or K4, or all is refused by name."""
    status, out, err = got
    said = out.splitlines()
    is_lines = len(said) == len(lines) and {*said} <= {"ack", "K4 Storage"} and not err
    is_whole = not out and err in ("F1 FileFailed\n", "K4 Storage\n")
    if status == 0:
        trial.count.holds(title, is_lines and {*said} == {"ack"}, got)
    else:
        is_named = is_whole or is_lines and "K4 Storage" in said
        trial.count.holds(title, status == 2 and is_named, got)


def fail_calls_served(trial: Trial) -> None:
    """A call on the file fails under a POST to a desk that is served; after a restart what was
    acknowledged is there, and at most what was sent beside."""
    store, plan = trial.path("served.db"), Plan(trial.folder)
    for place in range(1, 40, trial.step(7)):
        for what in (CALL, CALLS):
            clear(store)
            with desk.Server(store, program=trial.words, environment=plan.environment) as server:
                ask(server, desk.posted(b"chat", REQUEST.encode()))
                plan.set(what, place)
                got = ask(server, desk.posted(b"chat", APPROVAL.encode()))
                failures = plan.failures()
                plan.clear()
                listed_now = ask(server, LISTED)
            title = f"a POST whose call {place} fails, {what}"
            is_ack = got.endswith(b"\r\n\r\nack\n")
            is_k4 = got.endswith(b"\r\n\r\nK4 Storage\n")
            trial.count.holds(title, is_ack or (is_k4 and failures > 0), got)
            found = {*kept(store)}
            acked = {REQUEST, APPROVAL} if is_ack else {REQUEST}
            trial.count.holds(f"{title}: kept", acked <= found <= {REQUEST, APPROVAL}, found)
            if listed_now.startswith(REPLIES[0]):
                now = {*body_of(listed_now)}
                trial.count.holds(f"{title}: asked", acked <= now <= {REQUEST, APPROVAL}, now)
            else:
                trial.count.holds(
                    f"{title}: asked", listed_now.endswith(b"\r\n\r\nK4 Storage\n"), listed_now
                )
            again = trial.deliver(store, [APPROVAL])
            trial.count.same(f"{title}: once more", again, (0, "ack\n", ""))


# ---- the disk


class Outcomes:
    """How deliveries ended that ran out of room, by their answers."""

    def __init__(self, trial: Trial, title: str) -> None:
        self.trial, self.title, self.found = trial, title, dict[str, int]()

    def add(self, got: tuple[int, str, str]) -> None:
        said = {*got[1].splitlines()}
        name = got[2].strip() or " and ".join(sorted(said))
        self.found[name] = self.found.get(name, 0) + 1

    def told(self) -> None:
        """Deliveries ended in each way: before the first message, between two, and not at all."""
        print(f"{self.title}: {self.found}")
        names = {"ack", "K4 Storage and ack"}
        is_right = names <= {*self.found} and len(self.found) > len(names)
        self.trial.count.holds(f"{self.title}: each way to end", is_right, self.found)


def runs_out(
    trial: Trial, outcomes: Outcomes, title: str, store: str, held: list[str], before: list[str]
) -> None:
    """A delivery that may run out of room: what it acknowledges is there, and what was held."""
    got = trial.deliver(store, ROOMFUL, *before)
    is_refused(trial, title, got, ROOMFUL)
    outcomes.add(got)
    acked = {line for line, said in zip(ROOMFUL, got[1].splitlines()) if said == "ack"}
    found = {*kept(store)}
    trial.count.holds(f"{title}: kept", acked | {*held} <= found <= {*ROOMFUL, *held}, got)


def goes_on(trial: Trial, title: str, store: str, held: list[str]) -> None:
    """With room again the same delivery is acknowledged, and the file holds all of it."""
    again = trial.deliver(store, ROOMFUL)
    trial.count.same(f"{title}, then room", again, (0, "ack\n" * len(ROOMFUL), ""))
    trial.count.same(f"{title}: the rows", kept(store), sorted({*ROOMFUL, *held}))


@contextlib.contextmanager
def small_disk(trial: Trial) -> Iterator[str]:
    """A file system of 1 MiB of its own."""
    mount = trial.path("disk")
    os.mkdir(mount)
    subprocess.run(["mount", "-t", "tmpfs", "-o", "size=1m", "none", mount], check=True)
    try:
        yield mount
    finally:
        subprocess.run(["umount", "--lazy", mount], check=True)


def fill_disk(trial: Trial) -> None:
    """A file system of 1 MiB of which so many pages are left, from none to as many as a delivery
    needs: over no file, and over one at rest. Then it is freed again."""
    if os.geteuid() != 0:
        print("fill_disk is left out: this is not root")
        return
    with small_disk(trial) as mount:
        store, filler = os.path.join(mount, "desk.db"), os.path.join(mount, "filler")
        for held in ([], [desk.approval(900)]):
            outcomes = Outcomes(trial, f"a full disk, over {len(held)} messages")
            for pages in range(0, MOST_PAGES, trial.step(9)):
                title = f"a disk with {pages} pages, over {len(held)} messages"
                clear(store)
                if held:
                    trial.deliver(store, held)
                fill(filler, pages)
                runs_out(trial, outcomes, title, store, held, [])
                os.unlink(filler)
                goes_on(trial, title, store, held)
            outcomes.told()
        for pages in range(0, 60, trial.step(30)):
            fill_served(trial, store, filler, pages)


def fill(path: str, pages: int) -> None:
    """Fills the disk but for so many pages of 4 KiB."""
    with open(path, "wb", buffering=0) as file, contextlib.suppress(OSError):
        while True:
            file.write(bytes(4_096))
    os.truncate(path, max(0, os.path.getsize(path) // 4_096 - pages) * 4_096)


def fill_served(trial: Trial, store: str, filler: str, pages: int) -> None:
    """A desk that is served while its disk fills answers K4, and questions as before. It goes on by
    itself where there is room again, and what it acknowledged is there after it was killed."""
    clear(store)
    held, title = {REQUEST}, f"a desk that is served on a disk with {pages} pages"
    with desk.Server(store, program=trial.words) as server:

        def post(body: str) -> bool:
            reply = ask(server, desk.posted(b"chat", body.encode()))
            is_ack = reply.endswith(b"\r\n\r\nack\n")
            is_named = is_ack or reply.endswith(b"\r\n\r\nK4 Storage\n")
            trial.count.holds(f"{title}: a reply", is_named, reply)
            return is_ack

        trial.count.holds(f"{title}: with room", post(REQUEST))
        fill(filler, pages)
        sent = [desk.approval(number) for number in range(24)]
        acked = [body for body in sent if post(body)]
        held |= {*acked}
        trial.count.holds(f"{title}: it fills", len(acked) < len(sent), len(acked))
        reply = ask(server, LISTED)
        now = {*body_of(reply)}
        is_whole = reply.startswith(REPLIES[0]) and held <= now <= {REQUEST, *sent}
        trial.count.holds(f"{title}: asked", is_whole or b"\r\n\r\nK4 " in reply, reply[-200:])
        os.unlink(filler)
        again = [body for body in sent if post(body)]
        trial.count.same(f"{title}: freed", len(again), len(sent))
        found = body_of(ask(server, LISTED))
        trial.count.same(f"{title}: all messages", found, sorted({REQUEST, *sent}))
        server.end(signal.SIGKILL)
    trial.count.same(f"{title}: after a kill", kept(store), sorted({REQUEST, *sent}))


def limit_file(trial: Trial) -> None:
    """The file and its log may grow to each page, and no further (`ulimit -f`)."""
    store, outcomes = trial.path("limit.db"), Outcomes(trial, "a file that may not grow")
    for pages in range(0, MOST_PAGES, trial.step(11)):
        clear(store)
        before = ["prlimit", f"--fsize={pages * 4_096}", *UNSIGNALLED]
        title = f"a file of up to {pages} pages"
        runs_out(trial, outcomes, title, store, [], before)
        goes_on(trial, title, store, [])
    outcomes.told()


# ---- the file, changed while it is served


def change_served(trial: Trial) -> None:
    """The file is removed, cut, replaced or made read-only while it is served, or its log is
    removed. The desk goes on: each answer is of what it holds, or K4; at the next start what it
    finds is refused by name, or is a desk of messages that it was sent."""
    other = trial.path("other.db")
    trial.deliver(other, [desk.approval(77)])
    changes: dict[str, Callable[[str], object]] = {
        "removed": lambda store: os.unlink(store),
        "cut to nothing": lambda store: os.truncate(store, 0),
        "cut to a page": lambda store: os.truncate(store, 4_096),
        "cut in a page": lambda store: os.truncate(store, 5_000),
        "replaced": lambda store: os.replace(shutil.copy(other, other + ".copy"), store),
        "made read-only": lambda store: os.chmod(store, 0o400),
        "without its log": lambda store: os.unlink(store + "-wal"),
        "with its log cut": lambda store: os.truncate(store + "-wal", 5_000),
    }
    for title, change in changes.items():
        more = map(desk.approval, range(20, 20 + 20 // min(SPARSE, 5)))
        store, sent = trial.path("changed.db"), [REQUEST, APPROVAL, *more]
        clear(store)
        trial.deliver(store, sent[:2])
        with desk.Server(store, program=trial.words) as server:
            trial.count.same(title, body_of(ask(server, LISTED)), sorted(sent[:2]))
            change(store)
            acked = {*sent[:2]}
            for body in sent[2:]:
                reply = ask(server, desk.posted(b"chat", body.encode()))
                is_ack = reply.endswith(b"\r\n\r\nack\n")
                acked |= {body} if is_ack else set()
                trial.count.holds(
                    f"{title}: a message", is_ack or reply.endswith(b"\r\n\r\nK4 Storage\n"), reply
                )
            reply = ask(server, LISTED)
            found = {*body_of(reply)}
            trial.count.holds(
                f"{title}: all messages",
                (reply.startswith(REPLIES[0]) and acked <= found <= {*sent})
                or reply.endswith(b"\r\n\r\nK4 Storage\n"),
                reply[-200:],
            )
            trial.count.holds(f"{title}: the desk is there", server.process.poll() is None)
        if "read-only" in title and os.geteuid() == 0:
            refused = trial.review(store, *UNPRIVILEGED)
            trial.count.same(f"{title}: without root's right", refused, (2, "", NAMED[0]))
        found, _ = starts_again(trial, title, store, {*sent, desk.approval(77)})
        print(f"{title}, {len(acked)} of {len(sent)} acknowledged, then started again: {found}")


def starts_again(trial: Trial, title: str, store: str, sent: set[str]) -> tuple[str, set[str]]:
    """What the next start finds is refused by name, or is a desk of messages that were sent to it
    or to the other: the refusal, or these messages."""
    status, out, err = trial.review(store)
    is_named = (status, out) == (2, "") and err in NAMED
    trial.count.holds(f"{title}: the next start", is_named or status == 0, (status, out, err))
    if status == 0:
        held = {*kept(store)}
        trial.count.holds(f"{title}: what it finds", held <= sent, held - sent)
        return f"{len(held)} messages", held
    return err.strip(), set()


def mix_files(trial: Trial) -> None:
    """A file beside the log of another, which a desk that was killed did not merge: what is found
    is refused by name, or is a desk of messages of the two."""
    count, found = Counter[str](), [1, 3, 40] if trial.is_whole else [1, 12]
    for merged, logged, other, first in itertools.product([0, *found], found, found, [10, 900]):
        # requests and verdicts on them, or verdicts that wait
        old = [make(number) for number in range(merged + logged) for make in MAKERS[first]]
        new = [make(number) for number in range(10, 10 + other) for make in MAKERS[10]]
        title = f"a file of {len(new)} messages beside a log of {logged} after {merged}, {first}"
        store, path = trial.path("mixed.db"), trial.path("other.db")
        clear(store)
        clear(path)
        trial.deliver(path, new)
        if merged:
            trial.deliver(store, old[:merged])
        with desk.Server(store, program=trial.words) as server:
            for body in old[merged:]:
                ask(server, desk.posted(b"chat", body.encode()))
            server.end(signal.SIGKILL)
        os.replace(path, store)
        ended, held = starts_again(trial, title, store, {*old, *new})
        desks = {"the log's desk": {*old}, "the file's desk": {*new}, "one of both": held}
        names = [name for name, those in desks.items() if held == those]
        count[names[0] if held else ended] += 1
    print(f"files beside the log of another: {dict(count)}")
    trial.count.holds("files that are refused, and desks", len(count) > 1, count)


# ---- a byte, turned


def side_by_side(one: Callable[[Any], Any], cases: Iterable[Any]) -> Iterator[Any]:
    """What comes of each case, in order."""
    with ThreadPoolExecutor(LANES) as lanes:
        yield from lanes.map(one, cases)


def own_store(trial: Trial, data: bytes) -> str:
    """The file of this lane alone, with these bytes."""
    store = trial.path(f"lane.{threading.get_ident()}.db")
    clear(store)
    return desk.write(*os.path.split(store), data)


def turn_bytes(trial: Trial) -> None:
    """A byte is turned in each page of a file of ten messages, all of whose bits or one: the
    question is refused by name, or answered as before."""
    whole, outcomes = trial.path("ten.db"), Counter[str]()
    sent = [REQUEST, APPROVAL, *(desk.approval(no, kind="refuse") for no in range(20, 28))]
    trial.count.same("ten messages", trial.deliver(whole, sent), (0, "ack\n" * 10, ""))
    before = trial.review(whole)
    with open(whole, "rb") as file:
        data = file.read()

    def review(case: tuple[int, int]) -> tuple[str, tuple[int, str, str]]:
        place, mask = case
        got = trial.review(own_store(trial, turned(data, place, mask)))
        return f"byte {place} of {len(data)} turned by {mask:#x}", got

    places = range(0, len(data), trial.step(331))
    masks = lambda place: (0xFF, 1 << place % 8) if trial.is_whole else (0xFF,)
    for title, got in side_by_side(review, [(it, mask) for it in places for mask in masks(it)]):
        is_named = got[:2] == (2, "") and got[2] in NAMED
        is_right = is_named or got == before
        trial.count.holds(title, is_right, got)
        outcomes[got[2].strip() or ("as before" if is_right else "another answer")] += 1
    print(f"a byte turned in a file of {len(data)} bytes: {dict(outcomes)}")


def turn_log(trial: Trial) -> None:
    """A byte is turned in the log of ten messages that a desk which was killed left, or the log is
    cut there. SQLite's form cannot tell that from a log that was being written: it ends where its
    sums no longer fit. So what is found is refused by name, or is a beginning of what was sent."""
    made, sent = trial.path("logged.db"), [desk.request(number) for number in range(10)]
    clear(made)
    with desk.Server(made, program=trial.words) as server:
        for body in sent:
            ask(server, desk.posted(b"chat", body.encode()))
        server.end(signal.SIGKILL)
    first = {end: open(made + end, "rb").read() for end in ("", "-wal")}
    log, found = first["-wal"], Counter[str]()

    def review(case: tuple[int, bool]) -> tuple[str, tuple[int, str, str], list[str]]:
        place, is_cut = case
        store = own_store(trial, first[""])
        changed = log[:place] if is_cut else turned(log, place, 0xFF)
        desk.write(*os.path.split(store + "-wal"), changed)
        title = f"a log {'cut' if is_cut else 'turned'} at byte {place} of {len(log)}"
        got = trial.review(store)
        return title, got, kept(store) if got[0] == 0 else []

    places = range(0, len(log), trial.step(190) * 31)
    for title, got, held in side_by_side(review, itertools.product(places, (False, True))):
        if got[0] == 0:
            trial.count.same(title, held, sorted(sent[: len(held)]))
            found[f"{len(held):2} messages"] += 1
        else:
            trial.count.holds(title, got[:2] == (2, "") and got[2] in NAMED, got)
            found[got[2].strip()] += 1
    print(f"a log of {len(log)} bytes, turned or cut: {dict(sorted(found.items()))}")
    trial.count.holds("logs that end early, and whole ones", len(found) > 3, found)


def turned(data: bytes, place: int, mask: int) -> bytes:
    return data[:place] + bytes([data[place] ^ mask]) + data[place + 1 :]


PARTS = (
    fail_posts,
    fail_questions,
    fail_calls,
    fail_calls_served,
    fill_disk,
    limit_file,
    change_served,
    mix_files,
    turn_bytes,
    turn_log,
)


def enter_namespace() -> None:
    """Starts the script again in a mount namespace of its own: no disk of it is left behind, even
    where it is killed."""
    inside = [*desk.again(), "--inside", *sys.argv[1:]]
    unshare = desk.tool("unshare")
    os.execv(unshare, [unshare, "--mount", "--propagation", "private", *inside])


def main() -> int:
    words = sys.argv[1:]
    if words[:1] == ["--inside"]:
        words = words[1:]
    elif os.geteuid() == 0:
        enter_namespace()
    is_whole = "--whole" in words[:1]
    parts, words = try_parts(PARTS, words[is_whole:])
    wrong = tried = 0
    for part in parts:
        begun = time.monotonic()
        with tempfile.TemporaryDirectory(dir=desk.MEMORY) as folder:
            trial = Trial(program(words) or desk.PROGRAM, folder, is_whole)
            try:
                part(trial)
            except (OSError, sqlite3.Error, subprocess.SubprocessError) as error:
                trial.count.holds(part.__name__, False, repr(error))
        tried, wrong = tried + trial.count.tried, wrong + trial.count.wrong
        seconds = time.monotonic() - begun
        print(f"{part.__name__}: {trial.count.tried} tried, {seconds:.0f} seconds", flush=True)
    print(f"{tried} things were tried while reads and writes failed: {wrong} went otherwise")
    return 1 if wrong else 0


if __name__ == "__main__":
    sys.exit(main())
