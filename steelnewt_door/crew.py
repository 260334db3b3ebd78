"""The door's processes: one that has the journal, and several that take messages.

Python runs one thread of a process at a time, and signatures, JSON and sockets are most of what a
message costs. So each of the others takes connections by itself, looks up in the index what
it needs, and sends its rows to the first one. The first writes the rows of all of them with one
sync, and answers when the disk has them.

They are started before the journal is opened, for a database of SQLite's must not be open in a
process that forks. Where one of them ends, all do: nothing is taken that nobody could write.
"""

import contextlib
import fcntl
import gc
import logging
import marshal
import mmap
import os
import queue
import select
import signal
import socket
import struct
import threading
import time
from collections.abc import Callable, Iterator
from dataclasses import dataclass, field
from typing import Any

from steelnewt_client.signed import Signed
from steelnewt_door.index import Before, Index
from steelnewt_door.journal import BadJournal, Batch, Full, Journal
from steelnewt_door.refusals import Share
from steelnewt_door.rows import Row, digest_in, draft_of

log = logging.getLogger("desk-door")
PROCESSES = min(4, len(os.sched_getaffinity(0)))
WORKERS = 8  # of each: so many messages it has under way
THREADS = 2 * WORKERS
MOST_AT_ONCE = 65_536  # bytes that are read of a line between processes
FLOCK = "@hhqqi0q"  # struct flock: the kind, from where, the first byte, how many, nobody's number
QUIET = 0.5  # seconds that the index may be behind, for its rows to go into it together
FAULTS: dict[str, type[Exception]] = {"BadJournal": BadJournal, "Full": Full}


class Line:
    """One end of a line between two processes of the door: what is said is a value of marshal's,
    behind its length. Each waits for the other's answer before it says more."""

    def __init__(self, peer: socket.socket) -> None:
        self.peer = peer

    def fileno(self) -> int:
        return self.peer.fileno()

    def close(self) -> None:
        self.peer.close()

    def say(self, what: Any) -> None:
        text = marshal.dumps(what)
        self.peer.sendall(struct.pack("=I", len(text)) + text)

    def hear(self) -> Any:
        text = self.piece()
        while len(text) < 4 or len(text) - 4 < struct.unpack_from("=I", text)[0]:
            text += self.piece()
        return marshal.loads(memoryview(text)[4:])

    def piece(self) -> bytes:
        found = self.peer.recv(MOST_AT_ONCE)
        if not found:
            raise EOFError
        return found


def pair() -> tuple[Line, Line]:
    one, other = socket.socketpair()
    return Line(one), Line(other)


class Locks:
    """A lock for each of so many names, among all threads of all processes: a byte of a file, which
    each process has open by itself (fcntl(2), 'Open file description locks'). The locks that belong
    to a process will not do: where two threads wait for those of two others, the kernel sees two
    processes that wait for each other, and refuses one."""

    def __init__(self, count: int) -> None:
        self.file = os.memfd_create("locks")
        self.threads = [threading.Lock() for _ in range(count)]

    def own(self) -> None:
        """Makes them a process's own, behind a fork."""
        self.file = os.open(f"/proc/self/fd/{self.file}", os.O_RDWR | os.O_CLOEXEC)

    @contextlib.contextmanager
    def held(self, name: object) -> Iterator[None]:
        at = hash(name) % len(self.threads)
        with self.threads[at]:
            self.set(fcntl.F_WRLCK, at)
            try:
                yield
            finally:
                self.set(fcntl.F_UNLCK, at)

    def set(self, kind: int, at: int) -> None:
        fcntl.fcntl(self.file, fcntl.F_OFD_SETLKW, struct.pack(FLOCK, kind, os.SEEK_SET, at, 1, 0))


class Shared:
    """What the first process tells all others by memory that they share: whether the index lacks
    rows, and of which messages it has none. A message whose digest begins like no other's never
    came: of most that come nothing has to be looked up, and the index may get many rows at once."""

    def __init__(self) -> None:
        self.lag, self.came = mmap.mmap(-1, 1), mmap.mmap(-1, 1 << 24)

    def note(self, begins: str) -> None:
        self.came[int(begins[:6], 16)] = 1

    def may_have(self, digest: str) -> bool:
        return bool(self.came[int(digest[:6], 16)])


class Asked:
    """The journal, and the share of what is refused, as a process has them that takes messages:
    each of its threads asks over a connection of its own."""

    def __init__(self, folder: str, ends: list[Line], shared: Shared) -> None:
        self.folder, self.shared = folder, shared
        self.kept = Index(os.path.join(folder, "index.db"))
        self.mine, self.free = threading.local(), queue.SimpleQueue[Line]()
        for it in ends:
            self.free.put(it)

    def ask(self, *words: Any) -> Any:
        try:
            if not hasattr(self.mine, "end"):
                self.mine.end = self.free.get_nowait()
            self.mine.end.say(words)
            found, fault = self.mine.end.hear()
        except (OSError, EOFError):
            os._exit(1)  # (who has the journal is gone)
        if fault:
            raise FAULTS[fault](found)
        return found

    @property
    def index(self) -> Index:
        """The index, which has all rows as far as there is room for it."""
        if self.shared.lag[0]:
            self.ask("catch_up")
        return self.kept

    def before(self, signed: Signed) -> Before:
        if not self.shared.may_have(signed.digest):
            return Before(None, {})
        return self.index.before(signed)

    def append(self, rows: list[Row], takes_away: bool = False) -> list[int]:
        found: list[int] = self.ask("append", [draft_of(it) for it in rows], takes_away)
        return found

    def has_room(self, relay: str, at: str) -> bool:
        return bool(self.ask("has_room", relay, at))

    def more(self, at: str, clock: float) -> list[Row]:
        found: list[Row] = self.ask("more", at, clock)
        return found


@dataclass
class Keeper:
    """Writes the rows of the others, and answers what they ask."""

    journal: Journal
    shared: Shared
    share: Share = field(default_factory=Share)
    since: float = 0.0

    def __post_init__(self) -> None:
        for begins in self.journal.index.beginnings():
            self.shared.note(begins)

    def serve(self, ends: list[Line], is_gone: Callable[[], None]) -> None:
        """Until no other is there. `is_gone` hears of each connection that ends."""
        open_ends = {it.fileno(): it for it in ends}
        with select.epoll() as poll:
            for file in open_ends:
                poll.register(file, select.EPOLLIN)
            while open_ends:
                asked = list[tuple[Line, list[Any]]]()
                for file, _ in poll.poll(QUIET if self.journal.unindexed else None):
                    try:
                        asked.append((open_ends[file], open_ends[file].hear()))
                    except (EOFError, OSError):
                        poll.unregister(file)
                        del open_ends[file]
                        is_gone()
                self.answer(asked)
                self.keep_up()

    def answer(self, asked: list[tuple[Line, list[Any]]]) -> None:
        batches = list[tuple[Line, Batch]]()
        for end, (what, *given) in asked:
            if what == "append":
                batches.append((end, Batch(*given)))
            else:
                tell(end, self.other(what, given))
        if batches:
            self.note(batches)
            self.journal.write_batches([it for _, it in batches])
            self.mark()
            for end, batch in batches:
                fault = type(batch.fault).__name__ if batch.fault else ""
                tell(end, str(batch.fault) if fault else batch.numbers, fault)

    def note(self, batches: list[tuple[Line, Batch]]) -> None:
        """Says to all which messages came."""
        for _, batch in batches:
            for _, noted in batch.drafts:
                if digest := digest_in(noted):
                    self.shared.note(digest)

    def keep_up(self) -> None:
        """Has the index follow the journal within a second or so."""
        if not self.journal.unindexed:
            self.since = time.monotonic()
        elif time.monotonic() - self.since > QUIET:
            self.other("catch_up", [])
            self.since = time.monotonic()

    def other(self, what: str, given: list[Any]) -> object:
        if what == "has_room":
            return self.share.has_room(*given)
        if what == "more":
            return self.share.more(*given)
        self.journal.catch_up([])
        self.mark()
        return None

    def mark(self) -> None:
        """Says to all whether the index lacks rows."""
        self.shared.lag[0] = bool(self.journal.unindexed)


def tell(end: Line, what: Any, fault: str = "") -> None:
    with contextlib.suppress(OSError):  # (nobody is there to be answered)
        end.say((what, fault))


class Crew:
    """The processes that take messages. `work` is what each does, with its connections to the first
    one, and a further one that ends with that."""

    def __init__(self, work: Callable[[list[Line], Line], None]) -> None:
        self.pids, self.is_ending, self.has_failed = list[int](), False, False
        self.ends, self.lines = list[Line](), list[Line]()
        gc.collect()
        gc.freeze()  # (they need not look through the first one's objects)
        for _ in range(PROCESSES):
            self.start(work)

    def start(self, work: Callable[[list[Line], Line], None]) -> None:
        pairs = [pair() for _ in range(THREADS + 1)]
        theirs = [it for _, it in pairs]
        self.ends += [it for it, _ in pairs[:-1]]
        self.lines.append(pairs[-1][0])
        pid = os.fork()
        if not pid:
            status = 1
            try:
                for end in (*self.ends, *self.lines):
                    end.close()
                with contextlib.suppress(EOFError):
                    theirs[-1].hear()
                    work(theirs[:-1], theirs[-1])
                    status = 0
            except BaseException:
                log.exception("K23 DoorFails: a process of the door's")
            finally:
                os._exit(status)
        self.pids.append(pid)
        for end in theirs:
            end.close()

    def go(self) -> None:
        """Has them begin."""
        for line in self.lines:
            tell(line, "go")

    def stop(self, *_: object) -> None:
        """Has them end, when they have answered what they took."""
        self.is_ending = True
        for pid in self.pids:
            with contextlib.suppress(ProcessLookupError):
                os.kill(pid, signal.SIGTERM)

    def is_gone(self) -> None:
        """One has ended: nobody asked it to, or all were."""
        if not self.is_ending:
            log.error("K23 DoorFails: a process of the door's ended")
            self.has_failed = True
            self.stop()

    def end(self) -> None:
        for line in self.lines:
            line.close()
        for pid in self.pids:
            os.waitpid(pid, 0)
