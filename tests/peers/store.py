#!/usr/bin/env python3
"""The file of a desk beside Debian's `sqlite3` and Python's, and a desk that is killed while it
takes messages.

What the desk wrote must be whole for `sqlite3` (`pragma integrity_check`), with the desk's tables
and the messages that were acknowledged, and the desk must go on over what `sqlite3` wrote, merged,
or left in its log. Two programs must not have the file at once: the one that comes second is
refused by name. A command or a server that ends in order leaves one file: copied without its log it
is the whole store. A server that is killed must have kept each message that it acknowledged, and
answer alike when it is started again over the file. Last, `deliver` is killed (SIGKILL) at 200
random moments while it takes 1,500 messages: after each, the file must open and hold a beginning of
what was sent; delivered once more, each line must be acknowledged, and the file hold what it holds
after a run that nobody stopped. The calls that sync the files are counted too: one a commit, and
two where the words say `--sync twice`. `python3 -m tests.peers.store WORDS..` runs another program
than build/desk.
"""

import concurrent.futures
import http.client
import os
import random
import shutil
import signal
import sqlite3
import subprocess
import sys
import tempfile
import threading
import time
from collections.abc import Iterable, Iterator

from tests.common import desk, store_files

KILLS = 200
SENT = 1_500
COMMITS = 50  # of so many messages more the syncs are counted
PATIENCE = 300  # the seconds after which a program hangs: the machine may be busy
LINE = "ann db1 = (root) NOTBEFORE=20260105090000Z NOTAFTER=20260105110000Z /usr/bin/id\n"


REQUEST, APPROVAL = desk.request(), desk.approval()


class Count:
    """How many answers were compared, and how many were wrong."""

    def __init__(self) -> None:
        self.asked = self.wrong = 0

    def same(self, what: str, got: object, wanted: object) -> None:
        self.asked += 1
        if got != wanted:
            self.wrong += 1
            print(f"{what}: {str(got)[:400]} and not {str(wanted)[:400]}")


def ask(command: str, store: str, word: str, lines: Iterable[str] = ()) -> tuple[str, str, int]:
    """What the desk answers: its output, its standard error and its status."""
    given = "".join(line + "\n" for line in lines)
    words = [*desk.named(), command, desk.ROSTER, desk.BASE, store, word]
    done = desk.run(words, given, PATIENCE)
    return done.stdout, desk.without_names(done.stderr), done.returncode


def told(store: str, text: str) -> str:
    """What `sqlite3` answers, or says."""
    done = desk.run(["sqlite3", "-batch", store, text], "", PATIENCE)
    return done.stdout + done.stderr


def bare() -> str:
    """The canonical text of the base."""
    return desk.run([*desk.named(), "check", desk.BASE], "", PATIENCE).stdout


def serving(store: str, *words: str) -> desk.Server:
    return desk.Server(store, *words, program=desk.named())


def replied(
    server: desk.Server, method: str, target: str, body: str | None = None
) -> tuple[int, str]:
    peer = http.client.HTTPConnection("127.0.0.1", server.port, timeout=60)
    peer.request(method, target, body)
    reply = peer.getresponse()
    return reply.status, reply.read().decode()


def read_by_sqlite(count: Count, folder: str) -> None:
    """`sqlite3` reads what the desk wrote, takes its log over, and the desk goes on."""
    store, lines = os.path.join(folder, "ours.db"), [REQUEST, *map(desk.approval, range(300))]
    count.same("deliver", ask("deliver", store, "chat", lines), ("ack\n" * 301, "", 0))
    count.same(
        "the desk",
        told(store, "SELECT id, schema, roster FROM desk"),
        "1|2|" + desk.read(desk.ROSTER) + "\n",
    )
    count.same(
        "the tables",
        told(store, ".schema"),
        "".join(store_files.definition(table) + ";\n" for table in store_files.TABLES[2]),
    )
    count.same("integrity_check", told(store, "PRAGMA integrity_check"), "ok\n")
    count.same(
        "the messages",
        told(store, "SELECT body FROM messages ORDER BY body").splitlines(),
        sorted(lines),
    )
    for table, rows in store_files.rows_of(lines).items():
        count.same(
            f"the rows of {table}", told(store, f"SELECT count(*) FROM {table}"), f"{len(rows)}\n"
        )
    count.same("the log", told(store, "PRAGMA wal_checkpoint(TRUNCATE)"), "0|0|0\n")
    count.same("print", ask("print", store, "db1"), (bare() + LINE, "", 0))
    count.same("deliver again", ask("deliver", store, "chat", lines), ("ack\n" * 301, "", 0))
    backup = os.path.join(folder, "backup.db")
    told(store, f".backup {backup}")
    count.same("print of a backup", ask("print", backup, "db1"), (bare() + LINE, "", 0))
    count.same("vacuum", told(store, "VACUUM"), "")
    count.same("print after vacuum", ask("print", store, "db1"), (bare() + LINE, "", 0))
    told(store, "UPDATE desk SET schema = 3")
    count.same("another schema", ask("print", store, "db1"), ("", "K2 NotADesk\n", 2))
    told(store, "UPDATE desk SET schema = 2; DELETE FROM messages WHERE rowid > 100")
    count.same("rows of no message", ask("print", store, "db1"), ("", "K4 Storage\n", 2))


def quoted(text: str) -> str:
    """The text as a literal of SQL."""
    return "'" + text.replace("'", "''") + "'"


def inserts(bodies: list[str]) -> Iterator[str]:
    """The statements that put in the rows of these messages, none of which is disputed."""
    for table, rows in store_files.rows_of(bodies).items():
        for row in rows:
            cells = ", ".join(quoted(it) if isinstance(it, str) else str(it) for it in row)
            yield f"INSERT INTO {table} VALUES ({cells})"


def write_by_sqlite(count: Count, folder: str) -> None:
    """The desk reads what `sqlite3` wrote by the same statements."""
    roster = desk.read(desk.ROSTER)
    for mode in ("delete", "truncate", "persist", "memory", "wal"):
        store = os.path.join(folder, f"{mode}.db")
        told(
            store,
            "; ".join(
                [
                    f"PRAGMA journal_mode = {mode}",
                    *map(store_files.definition, store_files.TABLES[2]),
                    f"INSERT INTO desk VALUES (1, 2, {quoted(roster)})",
                    *inserts([REQUEST, APPROVAL]),
                ]
            ),
        )
        count.same(f"print, {mode}", ask("print", store, "db1"), (bare() + LINE, "", 0))
        count.same(
            f"deliver, {mode}",
            ask("deliver", store, "mail", [APPROVAL, desk.approval(8)]),
            ("ack\nack\n", "", 0),
        )
        count.same(f"integrity_check, {mode}", told(store, "PRAGMA integrity_check"), "ok\n")
        count.same(f"count, {mode}", told(store, "SELECT count(*) FROM messages"), "3\n")
    store = os.path.join(folder, "left.db")
    texts = {"roster": roster, "request": REQUEST, "approval": APPROVAL}
    store_files.leave_log(store, {"kept": ["request", "approval"]}, texts)
    count.same(
        "print of a log that is not merged", ask("print", store, "db1"), (bare() + LINE, "", 0)
    )
    with store_files.taken(store):
        count.same(
            "print of what sqlite3 writes", ask("print", store, "db1"), ("", "F1 FileFailed\n", 2)
        )
    count.same("print of what sqlite3 has left", ask("print", store, "db1"), (bare() + LINE, "", 0))


def alone(store: str) -> list[str]:
    """The messages of the file, read without the log beside it."""
    with tempfile.TemporaryDirectory(dir=os.path.dirname(store)) as apart:
        copy = shutil.copy(store, apart)
        return told(copy, "SELECT body FROM messages ORDER BY body").splitlines()


def rest_as_one_file(count: Count, folder: str) -> None:
    """What ends in order leaves the whole store in one file; what is killed leaves a log, which the
    next command merges."""
    store, first = os.path.join(folder, "rest.db"), [REQUEST, desk.approval(1)]
    ask("deliver", store, "chat", first)
    count.same("one file after deliver", alone(store), sorted(first))
    done = ask("deliver", store, "chat", ["{}", APPROVAL])
    count.same("one line refused", done, ("M3 BadField\nack\n", "", 2))
    count.same("one file after a refused line", alone(store), sorted([*first, APPROVAL]))
    server = serving(store, "--requests", "1")
    count.same(
        "post",
        replied(server, "POST", "/v1/relays/chat/messages", desk.approval(2)),
        (200, "ack\n"),
    )
    server.wait()
    count.same("one file after serve", alone(store), sorted([*first, APPROVAL, desk.approval(2)]))
    server = serving(store)
    count.same(
        "post",
        replied(server, "POST", "/v1/relays/chat/messages", desk.approval(3)),
        (200, "ack\n"),
    )
    server.end(signal.SIGKILL)
    count.same("the log after a kill is not merged", desk.approval(3) in alone(store), False)
    ask("print", store, "db1")
    count.same(
        "one file after print",
        alone(store),
        sorted([*first, APPROVAL, desk.approval(2), desk.approval(3)]),
    )
    before = open(store, "rb").read()
    ask("print", store, "db1")
    count.same("a question leaves the file as it was", open(store, "rb").read() == before, True)


def serve_over(count: Count, folder: str) -> None:
    """A server over a file that is killed and started again; while it serves, the file is its
    own."""
    store, file = os.path.join(folder, "served.db"), "/v1/hosts/db1/sudoers"
    server = serving(store)
    count.same("post", replied(server, "POST", "/v1/relays/chat/messages", REQUEST), (200, "ack\n"))
    count.same("get", replied(server, "GET", file), (200, bare()))
    count.same("print meanwhile", ask("print", store, "db1"), ("", "F1 FileFailed\n", 2))
    count.same(
        "deliver meanwhile", ask("deliver", store, "chat", [APPROVAL]), ("", "F1 FileFailed\n", 2)
    )
    count.same("sqlite3 meanwhile", "locked" in told(store, "SELECT count(*) FROM messages"), True)
    count.same(
        "post", replied(server, "POST", "/v1/relays/chat/messages", APPROVAL), (200, "ack\n")
    )
    server.end(signal.SIGKILL)
    count.same("print after a kill", ask("print", store, "db1"), (bare() + LINE, "", 0))
    for how in (signal.SIGTERM, signal.SIGKILL):
        server = serving(store)
        count.same("get after a start", replied(server, "GET", file), (200, bare() + LINE))
        count.same(
            "post again",
            replied(server, "POST", "/v1/relays/mail/messages", APPROVAL),
            (200, "ack\n"),
        )
        server.end(how)
    count.same("the messages served", store_files.read(store)[1], sorted([REQUEST, APPROVAL]))
    list_messages(count, folder)
    kill_serving(count, store)


def list_messages(count: Count, folder: str) -> None:
    """`GET /v1/messages` is what `sqlite3` reads of the same file, in its order of bytes; posted to
    a second desk it is the same there."""
    first, second = (os.path.join(folder, f"{name}.db") for name in ("first", "second"))
    lines = [
        REQUEST,
        *map(desk.approval, range(1_200)),
        APPROVAL.replace("approve", "refuse"),
        APPROVAL.replace("20260105083000Z", "20260104235959Z"),
    ]
    ask("deliver", first, "chat", lines)
    server = serving(first)
    listed = replied(server, "GET", "/v1/messages")
    count.same("messages of a head", replied(server, "HEAD", "/v1/messages"), (200, ""))
    server.end()
    count.same(
        "all messages", listed, (200, told(first, "SELECT body FROM messages ORDER BY body"))
    )
    count.same(
        "all messages, sorted here",
        listed[1].encode().splitlines(),
        sorted(line.encode() for line in {*lines}),
    )
    count.same(
        "delivered to a second desk",
        ask("deliver", second, "mail", listed[1].splitlines()),
        ("ack\n" * len({*lines}), "", 0),
    )
    server = serving(second)
    count.same("all messages of the second desk", replied(server, "GET", "/v1/messages"), listed)
    server.end()


def kill_serving(count: Count, store: str) -> None:
    """Each message that a server acknowledged before it was killed is there, and at most one
    more."""
    chance, before = random.Random(12), [REQUEST, APPROVAL]
    for start in range(100, 1_100, 50):
        server = serving(store)
        sent = [desk.approval(no) for no in range(start, start + chance.randrange(1, 50))]
        for body in sent:
            count.same(
                "post", replied(server, "POST", "/v1/relays/chat/messages", body), (200, "ack\n")
            )
        last = desk.approval(start + 49)
        peer = http.client.HTTPConnection("127.0.0.1", server.port, timeout=20)
        peer.request("POST", "/v1/relays/chat/messages", last)
        time.sleep(chance.random() / 500)
        server.end(signal.SIGKILL)
        before += sent
        held = store_files.read(store)[1]
        count.same(
            "the messages after a kill", held in (sorted(before), sorted([*before, last])), True
        )
        before = held


def syncs(count: Count, folder: str, number: int, *options: str) -> int:
    """How often a delivery of so many messages, over a new file, syncs the file and its log."""
    store, trace = (os.path.join(folder, f"synced.{end}") for end in ("db", "trace"))
    traced = ["strace", "-f", "-qq", "-e", "trace=fsync,fdatasync", "-o", trace, *desk.named()]
    words = ["deliver", desk.ROSTER, desk.BASE, store, "chat", *options]
    given = "".join(desk.approval(no) + "\n" for no in range(number))
    done = desk.run([*traced, *words], given, PATIENCE)
    count.same(f"delivered {options}", (done.stdout, done.returncode), ("ack\n" * number, 0))
    count.same(f"held {options}", len(store_files.read(store)[1]), number)
    made = sum(line.endswith(" = 0") for line in desk.read(trace).splitlines())
    for path in (store, store + "-wal", trace):
        os.unlink(path)
    return made


def count_syncs(count: Count, folder: str) -> None:
    """A commit syncs once, and twice where the words say so. (The opening and the first commit sync
    more often: what so many messages more cost is counted.)"""
    for options, wanted in (
        ((), 1),
        (("--sync", "once"), 1),
        (("--sync", "twice"), 2),
    ):
        few, many = (syncs(count, folder, number, *options) for number in (COMMITS, 2 * COMMITS))
        count.same(f"syncs of {COMMITS} messages {options}", many - few, COMMITS * wanted)


def held_by(store: str) -> list[str]:
    """The messages of the file, if it is a desk's by now."""
    if not os.path.exists(store):
        return []
    with store_files.copied(store) as conn:
        tables = {
            name for (name,) in conn.execute("SELECT name FROM sqlite_schema WHERE type = 'table'")
        }
        return [] if not tables else store_files.read(store)[1]


def kill(folder: str, number: int, delay: float, lines: list[str]) -> tuple[bool, int, list[str]]:
    """A delivery that is killed after so many seconds, and then made once more: whether it was
    killed, how many messages it had kept, and what is wrong."""
    store, given = (
        os.path.join(folder, f"killed{number}.db"),
        "".join(line + "\n" for line in lines).encode(),
    )
    with subprocess.Popen(
        [*desk.named(), "deliver", desk.ROSTER, desk.BASE, store, "chat"],
        stdin=subprocess.PIPE,
        stdout=subprocess.DEVNULL,
    ) as process:
        assert process.stdin is not None
        process.stdin.write(given)
        process.stdin.close()
        time.sleep(delay)
        process.kill()
    held = held_by(store)
    faults = (
        []
        if held == sorted(lines[: len(held)])
        else [f"it holds {len(held)} messages, which are no beginning of what was sent"]
    )
    again = ask("deliver", store, "chat", lines)
    faults += (
        [] if again == ("ack\n" * len(lines), "", 0) else [f"delivered again: {str(again)[-200:]}"]
    )
    rows, whole = store_files.read(store)
    faults += (
        []
        if (rows, whole) == ([(1, 2, desk.read(desk.ROSTER))], sorted(lines))
        else ["it does not hold what was sent"]
    )
    for end_of in ("", "-wal"):
        os.unlink(store + end_of)
    return process.returncode == -signal.SIGKILL, len(held), faults


def kill_delivering(count: Count, folder: str) -> None:
    """Kills deliveries, as many at a time as there are processors."""
    chance, lines = random.Random(6), [desk.approval(no) for no in range(SENT)]
    chance.shuffle(lines)
    begun = time.monotonic()
    ask("deliver", os.path.join(folder, "whole.db"), "chat", lines)
    # (the moments stay about the end of a run, however much else the machine does)
    longest, lock = [time.monotonic() - begun], threading.Lock()

    def one(number: int) -> tuple[bool, int, list[str]]:
        with lock:
            delay = chance.random() * longest[0]
        found = kill(folder, number, delay, lines)
        with lock:
            longest[0] *= 1.05 if found[0] else 0.9
        return found

    with concurrent.futures.ThreadPoolExecutor(os.cpu_count()) as workers:
        ended = list(workers.map(one, range(KILLS)))
    for _, held, faults in ended:
        count.same(f"a run killed with {held} messages", faults, [])
    killed = sum(was_killed for was_killed, _, _ in ended)
    print(
        f"{killed} of {KILLS} runs of {SENT} messages killed before their end, with"
        f" {len({held for _, held, _ in ended})} different counts of messages kept"
    )
    count.same("runs that were killed, at least half", killed >= KILLS // 2, True)


def main() -> None:
    desk.tool("sqlite3")
    desk.tool("strace")
    count = Count()
    with tempfile.TemporaryDirectory(dir=desk.MEMORY) as folder:
        for part in (
            read_by_sqlite,
            write_by_sqlite,
            rest_as_one_file,
            serve_over,
            count_syncs,
            kill_delivering,
        ):
            try:
                part(count, folder)
            except sqlite3.DatabaseError as error:
                count.same(part.__name__, error, None)
    print(f"{count.asked} answers about the file of a desk, {count.wrong} otherwise")
    sys.exit(1 if count.wrong else 0)


main()
