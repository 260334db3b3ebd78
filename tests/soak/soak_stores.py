"""Files of a desk that are changed at random, and what a question over each may answer.

Bytes are changed in the file or in its log, whatever they are: the question is refused by name, or
answered as before. Or statements of SQL change rows and tables: the file is whole then, and the
answer must be the one that a second reading of its rows (by Python's `sqlite3` and the tables of
docs/STORE.md) gives, `K1` to `K4` among them. What a constraint of the file refuses is no change,
and is not counted: another is drawn.
"""

from __future__ import annotations

import contextlib
import os
import random
import shutil
import signal
import sqlite3
from typing import NamedTuple

from tests.common import desk, store_files
from tests.soak import soak_texts
from desk_tools.site import Site
from tests.common.tally import Stopped, Tally

Answer = tuple[int, bytes, bytes]
AT = "20260105093000Z"
PAGE = 4_096
EACH = 25  # the changes of one file
K1, K2, K3, K4 = (
    (2, b"", name + b"\n")
    for name in (b"K1 RosterChanged", b"K2 NotADesk", b"K3 OldSchema", b"K4 Storage")
)
REFUSALS = {(2, b"", b"F1 FileFailed\n"), K1, K2, K3, K4}
MARKS = store_files.definition("marks")
LOOSE_MARKS = store_files.definition("marks", "(asker, no, person, kind, at)")
EVERY_TABLE = store_files.TABLES[2]
STATEMENTS = (
    # messages alone
    ("DELETE FROM messages WHERE body = :body",),
    ("DELETE FROM messages",),
    ("UPDATE messages SET body = replace(body, 'bob', 'eve') WHERE body = :body",),
    ("UPDATE messages SET body = body || ' ' WHERE body = :body",),
    ("INSERT INTO messages VALUES (:stray)",),
    ("INSERT INTO messages VALUES ('{}')",),
    # messages with all that follows from them
    ("INSERT INTO messages VALUES (:stray)", "INSERT INTO parked VALUES (:stray, 'ann', 9999)"),
    tuple(f"DELETE FROM {table}" for table in EVERY_TABLE[1:]),
    (
        "DELETE FROM messages WHERE body ->> 'of' = 'ann'",
        "DELETE FROM verdicts",
        "DELETE FROM parked",
    ),
    ("DELETE FROM messages WHERE body IN (SELECT body FROM parked)", "DELETE FROM parked"),
    (
        "DELETE FROM messages WHERE body ->> 'no' = :no",
        "DELETE FROM names WHERE no = :no",
        "DELETE FROM verdicts WHERE no = :no",
        "DELETE FROM parked WHERE no = :no",
    ),
    # rows that do not follow from them
    ("DELETE FROM names WHERE no = :no",),
    ("UPDATE names SET disputed = 1 - disputed WHERE no = :no",),
    ("UPDATE names SET body = :body WHERE no = :no",),
    ("DELETE FROM verdicts WHERE no = :no",),
    ("UPDATE verdicts SET at = at + 1 WHERE no = :no",),
    ("UPDATE verdicts SET person = 'eve' WHERE no = :no",),
    ("UPDATE verdicts SET kind = 'revoke' WHERE no = :no",),
    ("INSERT INTO verdicts VALUES ('ann', :no, 'bob', 'approve', 1767601800)",),
    ("DELETE FROM parked",),
    ("UPDATE parked SET no = no + 1",),
    ("INSERT INTO parked VALUES (:body, 'ann', :no)",),
    # the desk's own row
    ("UPDATE desk SET schema = 7",),
    ("UPDATE desk SET schema = 1",),
    ("UPDATE desk SET roster = roster || '#'",),
    ("UPDATE desk SET id = 2",),
    ("DELETE FROM desk",),
    ("INSERT INTO desk SELECT 2, schema, roster FROM desk",),
    # tables
    ("DROP TABLE messages",),
    ("DROP TABLE verdicts",),
    ("DROP TABLE desk",),
    tuple(f"DROP TABLE {table}" for table in EVERY_TABLE),
    ("ALTER TABLE messages RENAME TO others",),
    ("ALTER TABLE parked ADD COLUMN at INTEGER",),
    ("ALTER TABLE names RENAME COLUMN body TO text",),
    ("CREATE TABLE more (x)", "INSERT INTO more VALUES (7)"),
    ("CREATE TABLE more (of TEXT REFERENCES parked (body))",),
    (MARKS,),
    (MARKS, "INSERT INTO marks VALUES ('ann', 7, 'bob', 'approve', 1767601800)"),
    (MARKS, "DROP TABLE verdicts", "UPDATE desk SET schema = 1"),
    (MARKS, "DROP TABLE verdicts"),
    (LOOSE_MARKS,),
    (LOOSE_MARKS, "INSERT INTO marks VALUES (NULL, 1.5, x'00', 'approve', 'never')"),
    (LOOSE_MARKS, "DROP TABLE verdicts", "UPDATE desk SET schema = 1"),
    ("CREATE VIEW marks AS SELECT 1 AS asker, 2 AS no, 3 AS person, 4 AS kind, 5 AS at",),
    ("CREATE INDEX by_person ON verdicts (person)",),
    ("CREATE VIEW seen AS SELECT body FROM messages",),
    # pages
    ("VACUUM",),
    ("REINDEX",),
    ("PRAGMA journal_mode = delete", "PRAGMA page_size = 512", "VACUUM"),
    ("DELETE FROM parked WHERE no > 9000", "VACUUM", "PRAGMA journal_mode = wal"),
)


class Whole(NamedTuple):
    """A file as the desk left it, with its log, its messages, what is asked over it and what is
    answered."""

    file: bytes
    log: bytes
    bodies: list[str]
    asked: list[str]
    answer: Answer


def long_request(chance: random.Random, number: int) -> str:
    """A request whose text takes more than a page."""
    words = " ".join(["y" * chance.randint(40, 60) for _ in range(3)])
    commands = sorted({f"/usr/local/sbin/{chance.randrange(10**6)} {words}" for _ in range(16)})
    return desk.request(number, cmnds=commands)


def drawn(chance: random.Random, count: int) -> list[str]:
    """Messages that the roster of examples/ admits, in the order in which they come: requests, some
    of one name, and verdicts, of which some have no request."""
    bodies = [desk.request(number) for number in range(max(1, count // 3))]
    if chance.random() < 0.3:
        bodies.append(desk.request(0, hosts=["db2"]))
    if chance.random() < 0.2:
        bodies.append(long_request(chance, count))
    while len(bodies) < count:
        more = {"kind": chance.choice(["approve", "refuse"]), "by": chance.choice(["bob", "eve"])}
        bodies.append(desk.approval(chance.randrange(count // 2 + 1), **more))
        bodies = list(dict.fromkeys(bodies))
    chance.shuffle(bodies)
    return bodies


def question(words: list[str], asked: list[str], store: str) -> list[str]:
    return [*words, asked[0], desk.ROSTER, desk.BASE, store, *asked[1:]]


def lines(bodies: list[str]) -> bytes:
    return "".join(f"{body}\n" for body in bodies).encode()


def whole(tally: Tally, chance: random.Random, words: list[str], folder: str) -> Whole:
    """A file at rest, or one whose log was not merged, since the server was killed."""
    store = os.path.join(folder, "whole.db")
    bodies = drawn(chance, chance.choice([2, 10, 10, 60]))
    kept = len(bodies) if chance.random() < 0.6 else len(bodies) // 2
    tally.run([*words, "deliver", desk.ROSTER, desk.BASE, store, "chat"], lines(bodies[:kept]))
    if kept < len(bodies):
        with desk.Server(store, program=words) as server:
            for body in bodies[kept:]:
                desk.exchange(server.port, desk.posted(b"chat", body.encode()))
            server.end(signal.SIGKILL)
    file, log = (read(store + end) for end in ("", "-wal"))
    asked = chance.choice([["review", AT], ["review", AT], ["print", "db1"]])
    answer = tally.run(question(words, asked, store))
    tally.compare("what a whole file answers", answer[::2], (0, b""))
    return Whole(file, log, bodies, asked, answer)


def read(path: str) -> bytes:
    with open(path, "rb") as file:
        return file.read()


def pages_changed(chance: random.Random, given: bytes) -> bytes:
    """Bytes, the header, a page's own header, whole pages or the length are changed."""
    kind, made = chance.randrange(9), bytearray(given)
    pages = max(1, len(given) // PAGE)
    page, other = chance.randrange(pages) * PAGE, chance.randrange(pages) * PAGE
    if not given:
        return bytes(chance.randrange(256) for _ in range(chance.choice([1, 41, 100, PAGE])))
    if kind == 0:
        for _ in range(chance.randint(1, 3)):
            made[chance.randrange(len(made))] ^= 1 << chance.randrange(8)
    elif kind == 1:
        at = chance.randrange(len(made))
        some = chance.choice([bytes(64), b"\xff" * 64, chance.randbytes(64)])
        made[at : at + chance.randint(1, 64)] = some[: chance.randint(1, 64)]
    elif kind == 2:
        return given[: chance.randrange(len(given))]
    elif kind == 3:
        return given + chance.randbytes(chance.choice([1, 24, 100, PAGE]))
    elif kind == 4:
        made[page : page + PAGE] = given[other : other + PAGE]
    elif kind == 5:
        made[page : page + PAGE] = bytes(len(made[page : page + PAGE]))
    elif kind == 6:
        made[chance.randrange(min(100, len(made)))] = chance.randrange(256)
    elif kind == 7:
        at = page + (100 if page == 0 else 0) + chance.randrange(40)
        made[min(at, len(made) - 1)] = chance.randrange(256)
    else:
        used = [place for place, byte in enumerate(given) if byte]
        made[chance.choice(used)] = chance.randrange(256)
    return bytes(made)


def stores(words: list[str], seed: str, count: int, folder: str) -> Tally:
    """Files that were changed, a question over each."""
    tally, chance = Tally(), random.Random(seed)
    held = soak_texts.site(read(desk.ROSTER))
    for start in range(0, count, EACH):
        room = os.path.join(folder, str(start))
        os.mkdir(room)
        try:
            made = whole(tally, chance, words, room)
        except Stopped:
            continue
        soak = Soak(tally, chance, words, made, room, held)
        for _ in range(min(EACH, count - start)):
            tally.inputs += 1
            with contextlib.suppress(Stopped):
                soak.change()
        shutil.rmtree(room)
    return tally


class Soak:
    """One whole file, changed again and again."""

    def __init__(
        self,
        tally: Tally,
        chance: random.Random,
        words: list[str],
        made: Whole,
        room: str,
        held: Site,
    ) -> None:
        self.tally, self.chance, self.words, self.made = tally, chance, words, made
        self.room, self.store, self.held = room, os.path.join(room, "desk.db"), held

    def change(self) -> None:
        if self.chance.random() < 0.2:
            said = self.change_rows()
            kind = "SQL"
        else:
            said = kind = self.change_bytes()
        file, log = (
            read(self.store + end) if os.path.exists(self.store + end) else b""
            for end in ("", "-wal")
        )
        wanted = self.second()
        got = self.tally.run(question(self.words, self.made.asked, self.store))
        as_before = "as before" if got == self.made.answer else "by its rows"
        name = got[2].decode("ascii", "replace").strip() or as_before
        self.tally.answers[f"{name}, {kind}"] += 1
        if not self.is_right(got, wanted, kind == "SQL"):
            keep = os.path.join(desk.BUILD, f"denied-{self.chance.randrange(10**9)}.db")
            for path, data in ((keep, file), (keep + "-wal", log)):
                desk.write(*os.path.split(path), data)
            self.tally.deny((said, self.made.asked, keep), got, wanted)

    def is_right(self, got: Answer, wanted: Answer | None, is_whole: bool) -> bool:
        """Whether the answer is the one of the rows; or, of bytes that were changed, a refusal by
        name, or the answer of before."""
        if is_whole:
            return got == wanted
        return got in REFUSALS or got in (self.made.answer, wanted)

    def put(self, file: bytes, log: bytes) -> None:
        """Puts the file and its log in their places, and nothing else."""
        with contextlib.suppress(FileNotFoundError):
            os.unlink(self.store + "-shm")
        for end, data in (("", file), ("-wal", log)):
            desk.write(*os.path.split(self.store + end), data)

    def change_bytes(self) -> str:
        """Changes bytes of the file or of its log: which of them it was."""
        file, log = self.made.file, self.made.log
        if self.chance.random() < 0.25:
            self.put(file, pages_changed(self.chance, log))
            return "the log"
        self.put(pages_changed(self.chance, file), log)
        return "the file"

    def change_rows(self) -> tuple[str, ...]:
        """Does statements over the file, whichever its constraints allow: which they were."""
        while True:
            statements = self.chance.choice(STATEMENTS)
            texts = {
                "body": self.chance.choice(self.made.bodies),
                "stray": desk.approval(9_999, by="carol"),
                "no": self.chance.randrange(len(self.made.bodies) // 3 + 1),
            }
            self.put(self.made.file, self.made.log)
            with contextlib.suppress(sqlite3.IntegrityError):
                with store_files.connected(self.store) as conn:
                    for each in statements:
                        used = {key: it for key, it in texts.items() if f":{key}" in each}
                        conn.execute(each, used)
                return statements

    def second(self) -> Answer | None:
        """What must be answered by the rows that Python's `sqlite3` reads; None where it cannot
        read them, or where they hold what the roster of examples/ does not admit."""
        try:
            with store_files.copied(self.store) as conn:
                # (whatever bytes a text has)
                conn.text_factory = lambda data: data.decode("utf-8", "surrogateescape")
                found = Rows(conn, self.held).found()
        except (sqlite3.Error, TypeError, ValueError, OverflowError):
            return None
        if not isinstance(found, list):
            return found
        if sorted(found) == sorted(self.made.bodies):
            return self.made.answer
        return self.tally.run(question(self.words, self.made.asked, "-"), lines(found))


class Rows:
    """What a file is, by its rows."""

    def __init__(self, conn: sqlite3.Connection, held: Site) -> None:
        self.conn, self.held = conn, held

    def found(self) -> Answer | list[str] | None:
        """The refusal that comes first, or the messages of a desk."""
        schema = list(self.conn.execute("SELECT name, type, sql FROM sqlite_schema"))
        names = {name.lower() for name, _, _ in schema} & store_files.COLUMNS.keys()
        refers = any(kind == "table" and "REFERENCES" in sql for _, kind, sql in schema)
        if not names:
            return None if refers else []
        is_old = "verdicts" not in names
        tables = store_files.TABLES[1 if is_old else 2]
        if not {*tables} <= names <= {*tables, "marks"} or not all(map(self.has, names)):
            return K2
        rows = list(self.conn.execute("SELECT id, schema, roster FROM desk"))
        if [row[:2] for row in rows] != [(1, 1 if is_old else 2)]:
            return K2
        if "marks" in names and not is_old and list(self.conn.execute("SELECT * FROM marks")):
            return K2
        bodies = [body for (body,) in self.conn.execute("SELECT body FROM messages NOT INDEXED")]
        said = [self.said(body) for body in bodies]
        if any(it.startswith("M") for it in said):
            return K2
        if is_old:
            return K3
        if rows[0][2] != desk.read(desk.ROSTER):
            return K1
        if refers or not self.follow(bodies):
            return K4
        return bodies if {*said} <= {"ack"} else None

    def has(self, table: str) -> bool:
        """Whether the table has the columns that a desk's has; `marks` counts by their names."""
        if table == "marks":
            kinds = "SELECT type FROM sqlite_schema WHERE lower(name) = 'marks'"
            names = self.conn.execute("SELECT name FROM pragma_table_info('marks')")
            wanted = ["asker", "no", "person", "kind", "at"]
            is_table = list(self.conn.execute(kinds)) == [("table",)]
            return is_table and [name for (name,) in names] == wanted
        with contextlib.closing(sqlite3.connect(":memory:")) as other:
            other.execute(store_files.definition(table))
            query = f"SELECT name, type, [notnull], pk FROM pragma_table_info('{table}')"
            return list(self.conn.execute(query)) == list(other.execute(query))

    def said(self, body: object) -> str:
        """What is answered to a text; a value of another kind is none."""
        if not isinstance(body, str):
            return "M2"
        return soak_texts.answer(self.held, body.encode("utf-8", "surrogateescape"))

    def follow(self, bodies: list[str]) -> bool:
        """Whether the rows of the other tables are those that the messages come to."""
        for table, wanted in store_files.rows_of(bodies).items():
            found = sorted(self.conn.execute(f"SELECT * FROM {table} NOT INDEXED"))
            if table == "names":
                if not all(self.is_of(row, bodies) for row in found):
                    return False
                found = [(*row[:2], None if row[3] == 1 else row[2], row[3]) for row in found]
            if found != wanted:
                return False
        return True

    def is_of(self, row: store_files.Cells, bodies: list[str]) -> bool:
        """Whether the text of a name is that of one of its requests."""
        return row[2] in bodies and store_files.rows_of([row[2]])["names"] == [(*row[:3], 0)]
