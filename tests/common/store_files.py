"""Database files as others make and read them: by Python's `sqlite3`, or as bytes.

A recipe is a table of any of these, done in this order: `pages` (the size of a page), `tables` (the
tables of a desk that are made), `columns` (by table, the text of its columns in the place of its
own), `kept` (the names of the texts that a whole desk keeps, whose tables are all made where
`tables` names none), `schema` (its number, 2 where none is given), `sql` (statements, in which
`:name` stands for a text of that name), `foreign` (the table, and the columns' text by which its
own definition is replaced behind SQLite's back), `log` (the file is left with its log unmerged),
`hex`, `zeros` or `text` (the bytes of the file), `cut` (so many bytes are left), `flipped` (the
places of bytes whose bits are turned round), `folder`, `fifo`, `link` (what the name is in place of
a file), `second_name` (the file has another name beside), `journal` (what lies beside it as
SQLite's rollback journal), `mode` and `folder_mode` (in octal).

What the rows of a set of messages are is said here a second time, by the tables of docs/STORE.md.
"""

import contextlib
import datetime
import json
import os
import shutil
import sqlite3
import subprocess
import sys
import tempfile
from collections.abc import Iterable, Iterator, Mapping
from typing import Any

# writes a file, as long as its standard input is open
HOLDER = """
import sqlite3, sys
held = sqlite3.connect(sys.argv[1], isolation_level=None)
held.execute("BEGIN EXCLUSIVE")
print("held", flush=True)
sys.stdin.read()
"""

Recipe = Mapping[str, Any]
Texts = Mapping[str, str]
# a row of a table
Cells = tuple[Any, ...]
COLUMNS = {
    "desk": "(id INTEGER PRIMARY KEY, schema INTEGER NOT NULL, roster TEXT NOT NULL) STRICT",
    "messages": "(body TEXT PRIMARY KEY NOT NULL) STRICT",
    "names": "(asker TEXT NOT NULL, no INTEGER NOT NULL, body TEXT NOT NULL,"
    " disputed INTEGER NOT NULL, PRIMARY KEY (asker, no)) STRICT",
    "verdicts": "(asker TEXT NOT NULL, no INTEGER NOT NULL, person TEXT NOT NULL,"
    " kind TEXT NOT NULL, at INTEGER NOT NULL, PRIMARY KEY (asker, no, person, kind, at)) STRICT",
    "marks": "(asker TEXT NOT NULL, no INTEGER NOT NULL, person TEXT NOT NULL,"
    " kind TEXT NOT NULL, at INTEGER NOT NULL, PRIMARY KEY (asker, no, person, kind)) STRICT",
    "parked": "(body TEXT PRIMARY KEY NOT NULL, asker TEXT NOT NULL, no INTEGER NOT NULL) STRICT",
}
# the tables of a desk, by its schema
TABLES = {
    1: ("desk", "messages", "names", "marks", "parked"),
    2: ("desk", "messages", "names", "verdicts", "parked"),
}


def definition(table: str, columns: str | None = None) -> str:
    """The statement that makes a table of a desk."""
    return f"CREATE TABLE {table} {columns or COLUMNS[table]}"


def seconds(moment: str) -> int:
    """The seconds of a moment's canonical text."""
    return int(
        datetime.datetime.strptime(moment, "%Y%m%d%H%M%SZ")
        .replace(tzinfo=datetime.UTC)
        .timestamp()
    )


def rows_of(bodies: Iterable[str], schema: int = 2) -> dict[str, list[Cells]]:
    """The rows that a set of messages comes to, by table, in order. The text of a disputed name is
    None: it may be any of its requests."""
    texts = sorted(set(bodies))
    read = [(text, json.loads(text)) for text in texts]
    asked: dict[tuple[str, int], list[str]] = {}
    for text, it in read:
        if it["kind"] == "request":
            asked.setdefault((it["by"], it["no"]), []).append(text)
    spoken = [(text, it) for text, it in read if it["kind"] != "request"]
    about = lambda it: (it["of"], it["no"])
    given = sorted(
        (*about(it), it["by"], it["kind"], seconds(it["at"]))
        for _, it in spoken
        if about(it) in asked
    )
    found: dict[str, list[Cells]] = {
        "messages": [(text,) for text in texts],
        "names": sorted(
            (*name, None if len(asks) > 1 else asks[0], int(len(asks) > 1))
            for name, asks in asked.items()
        ),
        "parked": [(text, *about(it)) for text, it in spoken if about(it) not in asked],
    }
    if schema == 1:
        # the earliest of each person and kind
        found["marks"] = [
            row for n, row in enumerate(given) if n == 0 or given[n - 1][:4] != row[:4]
        ]
    else:
        found["verdicts"] = given
    return found


def connected(path: str) -> contextlib.closing[sqlite3.Connection]:
    """A connection that commits each statement, and is closed at the end."""
    return contextlib.closing(sqlite3.connect(path, isolation_level=None))


def put_rows(conn: sqlite3.Connection, bodies: Iterable[str], schema: int) -> None:
    """Puts in the rows that the messages come to."""
    kept = sorted(set(bodies))
    asks = {
        (it["by"], it["no"]): text
        for text in kept
        if (it := json.loads(text))["kind"] == "request"
    }
    for table, rows in rows_of(kept, schema).items():
        if table == "names":
            rows = [(*row[:2], asks[row[:2]], row[3]) for row in rows]
        if rows:
            places = ", ".join("?" * len(rows[0]))
            conn.executemany(f"INSERT INTO {table} VALUES ({places})", rows)


def fill(conn: sqlite3.Connection, made: Recipe, texts: Texts) -> None:
    """Makes what a recipe says of tables and rows."""
    if "pages" in made:
        conn.execute(f"PRAGMA page_size = {made['pages']}")
    schema = made.get("schema", 2)
    for table in made.get("tables", TABLES[schema] if "kept" in made else ()):
        conn.execute(definition(table, made.get("columns", {}).get(table)))
    if "kept" in made:
        conn.execute("INSERT INTO desk VALUES (1, ?, ?)", (schema, texts["roster"]))
        put_rows(conn, (texts[name] for name in made["kept"]), schema)
    for statement in made.get("sql", ()):
        conn.execute(statement, texts)


def leave_log(path: str, made: Recipe, texts: Texts) -> None:
    """Makes the tables and rows in WAL mode, and leaves all of it in the log."""
    with tempfile.TemporaryDirectory() as folder:
        beside = os.path.join(folder, "made.db")
        with connected(beside) as conn:
            conn.execute("PRAGMA journal_mode = wal")
            conn.execute("PRAGMA wal_autocheckpoint = 0")
            fill(conn, made, texts)
            for end in ("", "-wal"):
                shutil.copy(beside + end, path + end)


def redefine(path: str, table: str, columns: str) -> None:
    """Puts another definition in the place of the table's, which its rows need not obey."""
    with connected(path) as conn:
        conn.execute("PRAGMA writable_schema = on")
        conn.execute(
            "UPDATE sqlite_schema SET sql = ? WHERE name = ?",
            (f"CREATE TABLE {table} {columns}", table),
        )
        conn.execute("PRAGMA writable_schema = reset")


def write_bytes(path: str, made: Recipe) -> None:
    if "hex" in made or "zeros" in made or "text" in made:
        with open(path, "wb") as file:
            file.write(
                bytes.fromhex(made.get("hex", ""))
                + bytes(made.get("zeros", 0))
                + made.get("text", "").encode()
            )
    if "cut" in made:
        os.truncate(path, made["cut"])
    for place in made.get("flipped", []):
        with open(path, "r+b") as file:
            file.seek(place)
            [byte] = file.read(1)
            file.seek(place)
            file.write(bytes([byte ^ 0xFF]))


def name_otherwise(path: str, made: Recipe) -> None:
    if "folder" in made:
        os.mkdir(path)
    if "fifo" in made:
        os.mkfifo(path)
    if "link" in made:
        os.symlink(made["link"], path)
    if "second_name" in made:
        os.link(path, path + ".second")
    if "journal" in made:
        with open(path + "-journal", "w") as file:
            file.write(made["journal"])


def make(path: str, made: Recipe, texts: Texts) -> None:
    """Makes the file of a recipe; the names in its SQL stand for these texts."""
    if "log" in made:
        leave_log(path, made, texts)
    elif {"kept", "tables", "sql"} & made.keys():
        with connected(path) as conn:
            fill(conn, made, texts)
    if "foreign" in made:
        redefine(path, *made["foreign"])
    write_bytes(path, made)
    name_otherwise(path, made)
    if "mode" in made:
        os.chmod(path, int(made["mode"], 8))
    if "folder_mode" in made:
        os.chmod(os.path.dirname(path), int(made["folder_mode"], 8))


def make_desk(path: str, roster: str, bodies: Iterable[str] = (), schema: int = 2) -> None:
    """The file of a desk with these messages, in one commit."""
    with connected(path) as conn:
        conn.execute("BEGIN")
        for table in TABLES[schema]:
            conn.execute(definition(table))
        conn.execute("INSERT INTO desk VALUES (1, ?, ?)", (schema, roster))
        put_rows(conn, bodies, schema)
        conn.execute("COMMIT")


@contextlib.contextmanager
def copied(path: str) -> Iterator[sqlite3.Connection]:
    """A connection to a copy of the file and its log: to open the file itself would merge its
    log."""
    with tempfile.TemporaryDirectory() as folder:
        copy = os.path.join(folder, "copy.db")
        for end in ("", "-wal"):
            if os.path.exists(path + end):
                shutil.copy(path + end, copy + end)
        with connected(copy) as conn:
            yield conn


def read(path: str) -> tuple[list[Cells], list[str]]:
    """The rows of the desk's tables: those of `desk`, and the texts of the messages, in order. A
    row beside them that does not follow from the messages is an error, and so is one that lacks."""
    with copied(path) as conn:
        [[checked]] = conn.execute("PRAGMA integrity_check")
        if checked != "ok":
            raise sqlite3.DatabaseError(checked)
        desk = list(conn.execute("SELECT * FROM desk"))
        bodies = [body for (body,) in conn.execute("SELECT body FROM messages ORDER BY body")]
        for table, wanted in rows_of(bodies).items():
            found = sorted(conn.execute(f"SELECT * FROM {table}"))
            if table == "names":
                known = {*bodies}
                strays = [row for row in found if row[2] not in known]
                if strays:
                    raise sqlite3.DatabaseError(f"names: {strays[0]}")
                found = [(*row[:2], None if row[3] else row[2], row[3]) for row in found]
            if found != wanted:
                raise sqlite3.DatabaseError(f"{table}: {found[:3]} and not {wanted[:3]}")
        return desk, bodies


def is_vacant(path: str) -> bool:
    """Whether a file, with its log, has no table of a desk's name. One that is no database is not
    vacant, and one that is not there is."""
    if not os.path.lexists(path):
        return True
    if not os.path.isfile(path):
        return False
    with contextlib.suppress(sqlite3.Error, OSError):
        names = {name for (name,) in asked(path, "SELECT lower(name) FROM sqlite_schema")}
        return not names & {*COLUMNS}
    return False


def asked(path: str, query: str) -> list[list[Any]]:
    """The rows of a query."""
    with copied(path) as conn:
        return [list(row) for row in conn.execute(query)]


def as_it_is(path: str) -> tuple[int, bytes] | int | None:
    """What stands at the path: nothing, or its kind, its mode and its bytes."""
    if not os.path.lexists(path):
        return None
    found = os.lstat(path)
    if not os.path.isfile(path):
        return found.st_mode
    with open(path, "rb") as file:
        return found.st_mode, file.read()


@contextlib.contextmanager
def taken(path: str) -> Iterator[None]:
    """The file is written by another process meanwhile. (Not by this one: the locks of a process on
    a file end when it closes the file, as `is_vacant` does.)"""
    words = [sys.executable, "-c", HOLDER, path]
    with subprocess.Popen(words, stdin=subprocess.PIPE, stdout=subprocess.PIPE) as holder:
        assert holder.stdin is not None and holder.stdout is not None
        assert holder.stdout.readline() == b"held\n"
        yield
        holder.stdin.close()


def clear(folder: str) -> None:
    """Takes away what a case left in the folder, and lets all be written again."""
    os.chmod(folder, 0o700)
    for name in os.listdir(folder):
        path = os.path.join(folder, name)
        if os.path.isdir(path) and not os.path.islink(path):
            os.chmod(path, 0o700)
            shutil.rmtree(path)
        else:
            os.unlink(path)
