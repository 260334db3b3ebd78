#!/usr/bin/env python3
"""Runs desk-cut over stores of random histories: what stays and what goes to the archive, beside
the definition; the tables, the roster and the mode of the store that begins; an audit of both,
which is that of the whole; a cut of what was cut; stores that are written to meanwhile. And what it
refuses: each refusal leaves every file as it was.

`python3 -m tests.cases.cuts DESK` runs another desk than build/desk; desk-audit and desk-cut are
beside it. The last line has the counts.
"""

from __future__ import annotations

import contextlib
import fcntl
import os
import random
import sqlite3
import sys
import tempfile
import threading
import time
from collections.abc import Iterator, Sequence

from tests.cases.random_cuts import Answers, History
from tests.common import desk, store_files

DESK, AUDIT, CUT = desk.named()[-1], desk.audit_beside(), desk.cut_beside()
COUNT = int(os.environ.get("COUNT", "6"))
PAST, LATER = "20260105120000Z", "20260201000000Z"  # the second when all has ended
DAY = 86_400
# what is asked of an audit
ASKED = ([], ["--json"], ["--json", "--person", "ann"], ["--host", "db1"])
USAGE = "usage: desk-cut OLD NEW T [--archive FILE]\n"
BARE = ["setpriv", "--bounding-set", "-all", "--inh-caps", "-all", "--no-new-privs"]
BARE += ["--reuid", "65534", "--regid", "65534", "--clear-groups"]


class Tally:
    def __init__(self) -> None:
        self.checks = 0
        self.wrong: list[str] = []

    def same(self, what: str, found: object, wanted: object) -> None:
        self.checks += 1
        if found != wanted:
            self.wrong.append(f"{what}: {str(found)[:600]}, not {str(wanted)[:600]}")


def run(*words: str, given: str = "", before: Sequence[str] = ()) -> tuple[str, str, int]:
    ran = desk.run([*before, *words], given)
    return ran.stdout, ran.stderr, ran.returncode


def listing(folder: str) -> dict[str, bytes]:
    """Each file of the folder, and its bytes."""
    found = {}
    for entry in os.scandir(folder):
        if entry.is_file():
            with open(entry.path, "rb") as file:
                found[entry.name] = file.read()
    return found


def rows(path: str) -> dict[str, list[tuple[object, ...]]]:
    """The rows of a store's tables, as SQLite reads them, once it says that the file is sound."""
    with contextlib.closing(sqlite3.connect(f"file:{path}?mode=ro", uri=True)) as base:
        sound = base.execute("PRAGMA integrity_check").fetchall()
        assert sound == [("ok",)], sound
        names = ("desk", "messages", "names", "verdicts", "parked")
        return {name: sorted(base.execute(f"SELECT * FROM {name}")) for name in names}


def names_of(found: list[tuple[object, ...]]) -> list[tuple[object, ...]]:
    """The rows of names, without the text of one that is disputed, which is that of any."""
    return [
        (by, no, None if is_disputed else text, is_disputed) for by, no, text, is_disputed in found
    ]


def texts(path: str) -> list[str]:
    return [str(row[0]) for row in rows(path)["messages"]]


class Room:
    """A folder with a roster, a base, and a store of a random history."""

    def __init__(self, folder: str, chance: random.Random) -> None:
        self.folder = folder
        answers = Answers(folder, DESK, chance)
        self.history = History(chance, answers)
        self.asked = [answers.roster, answers.base]
        self.old, self.new, self.gone = map(self.path, ("old.db", "new.db", "gone.messages"))
        self.fill(self.old, self.history.lines)

    def path(self, name: str) -> str:
        return os.path.join(self.folder, name)

    def fill(self, path: str, lines: Sequence[str]) -> None:
        words = [DESK, "deliver", *self.asked, path, "web"]
        run(*words, given="".join(line + "\n" for line in lines))

    def cut(self, moment: str) -> tuple[str, str, int]:
        return run(CUT, self.old, self.new, moment, "--archive", self.gone)

    def audit(self, words: Sequence[str], *places: str, given: str = "") -> tuple[str, str, int]:
        return run(AUDIT, *self.asked, *places, *words, given=given)


@contextlib.contextmanager
def room(chance: random.Random) -> Iterator[Room]:
    with tempfile.TemporaryDirectory(dir=desk.MEMORY) as folder:
        os.chmod(folder, 0o755)
        yield Room(folder, chance)


def of_history(tally: Tally, at: Room) -> None:
    """A cut of a history, beside its definition."""
    it = at.history
    os.chmod(at.old, 0o640)
    before = listing(at.folder)
    kept, archived = sorted(set(it.kept)), sorted(set(it.archived))
    said = f"{len(kept)} messages stay, {len(archived)} archived\n"
    tally.same("what is said", at.cut(it.moment), (said, "", 0))
    after = listing(at.folder)
    tally.same("what was there", {name: after.get(name) for name in before}, before)
    made = {"new.db", "gone.messages"}
    tally.same("the files that are new", set(after) - set(before), made)
    tally.same("the archive", sorted(desk.read(at.gone).splitlines()), archived)
    tally.same("the messages that stay", texts(at.new), kept)
    found, whole = rows(at.new), rows(at.old)
    tally.same("the roster", found["desk"], whole["desk"])
    named = store_files.rows_of(texts(at.old))["names"]
    tally.same("the names", names_of(found["names"]), named)
    tally.same("what waits", found["parked"], whole["parked"])
    wanted = store_files.rows_of(kept)["verdicts"]
    tally.same("the verdicts", found["verdicts"], wanted)
    for path in (at.new, at.gone):
        tally.same(f"the mode of {path}", oct(os.stat(path).st_mode), oct(0o100640))


def audited(tally: Tally, at: Room) -> int:
    """The audit of store and archive is the whole's, byte for byte; also over texts. How often that
    of the store alone is another one."""
    others = 0
    given = "".join(f"{text}\n" for text in texts(at.new))
    for words in ASKED:
        whole = at.audit(words, at.old)
        tally.same(f"the audit {words}", at.audit(words, at.new, at.gone), whole)
        tally.same(f"the audit of texts {words}", at.audit(words, "-", at.gone, given=given), whole)
        others += at.audit(words, at.new) != whole
    return others


def again(tally: Tally, at: Room) -> None:
    """What was cut is cut again a day later: both archives and the rest are the whole."""
    whole = at.audit(["--json"], at.old)
    later = desk.stamp(store_files.seconds(at.history.moment) + DAY)
    rest, more = at.path("rest.db"), at.path("more.messages")
    status = run(CUT, at.new, rest, later, "--archive", more)[2]
    tally.same("a second cut", status, 0)
    tally.same("the audit after two", at.audit(["--json"], rest, at.gone, more), whole)


def of_archives(tally: Tally, at: Room) -> None:
    """An archive that is none is named, whichever it is; one that is given twice counts once."""
    whole = at.audit(["--json"], at.old)
    tally.same("the cut", at.cut(LATER)[1:], ("", 0))
    lines = desk.read(at.gone).splitlines(keepends=True)
    tally.same("whether the archive has something", len(lines) > 2, True)
    halves = [at.path("one"), at.path("other")]
    for path, some in zip(halves, (lines[:2], lines[1:]), strict=True):
        desk.write(at.folder, os.path.basename(path), "".join(some))
    tally.same("two that overlap", at.audit(["--json"], at.new, *halves[::-1]), whole)
    tally.same("one, twice", at.audit(["--json"], at.new, at.gone, at.gone), whole)
    none = at.path("none")
    missing = f"F1 FileFailed\ncause: {none}: No such file or directory (os error 2)\n"
    tally.same("no archive", at.audit([], at.new, at.gone, none), ("", missing, 2))
    for name, text, why in (
        ("cut-short", "".join(lines)[:-9], f"line {len(lines)}: M2 NotCanonical"),
        ("empty-line", lines[0] + "\n" + lines[1], "line 2: M2 NotCanonical"),
        ("no-message", lines[0] + "{}\n", "line 2: M3 BadField"),
        ("long", lines[0] + "x" * 20_000, "line 2: M1 TooLong"),
    ):
        path = desk.write(at.folder, name, text)
        said = f"F1 FileFailed\ncause: {path}: {why}\n"
        tally.same(f"an archive, {name}", at.audit([], at.new, path), ("", said, 2))
    for path in (at.new, at.gone):
        os.remove(path)


def histories(tally: Tally) -> None:
    chance = random.Random(23)
    others = archived = 0
    for _ in range(COUNT):
        with room(chance) as at:
            of_history(tally, at)
            others += audited(tally, at)
            archived += len(at.history.archived)
            again(tally, at)
    tally.same("whether the archives have something", archived > 0 and others > 0, True)


def refused(
    tally: Tally, at: Room, what: str, words: Sequence[str], err: str, before: Sequence[str] = ()
) -> None:
    """A cut that is refused, with this on the standard error, and changes no file."""
    files = listing(at.folder)
    tally.same(what, run(CUT, *words, before=before), ("", err, 2))
    tally.same(f"the files after {what}", listing(at.folder), files)


def of_words(tally: Tally, at: Room) -> None:
    old, new = at.old, at.new
    for words in ([], [old, new], [old, new, PAST, "more"], [old, new, PAST, "--archive"]):
        refused(tally, at, f"the words {words}", words, USAGE)
    doubled = [old, new, PAST, "--archive", at.gone, "--archive", at.gone]
    refused(tally, at, "two archives", doubled, USAGE)
    refused(tally, at, "another option", [old, new, PAST, "--json"], USAGE)
    for moment in ("20260105", "20261305000000Z", "2026-01-05", "", "20260105090000+0100"):
        refused(tally, at, f"the moment {moment!r}", [old, new, moment], "F2 BadWord\n")
    for path in ("", f"{old}-wal", f"{new}.part", f"{new}/"):
        refused(tally, at, f"the new store {path}", [old, path, PAST], "F2 BadWord\n")
        words = [old, new, PAST, "--archive", path]
        refused(tally, at, f"the archive {path}", words, "F2 BadWord\n")
    refused(tally, at, "one name for both", [old, new, PAST, "--archive", new], "F2 BadWord\n")


def of_clocks(tally: Tally, at: Room) -> None:
    """A moment that is no day behind the clock."""
    for early in (-DAY, 0, DAY - 60):
        moment = desk.stamp(time.time() - early)
        before = listing(at.folder)
        out, err, status = run(CUT, at.old, at.new, moment)
        found = (out, err.splitlines()[0], status)
        tally.same(f"a cut {early} seconds ago", found, ("", "C1 CutTooLate", 2))
        tally.same("the files", listing(at.folder), before)
    moment = desk.stamp(time.time() - DAY - 1)
    tally.same("a cut a day ago", run(CUT, at.old, at.new, moment)[2], 0)
    os.remove(at.new)


def of_stores(tally: Tally, at: Room) -> None:
    """What is no desk to be cut."""
    none = at.path("none.db")
    refused(tally, at, "no store", [none, at.new, PAST], f"no store here: {none}\n")
    desk.write(at.folder, "empty.db", "")
    empty = at.path("empty.db")
    refused(tally, at, "an empty file", [empty, at.new, PAST], f"no store here: {empty}\n")
    text = desk.write(at.folder, "text.db", "no database\n")
    why = "file is not a database that obeys its schema"
    said = f"F1 FileFailed\ncause: {text}: {why}\n"
    refused(tally, at, "no database", [text, at.new, PAST], said)
    cut = desk.write(at.folder, "short.db", listing(at.folder)["old.db"][:9000])
    said = f"F1 FileFailed\ncause: {cut}: database disk image is malformed\n"
    refused(tally, at, "a part of a store", [cut, at.new, PAST], said)
    os.mkfifo(at.path("pipe"))
    for path in (at.folder, at.path("pipe"), "/dev/zero"):
        said = f"F1 FileFailed\ncause: {path}: not a regular file\n"
        refused(tally, at, f"the old store {path}", [path, at.new, PAST], said)
    for name, tables, said in (
        ("other.db", "CREATE TABLE messages (id INTEGER PRIMARY KEY) STRICT", "K2 NotADesk\n"),
        ("old-form.db", "", "K3 OldSchema\n"),
    ):
        path = at.path(name)
        with contextlib.closing(sqlite3.connect(path)) as base:
            if tables:
                base.execute(tables)
            else:
                for table in store_files.TABLES[1]:
                    base.execute(store_files.definition(table))
                base.execute("INSERT INTO desk VALUES (1, 1, 'a roster')")
            base.commit()
        refused(tally, at, name, [path, at.new, PAST], said)
    os.chmod(at.old, 0)
    said = f"F1 FileFailed\ncause: {at.old}: Permission denied (os error 13)\n"
    os.chmod(at.folder, 0o777)
    refused(tally, at, "a store that may not be read", [at.old, at.new, PAST], said, BARE)
    os.chmod(at.folder, 0o755)
    os.chmod(at.old, 0o644)
    part = f"{at.new}.part"
    said = f"F1 FileFailed\ncause: {part}: Permission denied (os error 13)\n"
    refused(tally, at, "a folder that may not be written", [at.old, at.new, PAST], said, BARE)


def of_places(tally: Tally, at: Room) -> None:
    """Where something is already."""
    words = [at.old, at.new, PAST, "--archive", at.gone]
    for name in ("new.db", "new.db-wal", "new.db-journal", "gone.messages"):
        path = at.path(name)
        for make in ("a file", "a link to nothing", "a folder"):
            if make == "a file":
                desk.write(at.folder, name, "")
            elif make == "a folder":
                os.mkdir(path)
            else:
                os.symlink(at.path("nothing"), path)
            refused(tally, at, f"{name}, {make}", words, f"C2 AlreadyThere\ncause: {path}\n")
            os.rmdir(path) if make == "a folder" else os.remove(path)
    path = at.path("no-folder/new.db")
    said = f"F1 FileFailed\ncause: {path}.part: No such file or directory (os error 2)\n"
    refused(tally, at, "no folder", [at.old, path, PAST], said)


def of_parts(tally: Tally, at: Room) -> None:
    """What lies where the files are written, and another cut."""
    part, words = f"{at.new}.part", [at.old, at.new, PAST, "--archive", at.gone]
    os.rename(at.old, part)
    said = f"F1 FileFailed\ncause: {part}: it is the store that is to be cut\n"
    refused(tally, at, "a store named like a part", [part, at.new, PAST], said)
    os.rename(part, at.old)
    os.symlink(at.old, part)
    said = f"F1 FileFailed\ncause: {part}: not a regular file\n"
    refused(tally, at, "a link in the part's place", words, said)
    os.remove(part)
    for path in (part, f"{at.gone}.part"):
        with open(path, "w", encoding="utf-8") as file:
            file.write("another one's\n")
            file.flush()
            fcntl.flock(file, fcntl.LOCK_EX)
            said = f"C3 CutRuns\ncause: another desk-cut writes {path}\n"
            refused(tally, at, f"two at once, by {path}", words, said)
        os.remove(path)
    # what a cut that was killed has left is written over
    for path in (part, f"{at.gone}.part"):
        desk.write(at.folder, os.path.basename(path), "another one's\n" * 10_000)
    tally.same("after a cut that was killed", run(CUT, *words)[1:], ("", 0))
    tally.same("the store then", sorted([*texts(at.new), *desk.read(at.gone).splitlines()]),
               texts(at.old))
    names = listing(at.folder)
    tally.same("the parts", [name for name in names if name.endswith(".part")], [])


def while_written(tally: Tally, at: Room) -> None:
    """A desk takes messages into the store meanwhile: each cut is of a set that the store had."""
    live, fresh = at.path("live.db"), at.path("fresh.db")
    roster = [desk.ROSTER, desk.BASE]
    lines = [desk.request(no) + "\n" for no in range(1, 400)]
    words = [DESK, "deliver", *roster, live, "chat"]
    run(*words, given=lines[0])
    writer = threading.Thread(target=run, args=words, kwargs={"given": "".join(lines)})
    writer.start()
    counts = [0]
    while writer.is_alive():
        out, err, status = run(CUT, live, fresh, PAST)
        if status == 0:
            counts.append(len(texts(fresh)))
            tally.same("what is said meanwhile", out, f"{counts[-1]} messages stay, 0 archived\n")
            # (whoever reads a store leaves a log beside it)
            for end in ("", "-wal", "-shm"):
                with contextlib.suppress(FileNotFoundError):
                    os.remove(fresh + end)
        else:
            tally.same("what is refused meanwhile", err.split(":")[0], "the store is written to")
    writer.join()
    tally.same("how many stay, one cut after the other", counts, sorted(counts))
    tally.same("whether one was made meanwhile", len(counts) > 1, True)
    tally.same("the store that was written", len(texts(live)), len(lines))


def main() -> None:
    tally = Tally()
    histories(tally)
    with room(random.Random(5)) as at:
        for part in (of_archives, of_words, of_clocks, of_stores, of_places, of_parts):
            part(tally, at)
    with room(random.Random(6)) as at:
        while_written(tally, at)
    print("".join(f"{line}\n" for line in tally.wrong), end="")
    print(f"desk-cut: {tally.checks} checks, {len(tally.wrong)} wrong")
    sys.exit(1 if tally.wrong else 0)


if __name__ == "__main__":
    main()
