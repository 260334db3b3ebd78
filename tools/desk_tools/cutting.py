"""The history of a desk is cut: what no file and no grant needs any more goes from its store to an
archive. The desk has the old store or the new one, and says of itself which.

The desk is stopped first, so that nothing is delivered meanwhile. Then `desk-cut` writes the
archive and a new store beside the old one, and each message of the old one is looked for: it has to
be in one of these. The new store says in a table how much was taken out of it. Then the history has
it, and the new store takes the old one's place, in one step; the old one stays beside it until
somebody removes it. Killed anywhere, the desk starts with a store and a history that say the same
(`desk-serve` writes the line by what the store says), and the same call, run again, ends it.
"""

from __future__ import annotations

import hashlib
import os
import shutil
import time
from collections.abc import Callable
from typing import NamedTuple

from desk_tools import change, cuts, served
from desk_tools.change import Desk, Halfway
from desk_tools.cuts import Cut
from desk_tools.evidence import program_beside
from desk_tools.history import read
from desk_tools.served import Failed
from steelnewt_client.moments import stamp_of

DAY = 86_400
ROOM = 1 << 20


class Looked(NamedTuple):
    """What a cut takes out, and what of all that was taken out so far."""

    cuts: list[Cut]  # of before
    kept: int
    archived: int
    total: int
    digest: str

    @property
    def lines(self) -> list[str]:
        all_ = self.kept + self.archived
        return [
            f"Of {all_} messages {self.archived} go to the archive: verdicts on requests that had"
            f" ended. {self.kept} stay, with all requests.",
            taken(self.total, self.digest),
        ]


def taken(total: int, digest: str) -> str:
    """What is the same on desks that were cut alike."""
    return f"Taken out so far: {total} messages, sha256 {digest}"


class Places:
    """Where a cut puts what."""

    def __init__(self, desk: Desk) -> None:
        # (the store itself, where its name is a link: that stays one)
        self.store = os.path.realpath(desk.settings.store)
        self.log = f"{self.store}-wal"
        self.fresh = f"{self.store}.cut"
        self.folder = os.path.join(os.path.dirname(desk.settings.store), "archives")
        self.staged = os.path.join(self.folder, "new.messages")
        self.mark = os.path.join(self.folder, "under-way")

    def archive(self, moment: str) -> str:
        return os.path.join(self.folder, f"{moment}.messages")

    def before(self, moment: str) -> str:
        return f"{self.store}.before-{moment}"

    def own(self, *words: str) -> str:
        """What a program does as the desk's account, to which all of this belongs."""
        return served.run(words, owner=self.store)

    def begun(self) -> str:
        """The moment of a cut that was begun and not ended; nothing where there is none."""
        try:
            return read(self.mark).decode("ascii", "replace").strip()
        except FileNotFoundError:
            return ""


def cutter(desk: Desk) -> str:
    return program_beside(desk.desk, "desk-cut")


# ---- what it takes out


def looked(desk: Desk, before: str) -> Looked:
    """What a cut takes out of a copy of the store; the desk serves on."""
    with change.scratch() as room:
        copy, new, archive = copied(desk, room), f"{room}/new.db", f"{room}/archive"
        with cuts.opened(copy) as base:
            past = cuts.cuts_of(base)
        served.run([cutter(desk), copy, new, before, "--archive", archive])
        with cuts.opened(new) as base:
            left = list(cuts.texts_of(base))
        return judged(desk, past, left, cuts.archived(archive))


def copied(desk: Desk, room: str) -> str:
    """A copy of the store, whose log is merged into it."""
    copy = served.copy_store(desk.settings.store, room)
    served.rows(copy, "PRAGMA wal_checkpoint(TRUNCATE)")
    return copy


def judged(desk: Desk, past: list[Cut], left: list[bytes], out: list[bytes]) -> Looked:
    """Refuses a cut that is not worth a stop: hosts that were away for less than a day have to see
    by their counts that there was one."""
    before = cuts.of_all(Places(desk).folder, past)
    yesterday = stamp_of(int(time.time()) - DAY)
    recent = sum(at_of(it) >= yesterday for it in left)
    if len(out) <= recent:
        said = f"{len(out)} messages would be taken out, and {recent} are of the last day"
        raise Failed(f"{said}: take a later moment, or wait")
    total = sum(it.archived for it in past) + len(out)
    return Looked(past, len(left), len(out), total, cuts.digest_of([*before, *out]))


def at_of(text: bytes) -> str:
    """When a message was given: its canonical text begins so."""
    return text[len(b'{"at":"') :][:15].decode("ascii", "replace")


# ---- the cut


def cut(desk: Desk, before: str, reasons: list[str], expected: str) -> Looked:
    """The store is the new one, and its desk serves; or all is as before."""
    places, count = Places(desk), desk.counted()
    if shutil.which("sqlite3") is None:
        raise Failed("it needs the program sqlite3")
    enough_room(desk, places)
    for kind in change.KINDS:
        if desk.digest(kind, desk.file(kind)) != getattr(count, kind):
            raise Failed(f"{desk.file(kind)} is not what the desk serves: reload it first")
    with change.without_signals():
        try:
            moment = begin(places)
            served.run(["systemctl", "stop", desk.service])
            found, rows = made(desk, places, before, moment)
            if expected not in ("", found.digest):
                raise Failed("other messages are taken out than on the other desks, or than shown")
            put(desk, places, rows, reasons)
        except (Failed, OSError) as fault:
            go_back(desk, places, str(fault))
            raise
        start(desk, found.kept)
        try:
            end(places)
        except (Failed, OSError) as fault:
            raise Halfway(f"the store is cut, and {places.mark} is left ({fault})") from None
    return found


def begin(places: Places) -> str:
    """Notes on the disk that a cut is begun, and when."""
    places.own("mkdir", "-p", "-m", "0700", places.folder)
    moment = stamp_of(int(time.time()))
    while os.path.exists(places.archive(moment)):
        time.sleep(0.1)
        moment = stamp_of(int(time.time()))
    places.own("sh", "-c", 'umask 077; echo "$1" > "$2"', "sh", moment, places.mark)
    places.own("sync", places.mark, places.folder)
    return moment


def enough_room(desk: Desk, places: Places) -> None:
    """Whether the disk has room for the new store, the archive and the old store's copy."""
    needs = sum(os.path.getsize(it) for it in served.parts(places.store)) + ROOM
    if shutil.disk_usage(os.path.dirname(places.store)).free < 3 * needs:
        raise Failed(f"the disk of {places.store} has no room for another one and an archive")


def opens(desk: Desk, store: str) -> None:
    """Has the desk open a store, with what it is served with, and merge its log."""
    words = [desk.desk, "deliver", desk.file("roster"), desk.file("base"), store, "none"]
    served.run([*words, "--sync", desk.settings.sync], owner=desk.settings.store)


def made(desk: Desk, places: Places, before: str, moment: str) -> tuple[Looked, list[Cut]]:
    """The new store and the archive, on the disk beside the old store, from which nothing lacks."""
    clear(places)
    opens(desk, places.store)
    words = [cutter(desk), places.store, places.fresh, before, "--archive", places.staged]
    served.run(words, owner=places.store)
    out = cuts.archived(places.staged)
    with cuts.opened(places.store) as old, cuts.opened(places.fresh) as new:
        past, left = cuts.cuts_of(old), list(cuts.texts_of(new))
        if not cuts.are_parts(cuts.texts_of(old), left, out):
            raise Failed("the new store and the archive together are not the old store")
    found = judged(desk, past, left, out)
    sha256 = hashlib.sha256(read(places.staged)).hexdigest()
    rows = [*past, Cut(moment, before, len(out), sha256)]
    places.own("sqlite3", "-safe", "-bail", places.fresh, cuts.statements(rows))
    opens(desk, places.fresh)
    places.own("rm", "-f", f"{places.fresh}-wal", f"{places.fresh}-shm")
    with cuts.opened(places.fresh) as new:
        if cuts.cuts_of(new) != rows or list(cuts.texts_of(new)) != left:
            raise Failed(f"{places.fresh} is not what was written")
    return found, rows


def put(desk: Desk, places: Places, rows: list[Cut], reasons: list[str]) -> None:
    """The archive in its place, the line in the history, and the new store in the old one's place:
    its name is never without a store."""
    folder, moment = os.path.dirname(places.store), rows[-1].moment
    places.own("chmod", "0400", places.staged)
    places.own("chmod", "--reference", places.store, places.fresh)
    places.own("mv", "-T", places.staged, places.archive(moment))
    places.own("sync", places.archive(moment), places.folder, places.fresh)
    desk.history.write(desk.file("roster"), desk.file("base"), reasons, cuts.words(rows))
    # (a copy, and no second name: a desk opens no store that has two)
    places.own("cp", "-p", "-T", "--reflink=auto", places.store, places.before(moment))
    no_log(places)
    places.own("sync", places.before(moment), folder)
    places.own("mv", "-T", places.fresh, places.store)
    places.own("sync", folder)


def no_log(places: Places) -> None:
    """Takes the old store's log away, in which nothing is that the store has not: it would count
    beside the new one."""
    if os.path.exists(places.log):
        if os.path.getsize(places.log) > 41:
            raise Failed(f"{places.log} is not merged")
        places.own("rm", places.log)
    places.own("rm", "-f", f"{places.store}-shm")


def start(desk: Desk, kept: int) -> None:
    """The desk serves the new store, as it says."""
    try:
        served.run(["systemctl", "start", desk.service])
        count = desk.counted()
    except Failed as fault:
        raise Halfway(f"the store is cut, and the desk does not start ({fault})") from None
    if count.messages < kept:
        raise Halfway(f"the desk says that it has {count.messages} messages, of {kept}")


def clear(places: Places) -> None:
    """Removes what a cut makes beside the store, and nothing counts yet."""
    for path in (places.fresh, f"{places.fresh}.part", places.staged):
        places.own("rm", "-f", path, f"{path}-wal", f"{path}-shm")


def end(places: Places) -> None:
    places.own("rm", "-f", places.mark)


def go_back(desk: Desk, places: Places, why: str) -> None:
    """What was made goes, and the desk serves the old store; the new one where that is in place."""
    try:
        is_done = settled(desk, places)
        served.run(["systemctl", "start", desk.service])
        end(places)
    except (Failed, OSError) as worse:
        raise Halfway(f"{why}; and it does not go back: {worse}") from None
    if is_done:
        raise Halfway(f"{why}; and the store is cut")


def settled(desk: Desk, places: Places) -> bool:
    """Whether the cut that was begun is done, as the store says. Where it is not, its archive is
    none, and the copy of the store goes."""
    moment = places.begun()
    clear(places)
    if any(it.moment == moment for it in cuts_of(desk)):
        return True
    places.own("rm", "-f", places.before(moment), places.archive(moment))
    return False


def ended(desk: Desk) -> None:
    """Ends what a call that was killed has begun: the desk serves the one store or the other."""
    places = Places(desk)
    if places.begun():
        is_done = settled(desk, places)
        served.run(["systemctl", "start", desk.service])
        end(places)
        print(f"A cut was begun and not ended: {'it is done' if is_done else 'it is undone'}.")


def cuts_of(desk: Desk) -> list[Cut]:
    """The cuts of the store, also while it is served."""
    with change.scratch() as room, cuts.opened(copied(desk, room)) as base:
        return cuts.cuts_of(base)


def is_cut(desk: Desk, before: str, said: Callable[[str], None]) -> bool:
    """Whether the store was cut at this moment: then it says what was taken out so far. One that
    was cut at a later moment is not cut again."""
    past = cuts_of(desk)
    if not past or past[-1].before < before:
        return False
    if past[-1].before > before:
        raise Failed(f"the store was cut at {past[-1].before}, which is later")
    texts = cuts.of_all(Places(desk).folder, past)
    said(taken(sum(it.archived for it in past), cuts.digest_of(texts)))
    return True
