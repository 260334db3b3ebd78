"""`desk-door bring`: what other doors of the site kept, copied here, and what they took, given to
the door here."""

import fcntl
import os
import re
import sys
import time
from collections.abc import Callable, Iterator
from contextlib import closing, contextmanager

from steelnewt_client.codes import Answer, judge, unusable
from steelnewt_client.desk import Desk, Silent
from steelnewt_door.answering import KEPT, Kept
from steelnewt_door.bringing import Ask, BadCopy, Copy
from steelnewt_door.filling import Filling
from steelnewt_door.index import Index
from steelnewt_door.journal import BadJournal
from steelnewt_door.rows import Arrival
from steelnewt_door.settings import BadSettings, Settings

DONE, FOUND = 0, 1


def ask_of(desk: Desk) -> Ask:
    """What asks another door, where it answers auditors."""

    def ask(path: str) -> bytes:
        reply = desk.exchange("GET", path)
        if reply.status != 200:
            raise Silent(f"{path}: {unusable(reply.status, reply.text)}")
        return reply.body

    return ask


def ask_in(folder: str) -> Ask:
    """What asks a folder that has another door's `journal` and `signers`, as a backup or a copy of
    the auditors' has them."""
    kept = Kept(os.path.join(folder, "journal"), os.path.join(folder, "signers"))
    if not os.path.isdir(kept.journal):
        raise BadSettings(f"{folder} has no folder `journal`")

    def ask(path: str) -> bytes:
        asked = re.fullmatch(KEPT, path)
        assert asked
        return kept.page(asked)

    return ask


def post_at(desk: Desk) -> Callable[[Arrival, str, str], Answer]:
    """What gives a line to the door here, by root's own socket, with its arrival."""

    def post(it: Arrival, relay: str, line: str) -> Answer:
        path = f"/v1/doors/{it.door}/{it.at}/{it.signers}/{it.row}/v1/relays/{relay}/messages"
        reply = desk.exchange("POST", path, line.encode("utf-8"))
        return judge(reply.status, reply.text)

    return post


@contextmanager
def alone(folder: str) -> Iterator[None]:
    """One look at a door at a time."""
    os.makedirs(folder, 0o750, exist_ok=True)
    file = os.open(folder, os.O_RDONLY | os.O_DIRECTORY)
    try:
        fcntl.flock(file, fcntl.LOCK_EX)
        yield
    finally:
        os.close(file)


def look(settings: Settings, name: str, ask: Ask) -> int:
    """One look at another door: copies what is new, and gives it to the door here."""
    others, began = settings.others(), time.time()
    folder = others.place(name)
    with alone(folder), closing(Index(os.path.join(settings.journal, "index.db"))) as index:
        copy = Copy(folder)
        copy.bring_signers(ask)
        found = [*copy.bring(ask)]
        copy.bring_signers(ask)
        post = post_at(Desk(f"unix:{settings.root}", ""))
        # (a desk that lost its store has nothing, whatever its door's journal says)
        is_empty = settings.asked().count()[0] == 0
        filling = Filling(name, folder, (lambda _: False) if is_empty else index.is_taken, post)
        filling.fill(is_empty)
        others.note_look(name, began)
    found += filling.found
    if why := lagging(settings, name):
        found.append(why)
    for line in found:
        print(f"desk-door: door {name}: {line}", file=sys.stderr)
    print(f"door {name}: {copy.last} rows, {filling.given} brought, {len(filling.mark.left)} wait")
    return FOUND if found else DONE


def lagging(settings: Settings, name: str) -> str:
    """Whether the signers here are older than those of another door."""
    there = settings.others().newest(name)
    here = ([""] + settings.two().signers.moments())[-1]
    return f"SIGNERS LAG: {there} are there, and {here or 'none'} here" if there > here else ""


def bring(settings: Settings, name: str = "", source: str = "") -> int:
    """Looks at one other door, or at all; `source` is a folder with what it kept."""
    if os.stat(settings.journal).st_uid != os.geteuid():
        raise BadSettings(f"{settings.journal} is another account's: run it as desk-door")
    if name and name not in settings.doors:
        raise BadSettings(f"door.toml has no door {name} in [doors]")
    statuses = []
    for each in [name] if name else settings.doors:
        try:
            ask = ask_in(source) if source else ask_of(settings.doors[each])
            statuses.append(look(settings, each, ask))
        except (BadCopy, BadJournal, Silent, OSError) as fault:
            print(f"desk-door: door {each}: {fault}", file=sys.stderr)
            statuses.append(2)
    return max(statuses, default=DONE)
