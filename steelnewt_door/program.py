"""The program `desk-door`."""

import argparse
import asyncio
import contextlib
import logging
import os
import signal
import socket
import sqlite3
import stat
import sys
import time
from collections.abc import Iterator
from dataclasses import replace
from typing import Any

from steelnewt_client.codes import NO_ROUTE
from steelnewt_client.desk import Silent
from steelnewt_client.moments import stamp_of
from steelnewt_door.answering import Answering, Kept
from steelnewt_door.bring_program import bring, lagging
from steelnewt_door.crew import Asked, Crew, Keeper, Line, Locks, Shared
from steelnewt_door.file_key import BadKey, FileKey, make_key, next_of, read_key, turn
from steelnewt_door.file_key import told as told_of_keys
from steelnewt_door.index import Index
from steelnewt_door.journal import BadJournal, files_of, rows_behind
from steelnewt_door.others import MOST_WAIT
from steelnewt_door.refusals import Refused
from steelnewt_door.serving import BACKLOG, Serving, bound
from steelnewt_door.settings import CONFIG, BadSettings, Settings, read_settings
from steelnewt_door.signers import BadSigners
from steelnewt_door.taking import LOCKS, Door

log = logging.getLogger("desk-door")
Places = list[tuple[socket.socket, bool]]


def parser() -> argparse.ArgumentParser:
    found = argparse.ArgumentParser(
        "desk-door",
        description="Lets messages to a desk through with their author's signature, and keeps a"
        " journal.",
    )
    found.add_argument("--config", default=CONFIG, help=f"the settings (default {CONFIG})")
    jobs = found.add_subparsers(dest="job", metavar="JOB", required=True)
    jobs.add_parser("serve", help="serve until SIGTERM")
    jobs.add_parser("begin", help="note what the desk holds that never came through the door")
    jobs.add_parser("check", help="say all that would stop it, or let a message past it")
    said = "take what other doors took, each message by its moment there"
    bringing = jobs.add_parser("bring", help=said)
    bringing.add_argument("name", nargs="?", default="", metavar="DOOR", help="one of [doors] (all)")
    said = "a folder with its `journal` and `signers`, in place of the door itself"
    bringing.add_argument("--from", dest="source", default="", metavar="DIR", help=said)
    jobs.add_parser("answer", help="answer hosts with the door's own signature, until SIGTERM")
    jobs.add_parser("confirm", help="show people what they sign with passkeys, until SIGTERM")
    said = "make the key of these signatures, and print what hosts have of it"
    key = jobs.add_parser("file-key", help=said).add_mutually_exclusive_group()
    key.add_argument("--next", action="store_true", help="make another one, for all hosts to have")
    key.add_argument("--turn", action="store_true", help="sign with that one from now on")
    return found


def told_ready() -> None:
    """Tells systemd that the sockets are there."""
    place = os.environ.get("NOTIFY_SOCKET", "")
    if place:
        with socket.socket(socket.AF_UNIX, socket.SOCK_DGRAM) as peer:
            peer.connect(f"\0{place[1:]}" if place.startswith("@") else place)
            peer.sendall(b"READY=1")


async def until_ended(serving: Serving, places: Places, line: Line) -> None:
    """Serves until SIGTERM, or until the process that has the journal is gone."""
    loop, job = asyncio.get_running_loop(), asyncio.current_task()
    assert job
    for number in (signal.SIGTERM, signal.SIGINT):
        loop.add_signal_handler(number, job.cancel)
    loop.add_reader(line, os._exit, 1)
    with contextlib.suppress(asyncio.CancelledError):
        await serving.serve(places)


def serve(settings: Settings) -> int:
    for path in (settings.listen, settings.root):
        check_place(path)
    with contextlib.ExitStack() as held:
        places = [
            (held.enter_context(bound(path, mode)), is_root)
            for path, mode, is_root in (
                (settings.listen, 0o660, False), (settings.root, 0o600, True)
            )
        ]  # fmt: skip
        locks, keys, shared = Locks(LOCKS), Locks(LOCKS), Shared()

        def work(ends: list[Line], line: Line) -> None:
            locks.own()
            keys.own()
            # (it has of a journal, and of a share, what a door uses as it takes messages)
            asked: Any = Asked(settings.journal, ends, shared)
            door = replace(settings.door(asked), locks=locks, keys=keys, share=asked)
            asyncio.run(until_ended(Serving(door, settings.questions), places, line))

        for place, is_root in places:
            place.setblocking(not is_root)
        crew = Crew(work)
        held.callback(crew.end)
        journal = settings.kept()
        held.callback(journal.close)
        journal.note_torn()
        told(settings.door(journal), settings)
        run(crew, Keeper(journal, shared), settings, [it for it, _ in places])
    return 1 if crew.has_failed else 0


def run(crew: Crew, keeper: Keeper, settings: Settings, places: list[socket.socket]) -> None:
    """Lets connections in, and has the crew take what comes, until it is asked to end."""
    for number in (signal.SIGTERM, signal.SIGINT):
        signal.signal(number, crew.stop)
    for place in places:
        place.listen(BACKLOG)
    crew.go()
    log.info("the door of %s is at unix:%s", settings.site, settings.listen)
    print(f"listening unix:{settings.listen}", flush=True)
    told_ready()
    keeper.serve(crew.ends, crew.is_gone)
    if not crew.has_failed:
        log.info("ended, as it was asked to")


def told(door: Door, settings: Settings) -> None:
    """Says how it begins, and settles what was open when it ended."""
    rules = settings.rules
    if not rules.is_signed(door.now()):
        until = f"until {rules.since}" if rules.is_signing else "(signing = no): a journal alone"
        log.warning("MESSAGES WITHOUT A SIGNATURE ARE TAKEN %s", until)
    if rules.is_signing:
        with suppress_signers():
            log.info("signers of %s", door.signers.now().at)
    try:
        if count := door.settle():
            log.warning("%d messages had no answer in the journal: the desk was asked", count)
    except (Silent, Refused) as fault:
        log.warning("what was open in the journal is settled at the next start: %s", fault)


@contextlib.contextmanager
def suppress_signers() -> Iterator[None]:
    """Signers that cannot be read are said, and end nothing: root may still take rights away."""
    try:
        yield
    except BadSigners as fault:
        log.error("K25 NoSigners: nothing signed is taken: %s", fault)


def check_place(path: str) -> None:
    """Refuses a socket whose place others could take while the door is stopped, or where another
    door answers."""
    found = os.stat(os.path.dirname(path))
    if found.st_mode & 0o022 or found.st_uid not in (0, os.geteuid()):
        raise BadSettings(f"others may write in {os.path.dirname(path)}, and take the door's place")
    with socket.socket(socket.AF_UNIX) as peer:
        if peer.connect_ex(path) == 0:
            raise BadSettings(f"a door answers at {path} already")


def begin(settings: Settings) -> int:
    door = settings.door()
    try:
        count, many = door.begin()
    finally:
        door.journal.close()
    print(f"{count} messages of {many} are from before the door")
    return 0


def answer(settings: Settings) -> int:
    """Answers hosts until SIGTERM."""
    key = FileKey(settings.file_key, settings.site)
    check_place(settings.answers)
    with bound(settings.answers, 0o660) as place:
        place.listen(BACKLOG)
        print(f"listening unix:{settings.answers}", flush=True)
        told_ready()
        kept = Kept(settings.journal, settings.signers)
        asyncio.run(Answering(key, kept, settings.questions).serve(place))
    log.info("ended, as it was asked to")
    return 0


def confirm(settings: Settings) -> int:
    """Shows people what they sign, until SIGTERM."""
    from steelnewt_door.page import serve as serve_page  # (no other job needs Flask)

    check_place(settings.page.listen)
    for number in (signal.SIGTERM, signal.SIGINT):
        signal.signal(number, lambda *_: sys.exit(0))
    return serve_page(settings, told_ready)


def file_key(settings: Settings, said: argparse.Namespace) -> int:
    """Makes a key, or puts the next one in its place, and prints what hosts have."""
    path = settings.file_key
    if said.turn:
        turn(path)
    else:
        make_key(next_of(path) if said.next else path)
    print(told_of_keys(path, settings.site), end="")
    return 0


def answers_faults(settings: Settings) -> Iterator[str]:
    """Whether hosts get no signed answer, where there is a key for them."""
    if not os.path.lexists(settings.file_key):
        return
    try:
        read_key(settings.file_key)
        with socket.socket(socket.AF_UNIX) as peer:
            peer.connect(settings.answers)
    except (BadKey, OSError) as fault:
        yield f"hosts with SIGNED=yes get no file: {fault}"


def signer_faults(settings: Settings) -> Iterator[str]:
    """What is wrong with the signers, the roster and the base."""
    two = settings.two()
    try:
        version = two.signers.now()
        two.check_all()
        names = sorted({it.name for it in version.signers() if not it.last})
        if not names:
            yield f"{settings.signers}: nobody signs"
        for path in (settings.signers, version.folder):
            found = os.stat(path)
            if found.st_uid != 0 or found.st_mode & (stat.S_IWGRP | stat.S_IWOTH):
                yield f"{path} is not root's alone to write"
        _, roster, base = settings.asked().count()
        two.check_text("roster", roster)
        two.check_text("base", base)
    except (BadSigners, OSError) as fault:
        yield str(fault)
    except Silent:
        pass  # (desk_faults says so)


def questions_faults(settings: Settings) -> Iterator[str]:
    """Whether the desk takes messages where it answers questions: they would go past the door."""
    if settings.questions != settings.desk:
        said = settings.asked_by_others().post("desk-door", b"").said
        if said != NO_ROUTE:
            yield f"{settings.questions} takes messages ({said}): past the door (serve --questions)"


def desk_faults(settings: Settings) -> Iterator[str]:
    """Whether the desk answers, and whether anything came past the door."""
    try:
        found = os.stat(settings.desk)
        if found.st_mode & (stat.S_IROTH | stat.S_IWOTH):
            yield f"{settings.desk} is open to every account of this machine: past the door"
        held = settings.asked().get("/v1/messages").splitlines()
        index = Index(os.path.join(settings.journal, "index.db"))
        # (of a door at work the index is a second behind)
        behind = [it for it in rows_behind(settings.journal, index.last().no) if "message" in it]
        new = {it["message"] for it in behind if it["how"] != "refused"}
        past = [it for it in held if it not in new and not index.is_here(it)]
        yield from (f"this came past the door: {it}" for it in past)
        index.close()
        yield from questions_faults(settings)
    except OSError as fault:
        yield f"there is no desk at {settings.desk}: {fault.strerror}"
    except Silent as fault:
        yield f"the desk does not answer: {fault}"


def room_faults(settings: Settings) -> Iterator[str]:
    """Whether the journal has room."""
    try:
        total = sum(os.path.getsize(path) for _, path in files_of(settings.journal))
        percent = 100 * total // settings.room.most
        if percent >= 70:
            yield f"the journal has {percent} % of journal_bytes: carry files of it away"
    except OSError as fault:
        yield f"{settings.journal} cannot be read: {fault.strerror}"


def lag_faults(settings: Settings) -> Iterator[str]:
    """Whether the signers here are older than another door's, or nobody looks at that."""
    for name in settings.doors:
        if why := lagging(settings, name):
            yield f"door {name}: {why}"
        age = time.time() - settings.others().looked(name)
        if age > MOST_WAIT:
            yield f"door {name}: nobody looked at it for {age:.0f} s (desk-door bring)"


def check(settings: Settings) -> int:
    rules = settings.rules
    found = [*desk_faults(settings), *room_faults(settings), *answers_faults(settings)]
    found += lag_faults(settings)
    if not rules.is_signing:
        print("(messages without a signature are taken: signing = no)")
    elif not rules.is_signed(stamp_of(time.time())):
        print(f"(messages without a signature are taken until {rules.since})")
    if rules.is_signing:
        found += signer_faults(settings)
    print("\n".join(found) or "nothing is wrong with the door")
    return 2 if found else 0


def main(words: list[str] | None = None) -> int:
    said = parser().parse_args(words)
    logging.basicConfig(level=logging.INFO, format="%(name)s: %(message)s")
    jobs = {"serve": serve, "begin": begin, "check": check, "answer": answer, "confirm": confirm}
    try:
        settings = read_settings(said.config)
        if said.job == "file-key":
            return file_key(settings, said)
        if said.job == "bring":
            return bring(settings, said.name, said.source)
        return jobs[said.job](settings)
    except (BadSettings, BadSigners, BadJournal, BadKey, Silent, OSError, sqlite3.Error) as fault:
        print(f"desk-door: {fault}", file=sys.stderr)
        return 2
    except Refused as fault:
        print(f"desk-door: {fault}: {fault.why}", file=sys.stderr)
        return 2
