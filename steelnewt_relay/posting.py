"""Posts what the outbox keeps, to each desk until that has answered each message. Refusals and
revocations go first, and alone where a disk is full (reserve.py).

No desk waits for another. Nor does a message for another at one desk: what got no answer is tried
again once all others were tried.
"""

import logging
import queue
import sqlite3
import threading
import time
from collections.abc import Callable, Iterator, Sequence
from concurrent.futures import ThreadPoolExecutor, as_completed
from contextlib import closing

from steelnewt_client.codes import Answer, Fate
from steelnewt_client.desk import AnyDesk, Desk
from steelnewt_client.messages import Request
from steelnewt_client.moments import now, stamp
from steelnewt_relay.outbox import UNASKED, Kept, Outbox
from steelnewt_relay.owing import FIRST, REST
from steelnewt_relay.reserve import DeskReserve

FULL = "503 K4 Storage"  # what a desk says whose disk is full
HELD = "the desk's disk is full: refusals and revocations go first"
EARLY = "its request is not at the desk yet"
# Seconds for which a person waits for the other desks, once one has a message.
LEFT = 0.5
# Seconds between two posts of what a desk refuses and another has.
REFUSED_AGAIN = 600.0
log = logging.getLogger("desk-relay")


def post_one(outbox: Outbox, desk: AnyDesk, kept: Kept) -> Kept:
    """Posts a message once, to all desks at once. Where none has it then it stays kept, with the
    reason."""
    if kept.state != "kept":
        return outbox.entry(kept.id)
    outbox.owed.know(names_of(desk))
    asked = [each for each in desk.each if may_post(outbox, each, kept)]
    for each, answer in answers_of(asked, kept):
        note(outbox, each, kept, answer)
    return outbox.entry(kept.id)


def names_of(desk: AnyDesk) -> list[str]:
    return [each.label for each in desk.each]


def answers_of(desks: Sequence[Desk], kept: Kept) -> Iterator[tuple[Desk, Answer]]:
    """What desks say to a message. Once one has it nobody waits for the others any more than a
    moment: what is missing then is posted to them by itself."""
    if len(desks) < 2:
        yield from ((each, answer_of(each, kept)) for each in desks)
        return
    found: queue.Queue[tuple[Desk, Answer]] = queue.Queue()

    def ask(each: Desk) -> None:
        found.put((each, answer_of(each, kept)))

    for each in desks:
        # (such a thread keeps no call from ending)
        threading.Thread(target=ask, args=(each,), daemon=True).start()
    until = time.monotonic() + max(each.patience for each in desks)
    for _ in desks:
        try:
            each, answer = found.get(timeout=max(0.0, until - time.monotonic()))
        except queue.Empty:
            return
        yield each, answer
        if answer.fate is Fate.TAKEN:
            until = min(until, time.monotonic() + LEFT)


def answer_of(desk: Desk, kept: Kept) -> Answer:
    """What a desk says to a message."""
    answer = desk.post(desk.relay, kept.line)
    if answer.said == FULL and kept.takes_away and desk.place.is_here and DeskReserve().free():
        answer = desk.post(desk.relay, kept.line)
    return answer


def is_room_at(desk: Desk) -> bool:
    """Whether a desk on this machine has its reserve of disk: else that room is a revocation's."""
    return not desk.place.is_here or DeskReserve().is_there()


def may_post(outbox: Outbox, desk: Desk, kept: Kept) -> bool:
    """Whether a message may be posted to a desk now."""
    if not kept.takes_away and not is_room_at(desk):
        outbox.owed.said(desk.label, kept, HELD, "missed")
        return False
    return is_ready(outbox, desk, kept)


def is_ready(outbox: Outbox, desk: Desk, kept: Kept) -> bool:
    """Whether a desk may have a message. An approval waits for its request, which people saw here:
    if the desk refuses that, the approval would be one of any other request of the same name."""
    verdict = kept.message
    if isinstance(verdict, Request) or verdict.kind != "approve":
        return True
    request = outbox.request(verdict.of, verdict.no)
    if request is not None and request.state == "refused":
        outbox.answered(kept.id, "refused", UNASKED)
        return False
    if request is not None and outbox.owed.is_lacking(desk.label, request.id):
        outbox.owed.said(desk.label, kept, EARLY, "tried")
        return False
    return True


def note(outbox: Outbox, desk: Desk, kept: Kept, answer: Answer) -> None:
    """Notes what a desk says to a message."""
    if answer.fate is Fate.TAKEN:
        outbox.owed.taken(desk.label, kept)
    elif answer.fate is Fate.FINAL:
        outbox.owed.said(desk.label, kept, answer.said, "refused")
    else:
        # (what a person has to mend, such as this relay's name, may be mended at any time)
        is_tried = not answer.is_away
        outbox.owed.said(desk.label, kept, answer.why, "tried" if is_tried else "missed")


def post_kept(outbox: Outbox, desk: AnyDesk) -> list[Kept]:
    """Posts to each desk what it lacks, each message once."""
    names = names_of(desk)
    tried = [id for each in desk.each for id in round_of(outbox, each, names, lambda: False)]
    return [outbox.entry(id) for id in dict.fromkeys(tried)]


def round_of(
    outbox: Outbox, desk: Desk, names: Sequence[str], is_over: Callable[[], bool]
) -> Iterator[int]:
    """Posts what a desk lacks, each message once, as long as it can be connected to: the number of
    each. One message that something before the desk does not let through holds up no other."""
    outbox.owed.know(names)
    queues = queues_at(outbox, desk)
    number = outbox.owed.round(desk.label)
    while not is_over() and (kept := outbox.owed.next(desk.label, number, queues)) is not None:
        if is_ready(outbox, desk, kept):
            answer = answer_of(desk, kept)
            note(outbox, desk, kept, answer)
            yield kept.id
            if answer.is_away:
                return
        else:
            yield kept.id


def queues_at(outbox: Outbox, desk: Desk) -> tuple[int, ...]:
    """What is posted; where a disk is full, what takes rights away alone."""
    # (asked in each round: a reserve is made anew before anything else)
    return (FIRST, REST) if outbox.has_room() and is_room_at(desk) else (FIRST,)


class Poster:
    """What posts to one desk, again and again, and says what changed."""

    def __init__(self, outbox: Outbox, desk: Desk, names: Sequence[str]) -> None:
        self.outbox, self.desk, self.names = outbox, desk, names
        self.trouble, self.refused_at = "", 0.0

    def run(self, every: float, ended: threading.Event) -> None:
        while not ended.is_set():
            try:
                self.try_refused()
                for id in round_of(self.outbox, self.desk, self.names, ended.is_set):
                    self.tell(id)
            except sqlite3.OperationalError as fault:
                self.complain(f"what is kept here fails: {fault}")
            ended.wait(every)

    def try_refused(self) -> None:
        """What it refused, and another desk has, is posted again now and then."""
        if time.monotonic() >= self.refused_at and self.outbox.has_room():
            self.outbox.owed.try_refused(self.desk.label, stamp(now()))
            self.refused_at = time.monotonic() + REFUSED_AGAIN

    def tell(self, id: int) -> None:
        """Says what became of a message here."""
        kept, owed = self.outbox.entry(id), self.outbox.owed
        said = owed.said_by(self.desk.label, id)
        if said is None or kept.state == "refused":
            self.trouble = ""
            log.info("%s%s: %s", self.named, name_of(kept), kept.answer or "ack")
        else:
            self.complain(said, f"; {owed.count(self.desk.label)} messages wait here")

    def complain(self, trouble: str, more: str = "") -> None:
        if trouble != self.trouble:
            log.warning("%s%s%s", self.named, trouble, more)
        self.trouble = trouble

    @property
    def named(self) -> str:
        """The desk, where there are several."""
        return f"{self.desk.label}: " if len(self.names) > 1 else ""


def keep_posting(
    opened: Callable[[], Outbox], desk: AnyDesk, every: float, ended: threading.Event
) -> None:
    """Posts to each desk what it lacks until `ended`, and to none any more where one fails."""

    def post_to(each: Desk) -> None:
        with closing(opened()) as outbox:
            Poster(outbox, each, names_of(desk)).run(every, ended)

    with ThreadPoolExecutor(len(desk.each)) as pool:
        jobs = [pool.submit(post_to, each) for each in desk.each]
        try:
            for job in as_completed(jobs):
                job.result()
        finally:
            ended.set()


def name_of(kept: Kept) -> str:
    """What a message is, in a log's line."""
    message = kept.message
    if isinstance(message, Request):
        return f"{message.by} asks, {message.by} {message.no}"
    return f"{message.by}: {message.kind} {message.of} {message.no}"
