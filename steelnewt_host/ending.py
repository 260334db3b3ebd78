"""end-sessions: ends what sudo no longer allows."""

from __future__ import annotations

import collections
import contextlib
import math
import os
import signal
import time
from collections.abc import Sequence
from typing import Optional

from steelnewt_host.clock import behind, furthest, passes_an_end, path_of
from steelnewt_host.faults import FAULT, Fault, Unanswered, Unclear
from steelnewt_host.groups import enter, lives, without_groups
from steelnewt_host.judging import is_allowed
from steelnewt_host.kept import gathered
from steelnewt_host.noted import Notes, forget_another_start
from steelnewt_host.processes import alive, processes, read_process, send, terminal_of, wait_for
from steelnewt_host.records import clear
from steelnewt_host.session import Session
from steelnewt_host.sessions import belongs, sessions, sudo_of
from steelnewt_host.settings import Settings
from steelnewt_host.state import locked
from steelnewt_host.telling import log, shown
from steelnewt_host.timers import set_timers

TERM = 5.0  # the seconds from the signal that asks to the one that kills
FEW = 2  # so many sudos without a record are no sign that the records are gone
LOOK = 5.0  # the seconds after which it looks for further sessions, while one has its grace
AT_ONCE = 20.0  # the seconds for which one look asks about sessions


def warn(it: Session, text: str) -> None:
    """Tells whoever sits before it, and the log."""
    log(f"{it}: {text}")
    sudo = sudo_of(it)
    path = terminal_of(sudo) if sudo else None
    if path is None:
        return
    with contextlib.suppress(OSError):
        handle = os.open(path, os.O_WRONLY | os.O_NOCTTY | os.O_NONBLOCK | os.O_NOFOLLOW)
        with contextlib.closing(os.fdopen(handle, "wb", buffering=0)) as terminal:
            terminal.write(f"\r\ndesk-host: {shown(f'{it}: {text}')}\r\n".encode())


def kill_group(it: Session) -> None:
    """Ends all of a session's control group at once, whatever forks in it; but for the sudo, which
    leaves it before, so that it can set its terminal right."""
    if it.process is not None and alive([it.process]):
        enter(os.path.dirname(it.group), it.process.pid)
    path = os.path.join(it.group, "cgroup.kill")
    with contextlib.suppress(OSError), open(path, "w", encoding="ascii") as file:
        file.write("1\n")


def wait_for_groups(groups: Sequence[str], seconds: float) -> None:
    """Waits for the groups to be empty: what is killed needs a processor to end."""
    until = time.monotonic() + seconds
    while any(lives(it) for it in groups) and time.monotonic() < until:
        time.sleep(0.1)


def end(ended: Sequence[Session]) -> bool:
    """Ends sessions: asks all of each to end, and kills what has not; the sudo last, so that it
    sets its terminal right if it can. Whether all of them are gone."""
    every = processes()
    found = {each for it in ended for each in belongs(it, every)}
    for each in found:
        send(each, signal.SIGTERM)
    wait_for(found, TERM)
    first = {it.process for it in ended if it.process}
    for _ in range(3):
        every = processes()
        found |= {each for it in ended for each in belongs(it, every)}
        for it in ended:
            if it.group:
                kill_group(it)
        for each in found - first:
            send(each, signal.SIGKILL)
        if not wait_for(first, 1):
            break
    for each in first:
        send(each, signal.SIGKILL)
    left = set(wait_for(found, TERM))
    wait_for_groups([it.group for it in ended if it.group], TERM)
    is_all_gone = True
    for it in ended:
        is_gone = it.process not in left and not lives(it.group)
        if is_gone and it.record:
            clear(it.record, it.group)
        log(f"{it} was ended: sudo no longer allows it" if is_gone else f"{it} does not end")
        is_all_gone = is_all_gone and is_gone
    return is_all_gone and not left


OVER = "the right to it has ended"


class Looks:
    """The looks of one run at what users run by sudo: what was asked when, what is to be ended
    when, and what was told of once."""

    def __init__(self, settings: Settings) -> None:
        self.settings = settings
        self.notes = Notes(settings)
        self.asked: dict[tuple[int, int], float] = {}
        self.due: dict[tuple[int, int], float] = {}
        self.told = set(self.notes.read("told").split())
        self.unclear: dict[tuple[int, int], str] = {}
        self.back = 0.0  # by how many seconds the clock went back
        self.is_answered = True
        self.is_kept_back = False

    def tell_once(self, what: str, it: Session, text: str) -> None:
        """Tells of a session, whatever number of looks sees the same."""
        key = f"{what}:{it.name[0]}-{it.name[1]}"
        if key not in self.told:
            log(f"{it} {text}")
            self.told.add(key)

    def tell_of_lacks(self, found: Sequence[Session]) -> None:
        """Tells of those that are judged by less than what sudo writes down."""
        for it in found:
            if it.unclear:
                continue
            if not it.record:
                told = "is judged by its words: sudo wrote nothing down (desk-host plugin on)"
                self.tell_once("words", it, told)
            elif it.process and not os.path.isdir(it.group) and os.path.exists(it.record):
                why = without_groups() or "somebody removed it"
                self.tell_once("group", it, f"has no control group ({why}): what leaves it is lost")

    def in_turn(self, found: Sequence[Session]) -> list[Session]:
        """The sessions in the order in which they are asked about: those that are due, then those
        that were asked about longest ago, and of these one of each user first: nobody with many of
        them holds the others up."""
        nth: collections.Counter[str] = collections.Counter()
        keys = {}
        for it in sorted(found, key=lambda it: it.name):
            keys[it.name] = (it.name not in self.due, self.asked.get(it.name, 0), nth[it.user])
            nth[it.user] += 1
        return sorted(found, key=lambda it: (keys[it.name], it.name))

    def denied(self, it: Session) -> Optional[str]:
        """Why it is to be ended; nothing where it is not. What cannot be judged is told of once."""
        unjudged = self.settings.unjudged
        try:
            return None if self.is_allowed(it) else OVER
        except Unclear as why:
            self.unclear[it.name] = f"{it}: {why}"
            if unjudged == "end":
                return f"it cannot be judged ({why})"
            told = f"cannot be judged, and is left alone: {why}"
        except Unanswered as why:
            self.is_answered, unjudged = False, "warn"
            told = f"is left alone until sudo answers: {why}"
        if unjudged == "warn":
            self.tell_once("unjudged", it, told)
        return None

    def is_allowed(self, it: Session) -> bool:
        """Whether sudo allows it, by a clock that is right: what lost its right by its date does
        not have it again as the clock goes back."""
        if not is_allowed(it, self.settings):
            return False
        if not self.back or not passes_an_end(self.settings, it.user, self.back):
            return True
        if it.name in self.due:
            return False
        why = f"this host's clock went back by {self.back:.0f} seconds, over the end of a grant"
        raise Unanswered(f"{why}: set it, or remove {path_of(self.settings)} if it is right")

    def warned(self, it: Session, why: str) -> None:
        """Warns of a session that sudo denies: its grace begins, if it has not."""
        grace = self.settings.grace
        if self.settings.sessions == "warn":
            warn(it, why)
        elif it.name not in self.due:
            self.due[it.name] = time.monotonic() + grace
            warn(it, f"{why}: it is ended in {grace} seconds")

    def without_lost(self, found: list[Session]) -> list[Session]:
        """The sessions that have a record of sudo's, where more than half of all have none: then
        the records are gone, or the plugin does not work, and ending all would be the fault's work.
        Each session without one is told of. (What its user made unclear has a record.)"""
        lost = [it for it in found if it.is_lost]
        self.is_kept_back = len(lost) > FEW and 2 * len(lost) > len(found)
        self.notes.put("lost", f"{len(lost)} {len(found)}\n" if self.is_kept_back else "")
        if not self.is_kept_back:
            return found
        for it in lost:
            told = f"is left alone: of {len(lost)} of {len(found)} sudos nothing is written"
            self.tell_once("lost", it, told)
        return [it for it in found if not it.is_lost]

    def look(self) -> tuple[list[Session], bool]:
        """One look: what is to be ended now, and whether all were asked about within its time."""
        began, found = time.monotonic(), sessions(self.settings)
        self.back, self.unclear = behind(self.settings), {}
        names = {it.name for it in found}
        keys = {f"{pid}-{start}" for pid, start in names}
        self.told = {it for it in self.told if it.partition(":")[2] in keys}
        self.tell_of_lacks(found)
        self.due = {name: when for name, when in self.due.items() if name in names}
        self.asked = {name: when for name, when in self.asked.items() if name in names}
        now: list[Session] = []
        for it in self.in_turn(self.without_lost(found)):
            if time.monotonic() - began > AT_ONCE:
                return now, False
            self.asked[it.name] = time.monotonic()
            why = self.denied(it)
            if why is None:
                self.due.pop(it.name, None)
                continue
            self.warned(it, why)
            if self.due.get(it.name, math.inf) <= time.monotonic():
                now.append(it)
        return now, True

    def note(self) -> None:
        """Notes what a whole look saw, and has not ended."""
        unclear = list(self.unclear.values())[:99]
        self.notes.looked()
        self.notes.put("unclear", "".join(f"{shown(it)}\n" for it in unclear))
        self.notes.put("told", "".join(f"{it}\n" for it in sorted(self.told)))
        self.notes.put("clock", furthest(self.settings))


def end_sessions(settings: Settings) -> int:
    """Warns what sudo no longer allows, and ends it after the grace, if sudo then does not either:
    the status is 1 where something does not end, or sudo does not answer. It looks again every few
    seconds, so what loses its right meanwhile has a grace of its own, from then on."""
    if os.geteuid() != 0:
        raise Fault("it has to be run as root: it looks at every process")
    os.makedirs(settings.run, mode=0o755, exist_ok=True)
    with locked(settings.run, "looking"):
        forget_another_start(settings)
        clear_notes(settings)
        gathered(settings)
        set_timers(settings)
        return 0 if settings.sessions == "no" else looked(settings)


def looked(settings: Settings) -> int:
    """The looks of one run, until nothing is left that is to be ended."""
    looks, status, is_over = Looks(settings), 0, False
    while not is_over:
        now, is_whole = looks.look()
        if now and not end(now):
            status = FAULT
        for it in now:
            looks.due.pop(it.name, None)
            looks.unclear.pop(it.name, None)
        if is_whole:
            looks.note()
        is_over = is_whole and (settings.sessions == "warn" or not looks.due)
        until = min(looks.due.values(), default=0) - time.monotonic()
        if is_whole and not is_over:
            time.sleep(min(max(until, 0), LOOK))
    is_fine = looks.is_answered and not looks.is_kept_back and looks.notes.is_whole
    return status if is_fine else FAULT


def clear_notes(settings: Settings) -> None:
    """Takes away what the step of PAM noted of sudos that have ended."""
    folder = os.path.join(settings.run, "asked")
    with contextlib.suppress(FileNotFoundError):
        for name in os.listdir(folder):
            pid, _, start = name.partition("-")
            now = read_process(int(pid)) if pid.isdigit() else None
            if now is None or str(now.start) != start:
                with contextlib.suppress(OSError):
                    os.unlink(os.path.join(folder, name))
