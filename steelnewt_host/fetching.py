"""fetch: takes this host's file from a desk."""

from __future__ import annotations

import contextlib
import os
import re
from collections.abc import Iterator
from typing import NamedTuple, Optional

from steelnewt_host.answers import Answer, an_hour_ago, answer_of, newest
from steelnewt_host.asking import compare_clocks, side_by_side
from steelnewt_host.changes import tell_change
from steelnewt_host.counts import Order, Record, State, orders
from steelnewt_host.faults import REFUSED, Fault, Unsigned
from steelnewt_host.lawful import HOST
from steelnewt_host.noted import Notes
from steelnewt_host.place import Place, Trial, install
from steelnewt_host.settings import CONF, Settings
from steelnewt_host.signed import check_keys
from steelnewt_host.silence import HOUR, end_grants, heard, silence
from steelnewt_host.state import keep_spares, locked, state_folder
from steelnewt_host.sudo import fit_sudo
from steelnewt_host.telling import say


class Fetch(NamedTuple):
    """What one fetch goes by."""

    settings: Settings
    record: Record
    place: Place
    refused: list[str]  # what somebody has to look at, since no later fetch mends it


def behind(record: Record, it: Answer) -> Optional[str]:
    """Why a desk is behind what this host has had; nothing where it is not."""
    if record.last is None:
        return None
    for what, there, how in zip(("roster", "base"), it.state, orders(it.past, record.past)):
        if how == Order.BEHIND:
            return f"it has a {what} that this host has left (sha256 {there})"
    if it.is_as_new(record.past, 0) and not it.is_as_new(record.past, record.last.messages):
        most = record.last.messages
        out = it.state.archived
        held = f"{it.messages - out} messages" + (f" and archived {out}" if out else "")
        return f"it holds {held}, and this host's file is made of {most}"
    return None


def unknown(record: Record, it: Answer) -> Optional[str]:
    """Why nobody can say whether a desk is behind."""
    for what, there, how in zip(("roster", "base"), it.state, orders(it.past, record.past)):
        if how == Order.UNKNOWN:
            return (
                f"it has another {what} (sha256 {there}), and its history does not say that it had"
                f" this host's last before. If that is right: {record.how(it.state)}"
            )
    return None


def admitted(run: Fetch, answers: list[Answer]) -> list[Answer]:
    """The answers that this host knows not to be behind. It tells of the others."""
    taken = []
    for it in answers:
        why = behind(run.record, it)
        odd = unknown(run.record, it) if why is None and run.record.last is not None else None
        if why is not None:
            say(f"{it.desk}: {why}: its file would bring back what was taken away")
        elif odd is not None:
            run.refused.append(f"{it.desk}: {odd}")
        else:
            taken.append(it)
    return taken


def first_ones(run: Fetch, answers: list[Answer], silent: list[str]) -> list[Answer]:
    """The same where this host has no record: any state is new to it. Where it has a file, that may
    be newer than what the desks say that do answer."""
    if silent and answers and run.place.read() is not None:
        told = f"this host has no record of what its file is made of, and of {', '.join(silent)}"
        run.refused.append(
            f"{told} no answer. If what another says is right: {run.record.how(answers[0].state)}"
        )
        return []
    return answers


def is_past_limit(run: Fetch) -> bool:
    """Whether the operator would rather go back than wait any longer."""
    limit = run.settings.back_after
    age = silence(run.settings, run.place.read(), shortest=True)
    return limit is not None and (age is None or age > limit)


def messages_of(it: Answer) -> int:
    return it.messages


def choice(run: Fetch, answers: list[Answer]) -> Optional[Answer]:
    """The newest answer; where none is that for sure, one that only takes away from what this host
    has."""
    found = newest(answers)
    if found is not None or not answers:
        return found
    for it in answers:
        if not any(other.is_after(it) for other in answers):
            state = f"{it.messages} messages, roster {it.state[0]}, base {it.state[1]}"
            told = f"{it.desk}: another desk contradicts it: {state}"
            is_odd = any(Order.UNKNOWN in orders(it.past, other.past) for other in answers)
            run.refused.append(told) if is_odd else say(told)  # (else the next fetch may mend it)
    held, last = run.place.read(), run.record.last
    if held is None or last is None:
        return None
    alike = [it for it in answers if it.state.is_as_named(last.state)]
    own = [it for it in alike if held.text.startswith(it.base)]
    less = [it for it in own if it.is_within(it.base, held.text[len(it.base) :])]
    return max(less, key=messages_of) if less else None


def take(run: Fetch, it: Answer, is_kept: bool) -> None:
    """Puts the file of an answer in place; what it is made of is noted before that."""
    last = run.record.last
    if is_kept and last is not None:
        for what, ours, there in zip(("roster", "base"), last.state, it.state):
            if ours != there:
                say(f"{it.desk}: the {what} is another (sha256 {there}), which came after the last")

    def keep() -> None:
        if is_kept:
            run.record.keep(it.messages, it.past)

    install(run.settings, run.place, it.text, keep)
    heard(run.settings)
    compare_clocks(it.desk, it.date)


def take_newest(run: Fetch, answers: list[Answer], silent: list[str]) -> bool:
    """Takes the newest of the answers that can be taken: whether there is one."""
    if run.record.last is None:
        left = first_ones(run, answers, silent)
    else:
        left = admitted(run, answers)
    is_kept = True
    if not left and answers and is_past_limit(run):
        say("a desk that is behind is taken, since no other gave a file for so long (BACK_AFTER)")
        left, is_kept = answers, False
    while left:
        it = choice(run, left)
        if it is None:
            return False
        with told_of(it.desk):
            take(run, it, is_kept)
            return True
        left.remove(it)
        left = [other for other in left if behind(run.record, other) is None]
    return False


def ask_all(run: Fetch) -> bool:
    """Asks all desks, and takes the newest sound answer: whether there is one."""
    desks, moment = tuple(dict.fromkeys(run.settings.desks)), an_hour_ago()
    age = silence(run.settings, run.place.read())
    last = None if age is None or age > HOUR else run.record.sure
    found = side_by_side(
        desks, lambda desk: answer_of(run.settings, desk, run.record.host, last, moment)
    )
    answers, silent = [], []
    for desk, told in found.items():
        if isinstance(told, Unsigned):
            run.refused.append(f"{desk}: {told}")
            silent.append(desk)
        elif isinstance(told, Fault):
            say(f"{desk}: {told}")
            silent.append(desk)
        else:
            answers.append(told)
    is_taken = take_newest(run, answers, silent)
    for line in run.refused:
        say(line)
    return is_taken


def check_words(settings: Settings, host: str) -> None:
    """What has to be so before any desk is asked."""
    if os.geteuid() != 0:
        raise Fault("it has to be run as root: sudo reads files of root's alone")
    fit_sudo()
    if not re.fullmatch(HOST, host):
        raise Fault(f"{host} is no host's name")
    for what, path in (
        ("certificate", settings.cert),
        ("key", settings.key),
        ("CA certificate", settings.ca),
    ):
        if path and not os.access(path, os.R_OK):
            raise Fault(f"cannot read the {what} {path}; the old file stays")
    if not settings.desks:
        raise Fault(f"no desk is named: DESKS in {CONF}")
    check_keys(settings)


def fetch(settings: Settings, host: str) -> int:
    """Asks the desks; the newest sound answer is taken, or the file stays."""
    check_words(settings, host)
    state_folder(settings.state)
    with contextlib.closing(Place(settings.file, settings.state)) as place, locked(settings.state):
        place.clear()
        trial = Trial(settings.state)
        if trial.is_begun():
            tell_change(settings)  # the fetch before this one was killed, maybe before it did
        with told_of("the fetch before this one was killed"):
            trial.end(place)
        run = Fetch(settings, Record(settings.state, host), place, [])
        try:
            run.record.read()
            is_taken = ask_all(run)
        finally:
            last = run.record.last
            end_grants(settings, place, last.base if last is not None else None)
            Notes(settings).put("refused", "".join(f"{it}\n" for it in run.refused))
            if not keep_spares(settings.state):
                say(f"{settings.state} keeps no room for a revocation: its disk is full")
    if is_taken:
        return REFUSED if run.refused else 0
    raise Fault(f"no desk gave a file for {host} that can be taken; {settings.file} stays as it is")


def accept(settings: Settings, host: str, state: State) -> int:
    """Has an administrator say which state holds: that is taken next, and what was before is not,
    whatever a desk says."""
    if not re.fullmatch(HOST, host):
        raise Fault(f"{host} is no host's name")
    for it in state[:2]:
        if not re.fullmatch("[0-9a-f]{64}", it):
            raise Fault(f"{it} is no SHA-256: sha256sum ROSTER, and desk check BASE | sha256sum")
    state_folder(settings.state)
    with locked(settings.state):
        record = Record(settings.state, host)
        with contextlib.suppress(Fault):  # (a damaged one is mended so)
            record.read()
        record.accept(state)
    return 0


@contextlib.contextmanager
def told_of(what: str) -> Iterator[None]:
    """A fault is said, and what follows goes on."""
    try:
        yield
    except Fault as why:
        say(f"{what}: {why}")
