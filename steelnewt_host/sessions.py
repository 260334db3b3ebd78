"""What users run by sudo."""

from __future__ import annotations

import os
from collections.abc import Iterator, Sequence
from typing import Optional

from steelnewt_host.changes import since_boot
from steelnewt_host.faults import Unclear
from steelnewt_host.groups import enter, groups_of, has_groups, members
from steelnewt_host.plugin import plugin_since
from steelnewt_host.processes import (
    Process,
    ancestors,
    is_sudo,
    name_of,
    processes,
    read_process,
    started,
    words_of,
)
from steelnewt_host.records import starts
from steelnewt_host.session import Session, told_words
from steelnewt_host.settings import Settings
from steelnewt_host.sudo import sudo_files
from steelnewt_host.sudo_words import question


WROTE_NOTHING = "sudo wrote nothing down of it"


def bring_back(it: Session) -> None:
    """A login of root's own (pam_systemd, in the stack of `sudo -i`) may take a sudo out of its
    group: it comes back, with all that is below it."""
    here = it.process
    if here is None or not os.path.exists(it.group):
        return
    for _ in range(4):
        every = processes()
        first = every.get(here.pid)
        if first is None or first.start != here.start:
            return
        own = os.path.basename(it.group)
        below = [pid for pid, each in every.items() if first in (each, *ancestors(each, every))]
        out = [pid for pid in below if own not in groups_of(pid)]
        if not out or not any([enter(it.group, pid) for pid in out]):
            return


def sessions(settings: Settings) -> list[Session]:
    """What users run by sudo: what it wrote down, and the sudos of which it wrote nothing."""
    every = processes()
    found = list(starts(settings))
    for it in found:
        if it.process is not None and it.group:
            own = os.path.basename(it.group)
            if own not in groups_of(it.name[0]):
                bring_back(it)
    return found + list(unrecorded(settings, every, found))


def unrecorded(
    settings: Settings, every: dict[int, Process], known: Sequence[Session]
) -> Iterator[Session]:
    """Sudos of which nothing is written down. One that its user started after sudo began to write
    is asking for its password, for PROMPT at most: nothing is started without a record. A sudo of
    the same words below another is its own child; what runs in a container goes by other files than
    this host's."""
    files, here = sudo_files(), every.get(os.getpid())
    sudos = {it.pid for it in every.values() if is_sudo(it, files)}
    own = {here.pid, *(it.pid for it in ancestors(here, every))} if here else set()
    named = {it.name for it in known}
    groups = {os.path.basename(it.group) for it in known if it.group}
    since = plugin_since(settings)
    for pid in sorted(sudos - own):
        it = every[pid]
        is_known = (it.pid, it.start) in named or not groups.isdisjoint(groups_of(pid))
        if is_known or it.user == 0 or here and it.depth > here.depth:
            continue
        words = words_of(it)
        if it.parent in sudos and words_of(every[it.parent]) == words:
            continue
        target, why = "root", ""
        if since is not None and has_groups() and started(it) > since:
            if since_boot() - started(it) <= settings.prompt:
                continue
            why = WROTE_NOTHING
        try:
            asked = () if why else question(it, words, name_of(it.user))
            if not why and not asked:
                continue
            if asked:
                at = asked.index("--")
                target = dict(zip(asked[:at:2], asked[1:at:2])).get("-u", "root")
                words = asked[at + 1 :]
        except (Unclear, KeyError, ValueError, IndexError) as fault:
            why = f"its words are not clear: {fault}"
        said = told_words(words, target)
        is_lost = why == WROTE_NOTHING
        yield Session((it.pid, it.start), name_of(it.user), said, it, unclear=why, is_lost=is_lost)


def sudo_of(it: Session) -> Optional[Process]:
    """The session's sudo: its own child where it runs in the background (`sudo -b`)."""
    if it.process is not None:
        return it.process
    found = (read_process(pid) for pid in sorted(members(it.group)))
    return next((each for each in found if each and each.power == 0 != each.user), None)


def belongs(it: Session, every: dict[int, Process]) -> set[Process]:
    """The session's own processes that are there, its sudo among them: those of its control group,
    what is below its sudo, and what shares a session (of the kernel's) that one of these leads."""
    found = {every[pid] for pid in members(it.group) if pid in every}
    first = every.get(it.name[0])
    if first is not None and first.start == it.name[1]:
        below = {pid for pid, each in every.items() if first in ancestors(each, every)}
        led = {each.session for each in every.values() if each.session in below | {first.pid}}
        shared = {pid for pid, each in every.items() if each.session in led}
        found |= {every[pid] for pid in below | shared | {first.pid}}
    return {each for each in found if each.pid != os.getpid()}
