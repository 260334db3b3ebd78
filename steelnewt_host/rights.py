"""Whether sudo reads the host's file, and lets it decide."""

from __future__ import annotations

import contextlib
import json
import os
import time
from collections.abc import Iterator

from steelnewt_host.canaries import contradicted
from steelnewt_host.faults import Fault
from steelnewt_host.finding import CRITICAL, Finding
from steelnewt_host.lawful import unlawful
from steelnewt_host.place import Place, is_sound
from steelnewt_host.settings import Settings
from steelnewt_host.silence import stale
from steelnewt_host.sudo import program, run, visudo

STALE = 3600  # the seconds after which a file is called old


def wrong_rights(settings: Settings) -> Iterator[Finding]:
    """All that is wrong with what sudo reads."""
    for text in (
        *wrong_file(settings),
        *(f"visudo -c: {line}" for line in visudo()[:5]),
        *wrong_order(settings.file),
        *contradicted(settings),
    ):
        yield Finding(CRITICAL, text)


def wrong_file(settings: Settings) -> Iterator[str]:
    """What is wrong with the host's file."""
    path = settings.file
    with contextlib.closing(Place(path)) as place:
        held = place.read()
    if held is None:
        yield f"{path} is not there: nothing was fetched yet"
        return
    if not is_sound(held.seen):
        yield f"{path} has to be root's, with mode 0440"
    wrong = unlawful(held.text)
    if wrong:
        yield f"{path} is none of a desk's: {wrong}"
    why = stale(settings, held)
    if why is not None:
        yield why
    old = int(time.time() - held.seen.st_mtime)
    if old > STALE:
        yield f"{path} was fetched {old} seconds ago"
    elif old < -STALE:
        yield f"{path} was fetched {-old} seconds from now: is the clock right?"


def rules_of(path: str) -> list[object]:
    """The rules that sudo reads of a file and of those that it includes, in their order."""
    ran = run(program("cvtsudoers"), "-f", "json", path)
    try:
        return list(json.loads(ran.stdout or "{}").get("User_Specs", []))
    except ValueError as why:
        raise Fault(f"cvtsudoers cannot read {path}: {ran.stderr.strip() or why}") from why


def wrong_order(path: str) -> Iterator[str]:
    """Whether sudo reads the file, and its rules as the last: of two that speak, the last holds."""
    lines = run(program("visudo"), "-c").stdout.splitlines()
    read = [os.path.realpath(it.rpartition(": ")[0]) for it in lines if it.endswith("parsed OK")]
    if os.path.exists(path) and read and os.path.realpath(path) not in read:
        yield f"sudo does not read {path}: /etc/sudoers includes it nowhere"
        return
    own = rules_of(path) if os.path.exists(path) else []
    if own and rules_of("/etc/sudoers")[-len(own) :] != own:
        yield f"sudo reads rules behind those of {path}: they may give what the desk denies"
    with contextlib.suppress(OSError), open("/etc/nsswitch.conf", encoding="latin-1") as file:
        for line in file:
            words = line.partition("#")[0].split()
            if words[:1] == ["sudoers:"] and words[1:] != ["files"]:
                yield f"/etc/nsswitch.conf has sudo read rules elsewhere too: {' '.join(words)}"
