"""What ends by its date: a timer of systemd's at each end that the host's file has for those who
run something. A timer needs neither a desk nor another run of desk-host: it starts what asks sudo
again, and ends at once what sudo denies.

Where there is no systemd, the next look does the same within a minute."""

from __future__ import annotations

import calendar
import contextlib
import os
import re
import subprocess
import time
from collections.abc import Iterator

from steelnewt_host.faults import Fault
from steelnewt_host.records import starts
from steelnewt_host.settings import Settings
from steelnewt_host.state import read_some
from steelnewt_host.sudo import program, run
from steelnewt_host.telling import log

MOST = 16 * 1024 * 1024  # the bytes of a host's file
NEAREST = 32  # so many timers are set; each of them sets those that then are the nearest
UNIT = "desk-end@{}.service"
WHO = re.compile("(?:[^ ]+, )*[^ ]+")  # the users of a line, before its hosts
MOMENT = re.compile(r"NOT(BEFORE|AFTER)=([0-9]{14})Z")


def has_systemd() -> bool:
    return os.path.isdir("/run/systemd/system")


def seconds(stamp: str) -> int:
    return calendar.timegm(time.strptime(stamp, "%Y%m%d%H%M%S"))


def ends_of(text: str, user: str) -> Iterator[int]:
    """The seconds in which a line about a user, or about an alias, begins or ceases to hold: one
    that begins may deny. sudo counts the last second of a window to it."""
    for line in text.splitlines():
        users, _, rest = line.partition(" = (")
        who = WHO.match(users)
        names = re.split("[ ,!]+", who[0]) if who else []
        if user not in names and not any(it.isupper() for it in names):
            continue
        for kind, stamp in MOMENT.findall(rest):
            with contextlib.suppress(ValueError):  # (that of a line that no desk wrote)
                yield seconds(stamp) + (kind == "AFTER")


def file_of(settings: Settings) -> str:
    return (read_some(settings.file, MOST) or b"").decode("ascii", "replace")


def nearest(settings: Settings) -> list[int]:
    """The next ends for those who run something now."""
    text, now = file_of(settings), time.time()
    users = {it.user for it in starts(settings)}
    found = {at for user in users for at in ends_of(text, user) if at > now}
    return sorted(found)[:NEAREST]


def set_timer(at: int) -> None:
    """Sets the timer of that second, if it is not set."""
    unit = UNIT.format(at)
    if os.path.exists(f"/run/systemd/transient/{unit.replace('.service', '.timer')}"):
        return
    when = time.strftime("%Y-%m-%d %H:%M:%S UTC", time.gmtime(at))
    words = ["--quiet", f"--unit={unit}", f"--on-calendar={when}"]
    words += ["--timer-property=AccuracySec=100ms", "--timer-property=RemainAfterElapse=no"]
    ran = run(program("systemd-run"), *words)
    if ran.returncode != 0 and "already" not in ran.stderr:
        said = (ran.stderr.strip().splitlines() or ["it says nothing"])[0]
        raise Fault(f"systemd sets no timer at {when}: {said}")


def set_timers(settings: Settings) -> None:
    """Sets the timers of those who run something now. A fault is told of: the next look ends what
    they would have ended."""
    if settings.sessions == "no" or not has_systemd():
        return
    try:
        for at in nearest(settings):
            set_timer(at)
    except (Fault, OSError, subprocess.SubprocessError) as why:
        log(f"what a grant allowed is ended up to a minute late: {why}")
