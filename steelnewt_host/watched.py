"""What a host has to be watched for, beside its rights: its certificate, its name, the accounts of
the people in its file, its timers, and whether what runs is looked at."""

from __future__ import annotations

import calendar
import contextlib
import os
import pwd
import re
import socket
import time
from collections.abc import Iterator
from typing import Optional

from steelnewt_host.canaries import MOST, Lines
from steelnewt_host.changes import since_boot
from steelnewt_host.clock import behind, path_of
from steelnewt_host.faults import Fault
from steelnewt_host.finding import CRITICAL, WARNING, Finding
from steelnewt_host.lawful import HOST
from steelnewt_host.noted import Notes, is_of_another_start
from steelnewt_host.settings import Settings
from steelnewt_host.signed import check_keys
from steelnewt_host.state import SPARES, read_some, spares, write_state
from steelnewt_host.sudo import program, run
from steelnewt_host.timers import has_systemd

UNSEEN = 600  # the seconds, beside a grace, after which a look at what runs is too old
DAY = 86_400
ENDING, ENDED = 30 * DAY, 7 * DAY  # how long a certificate still has to hold, as for check_desk
KEPT_IN_RUN = 900  # the seconds for which lines of starts may wait


def certificate_end(settings: Settings) -> Optional[int]:
    """When this host's certificate ends; nothing where the settings name none."""
    if not settings.cert:
        return None
    ran = run(program("openssl"), "x509", "-in", settings.cert, "-noout", "-enddate")
    said = ran.stdout.strip().partition("=")[2]
    try:
        return calendar.timegm(time.strptime(said, "%b %d %H:%M:%S %Y GMT"))
    except ValueError:
        raise Fault(f"openssl cannot read {settings.cert}: {ran.stderr.strip()[:200]}") from None


def wrong_certificate(settings: Settings) -> Iterator[Finding]:
    """Whether it ends soon."""
    try:
        end = certificate_end(settings)
    except Fault as why:
        yield Finding(CRITICAL, str(why))
        return
    if end is None or end - time.time() >= ENDING:
        return
    day = time.strftime("%Y-%m-%d", time.gmtime(end))
    level = CRITICAL if end - time.time() < ENDED else WARNING
    yield Finding(level, f"{settings.cert} ends on {day}: no file comes then")


def wrong_keys(settings: Settings) -> Iterator[Finding]:
    """Whether this host can judge what a door signs."""
    try:
        check_keys(settings)
    except Fault as why:
        yield Finding(CRITICAL, str(why))


def own_host(settings: Settings) -> Optional[str]:
    """The name by which this host last fetched its file."""
    found = []
    with contextlib.suppress(FileNotFoundError):
        for name in os.listdir(settings.state):
            host, _, kind = name.rpartition(".")
            if kind == "json" and re.fullmatch(HOST, host) and host != "trial":
                found.append((os.path.getmtime(os.path.join(settings.state, name)), host))
    return max(found)[1] if found else None


def wrong_names(settings: Settings) -> Iterator[Finding]:
    """This machine's name beside HOST's, and the file's people beside the accounts."""
    host, here = own_host(settings), socket.gethostname().partition(".")[0]
    if host is not None and host != here:
        told = f"this machine's name is {here}, and its file is {host}'s: sudo heeds none of it"
        yield Finding(CRITICAL, told)
    lines = Lines((read_some(settings.file, MOST) or b"").decode("ascii", "replace"))
    people = {name for it in lines.rules for name in lines.plain("User", it["who"])}
    without = sorted(it for it in people if not it.startswith("!") and it != "ALL" and not has(it))
    if without:
        more = f" and {len(without) - 5} more" if len(without) > 5 else ""
        told = f"no account here has the name {', '.join(without[:5])}{more}"
        yield Finding(WARNING, f"{told}: {settings.file} gives it rights")


def has(user: str) -> bool:
    try:
        return bool(pwd.getpwnam(user))
    except KeyError:
        return False


def wrong_timers(settings: Settings) -> Iterator[Finding]:
    """The units that have to run, where systemd does."""
    host = own_host(settings)
    if not has_systemd():
        return
    names = ["desk-sessions.timer", "desk-starts.path"]
    names += [f"desk-fetch@{host}.timer"] if host is not None else []
    for name in names:
        if run(program("systemctl"), "is-active", name).stdout.strip() != "active":
            yield Finding(CRITICAL, f"{name} does not run: systemctl enable --now {name}")


def look_age(settings: Settings) -> Optional[float]:
    """How long ago a look at what runs was whole; nothing where there was none."""
    text = read_some(os.path.join(settings.run, "looked"), 64)
    return since_boot() - float(text) if text else None


def wrong_run(settings: Settings) -> Iterator[Finding]:
    """What the looks noted, and whether anything can be noted."""
    if is_of_another_start(settings):
        told = f"{settings.run} is of another start of this machine: mount a tmpfs on /run"
        yield Finding(CRITICAL, told)
    for line in Notes(settings).read("unclear").splitlines()[:9]:
        yield Finding(CRITICAL, f"it cannot be judged: {line}")
    back = behind(settings)
    if back:
        told = f"this host's clock went back by {back:.0f} seconds: grants go by it, so set it"
        yield Finding(CRITICAL, f"{told} (or remove {path_of(settings)} if it is right)")
    tried = os.path.join(settings.run, "tried")
    try:
        os.makedirs(settings.run, mode=0o755, exist_ok=True)
        write_state(tried, "x" * 4096)
        os.unlink(tried)
    except OSError as why:
        told = f"{settings.run} cannot be written to ({why.strerror})"
        yield Finding(CRITICAL, f"{told}: sudo starts nothing for others than root")


def refused(settings: Settings) -> Iterator[Finding]:
    """What the last fetch left for somebody to look at, and whether a full disk would keep the next
    revocation away."""
    for line in Notes(settings).read("refused").splitlines():
        yield Finding(CRITICAL, line)
    if own_host(settings) is not None and len(spares(settings.state)) < SPARES:
        told = f"{settings.state} keeps no room for a revocation: free space there"
        yield Finding(WARNING, told)


def unended(settings: Settings) -> Iterator[Finding]:
    """Why what runs may outlive its right."""
    if settings.sessions != "end" or settings.unjudged != "end":
        told = f"SESSIONS={settings.sessions}, UNJUDGED={settings.unjudged}"
        yield Finding(CRITICAL, f"what runs is not ended where its right has: {told}")
        return
    old = look_age(settings)
    if old is None:
        told = "end-sessions has not looked since this machine started: desk-sessions.timer"
        yield Finding(CRITICAL, told)
    elif old > settings.grace + UNSEEN:
        yield Finding(CRITICAL, f"end-sessions last looked {old:.0f} s ago: desk-sessions.timer")
    lost = (read_some(os.path.join(settings.run, "lost"), 64) or b"").split()
    if len(lost) == 2:
        told = f"of {lost[0].decode()} of {lost[1].decode()} sudos nothing is written down"
        yield Finding(CRITICAL, f"{told}, and none of these is ended: the log names each")


def unkept(settings: Settings) -> Iterator[Finding]:
    """Whether the starts are kept for desk-used."""
    for name in ("kept.taken", "kept.lost"):
        with contextlib.suppress(FileNotFoundError):
            old = time.time() - os.stat(os.path.join(settings.run, name)).st_mtime
            if old > KEPT_IN_RUN or name == "kept.lost":
                told = f"the starts are not kept: {settings.state} may be full"
                yield Finding(WARNING, f"{told} (desk-host starts says why)")
                return
