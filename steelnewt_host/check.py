"""check: what of this host is not as it has to be, as a probe of Nagios says it: one line on the
output, with figures behind a bar, and the status 0 to 3. Each finding stands on standard error."""

from __future__ import annotations

import os
import subprocess
import tempfile
import time
from collections.abc import Iterator

from steelnewt_host.faults import Fault
from steelnewt_host.finding import CRITICAL, NAMES, OK, UNKNOWN, WARNING, Finding
from steelnewt_host.groups import without_groups
from steelnewt_host.pam import without_step
from steelnewt_host.plugin import is_loaded
from steelnewt_host.records import starts
from steelnewt_host.rights import wrong_rights
from steelnewt_host.self_test import deep, wrong_since_then
from steelnewt_host.settings import Settings
from steelnewt_host.sudo import fit_sudo, program, run
from steelnewt_host.telling import say, shown
from steelnewt_host.watched import (
    certificate_end,
    look_age,
    refused,
    unended,
    unkept,
    wrong_certificate,
    wrong_keys,
    wrong_names,
    wrong_run,
    wrong_timers,
)

# Each figure: what it is, for Prometheus.
FIGURES = {
    "desk_host_to_mend": "what of this host is not as it has to be",
    "desk_host_status": "0 all is well, 1 somebody has to look, 2 rights may live on, 3 unknown",
    "desk_host_file_age_seconds": "the age of the host's file since its last fetch",
    "desk_host_certificate_seconds": "the time until the host's certificate ends",
    "desk_host_look_age_seconds": "the time since what runs was last looked at",
    "desk_host_sessions": "what users run by sudo now",
}


def wrong_plugin() -> Iterator[Finding]:
    """Whether sudo tells what it starts."""
    if not is_loaded():
        told = "sudo does not load desk-host's plugin: desk-host plugin on"
        yield Finding(CRITICAL, told)
        yield from without_step()
    elif (why := without_groups()) is not None:
        yield Finding(CRITICAL, f"{why}: what leaves its sudo is lost")
    if "Ignore case when matching user names" in run(program("sudo"), "-V").stdout:
        yield Finding(WARNING, "sudo compares names without case: see desk-defaults")


def findings(settings: Settings) -> Iterator[Finding]:
    """All of them."""
    yield from wrong_rights(settings)
    yield from refused(settings)
    yield from wrong_keys(settings)
    yield from wrong_plugin()
    yield from wrong_run(settings)
    yield from unended(settings)
    yield from wrong_since_then(settings)
    yield from wrong_certificate(settings)
    yield from wrong_names(settings)
    yield from wrong_timers(settings)
    yield from unkept(settings)


def figures(settings: Settings, found: list[Finding], status: int) -> dict[str, int]:
    """The figures, without those that this host has not."""
    held = {"desk_host_to_mend": len(found), "desk_host_status": status}
    if os.path.exists(settings.file):
        held["desk_host_file_age_seconds"] = int(time.time() - os.stat(settings.file).st_mtime)
    end, age = None, look_age(settings)
    try:
        end = certificate_end(settings)
    except Fault:
        pass  # (a finding says so)
    if end is not None:
        held["desk_host_certificate_seconds"] = int(end - time.time())
    if age is not None:
        held["desk_host_look_age_seconds"] = int(age)
    held["desk_host_sessions"] = sum(1 for _ in starts(settings))
    return held


def write_textfile(path: str, held: dict[str, int]) -> None:
    """The figures for Prometheus's node exporter, in one step."""
    lines = []
    for name, value in held.items():
        lines += [f"# HELP {name} {FIGURES[name]}", f"# TYPE {name} gauge", f"{name} {value}"]
    with tempfile.NamedTemporaryFile("w", dir=os.path.dirname(path) or ".", delete=False) as file:
        file.write("\n".join(lines) + "\n")
        os.fchmod(file.fileno(), 0o644)
    os.replace(file.name, path)


def said(status: int, text: str, held: dict[str, int]) -> int:
    line = f"DESK HOST {NAMES[status]} - {shown(text)}".replace("|", "/")
    print(line + " |" + "".join(f" {name}={value}" for name, value in held.items()))
    return status


def check(settings: Settings, textfile: str, is_deep: bool) -> int:
    """Says what of this host is not as it has to be: the status is that of the worst. It asks sudo
    where sudo can be asked."""
    held = {"desk_host_status": UNKNOWN}
    try:
        version = fit_sudo()
        if is_deep:
            deep(settings)
        found = list(findings(settings))
        status = max((it.level for it in found), default=OK)
        held = figures(settings, found, status)
        text = f"sudo {version}, {settings.file}: {len(found)} to mend"
        for it in found:
            say(it.text)
        first = sorted(found, key=lambda it: -it.level)[:1]
        text += "".join(f": {it.text}" for it in first)
    except (Fault, OSError, subprocess.SubprocessError) as why:
        status, text = UNKNOWN, str(why)
    try:
        if textfile:
            write_textfile(textfile, held)
    except OSError as why:
        status, text = max(status, WARNING), f"cannot write {textfile}: {why.strerror}; {text}"
    return said(status, text, held)
