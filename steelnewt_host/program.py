"""The words of the command. Each command imports what it needs by itself: the step of PAM runs in
everybody's sudo, and reads no more than it has to."""

from __future__ import annotations

import argparse
import os
import subprocess

from steelnewt_host.faults import FAULT, Fault
from steelnewt_host.settings import (
    CONF,
    RUN,
    STATE,
    Settings,
    number,
    own_settings,
    read_conf,
    settings_of,
)
from steelnewt_host.telling import say


def parser() -> argparse.ArgumentParser:
    made = argparse.ArgumentParser(prog="desk-host", allow_abbrev=False)
    parts = made.add_subparsers(dest="part", required=True, metavar="COMMAND")
    one = parts.add_parser("fetch", allow_abbrev=False, help="fetch this host's file")
    one.add_argument("--conf", help=f"the settings (else {CONF}, if the host alone is named)")
    for name in ("cert", "key", "ca"):
        one.add_argument(f"--{name}", metavar="FILE", default="")
    one.add_argument("--state", metavar="FOLDER", default=STATE)
    one.add_argument("--back-after", metavar="SECONDS", default="")
    one.add_argument("words", nargs="+", metavar="HOST | DESK.. HOST FILE")
    one = parts.add_parser("accept", allow_abbrev=False, help="say which roster and base hold")
    one.add_argument("--conf", default=CONF)
    for name in ("host", "roster", "base"):
        one.add_argument(name, metavar=name.upper())
    for name, what in (
        ("check", "say what of this host is not as it has to be"),
        ("end-sessions", "end what runs under a sudo that no longer allows it"),
        ("prompt", "a step for PAM: refuse a sudo that waited too long"),
        ("starting", "set the timers of what sudo has started (desk-starts.service)"),
        ("end-at", "end what has its end at a second (desk-end@.service)"),
        ("starts", "print what sudo started in the last 90 days, for desk-used"),
    ):
        made_part = parts.add_parser(name, allow_abbrev=False, help=what)
        made_part.add_argument("--conf", default=CONF)
        if name == "prompt":
            made_part.add_argument("--asked", action="store_true")
        if name == "check":
            made_part.add_argument("--deep", action="store_true", help="have sudo try it, too")
            made_part.add_argument("--textfile", metavar="FILE", default="")
        if name == "end-at":
            made_part.add_argument("at", type=int, metavar="SECOND")
        if name == "starts":
            made_part.add_argument("--since", metavar="YYYYMMDD", default="00010101")
    one = parts.add_parser("self-test", allow_abbrev=False, help="what check --deep has sudo start")
    one.add_argument("what", choices=("passed", "refused", "scope"))
    one = parts.add_parser("plugin", allow_abbrev=False, help="have sudo tell what it starts")
    one.add_argument("what", choices=("on", "off"))
    return made


def fetch_words(given: argparse.Namespace, made: argparse.ArgumentParser) -> int:
    """`fetch` by its words, or by the file of settings where they name the host alone."""
    from steelnewt_host.fetching import fetch

    if len(given.words) == 1:
        return fetch(settings_of(read_conf(given.conf or CONF)), given.words[0])
    if len(given.words) < 3 or given.conf:
        made.error("fetch HOST, or fetch DESK.. HOST FILE")
    *desks, host, file = given.words
    back = number("--back-after", given.back_after) if given.back_after else None
    settings = Settings(
        desks=tuple(desks),
        cert=given.cert,
        key=given.key,
        ca=given.ca,
        file=file,
        state=given.state,
        back_after=back,
        run=RUN if given.state == STATE else given.state,
    )
    return fetch(settings, host)


def begin(given: argparse.Namespace, made: argparse.ArgumentParser) -> int:
    """Runs the command: its status."""
    if given.part == "fetch":
        return fetch_words(given, made)
    if given.part == "prompt":
        from steelnewt_host.prompt import prompt

        return prompt(own_settings(given.conf), given.asked)
    if given.part == "plugin":
        from steelnewt_host.plugin import plugin

        return plugin(own_settings(CONF), given.what == "on")
    if given.part == "self-test":
        from steelnewt_host.self_test import self_test

        return self_test(given.what)
    settings = settings_of(read_conf(given.conf) if os.path.exists(given.conf) else {})
    if given.part == "end-sessions":
        from steelnewt_host.ending import end_sessions

        return end_sessions(settings)
    if given.part == "accept":
        from steelnewt_host.counts import State
        from steelnewt_host.fetching import accept

        return accept(settings, given.host, State(given.roster, given.base))
    if given.part in ("starting", "end-at"):
        from steelnewt_host import ends

        if given.part == "starting":
            return ends.starting(settings)
        return ends.end_at(settings, given.at)
    if given.part == "starts":
        from steelnewt_host import kept

        return kept.print_starts(settings, kept.a_day(given.since))
    from steelnewt_host.check import check

    return check(settings, given.textfile, given.deep)


def main() -> int:
    os.umask(0o077)
    made = parser()
    given = made.parse_args()
    try:
        return begin(given, made)
    except Fault as why:
        say(str(why))
        return why.status
    except (OSError, subprocess.SubprocessError) as why:
        say(str(why))
        return FAULT
