"""The program `desk-used`."""

import argparse
import json
import os
import re
import sys
import tempfile
import zoneinfo
from collections.abc import Callable
from typing import Any, NamedTuple

from desk_tools.decisions import Desk
from desk_tools.found import Parser, visible
from desk_tools.judge import NoDesk, program
from desk_tools.made import Made, made
from desk_tools.narrower import proposals
from desk_tools.peers import BadPeers, Peers
from desk_tools.served import digest, file_digest
from desk_tools.standing import Standing, beyond
from desk_tools.starts import read_starts, unlogged
from desk_tools.starts import told_of as starts_told
from desk_tools.sudo_logs import Logs, files_of, read_log
from desk_tools.toml_text import read as read_toml
from desk_tools.use import Span, Use, grants_of, revoked_of, runs_of
from desk_tools.used_text import Told, json_of, text_of, told_of
from steelnewt_client.moments import seconds, stamp_of

CLEAN, FOUND, FAILED = 0, 1, 2
DAY = 86_400
ENDLESS = 1 << 40
NAMED = re.compile(r"([a-z][a-z0-9-]{0,31})=(.+)")


class Failed(Exception):
    """Why nothing can be told."""


def moment(text: str) -> int:
    """A moment among the words."""
    if not re.fullmatch(r"\d{14}Z", text):
        raise argparse.ArgumentTypeError("a moment is yyyymmddhhmmssZ")
    return seconds(text)


OPTIONS: tuple[tuple[str, Callable[[str], Any], str, str], ...] = (
    ("--from", moment, "AT", "what ran since then"),
    ("--until", moment, "AT", "what ran until then"),
    ("--skew", int, "SECONDS", "how far a host's clock may be off (0)"),
    ("--zone", str, "ZONE", "the zone of moments that name none (UTC)"),
    ("--year", int, "YEAR", "the year of moments that name none (by the file's time)"),
    ("--peers", str, "FILE", "the addresses of hosts, for a log server's events (name service)"),
    ("--unused-for", int, "DAYS", "the base's rules that nobody used in so many days"),
    ("--baseline", str, "FILE", "one case of what each user of the base has beyond this policy"),
    ("--roster", str, "ROSTER", "propose narrower ceilings of this roster"),
    ("--starts", str, "[HOST=]FILE", "what desk-host starts printed: each has to be in a log"),
    ("--desk", str, "PROGRAM", "the program desk (the one on the path)"),
)


def parser() -> argparse.ArgumentParser:
    found = Parser(
        "desk-used",
        description="Says which grants of a desk were used, by what sudo logged on the hosts.",
        epilog="Exit status: 0 all is by a right, 1 something ran by no right or after a "
        "revocation, a start has no line, or a line cannot be read, 2 nothing is told.",
    )
    for name, kind, metavar, said in OPTIONS:
        action = "append" if name == "--starts" else "store"
        found.add_argument(name, type=kind, metavar=metavar, help=said, action=action)
    found.add_argument("--json", action="store_true", help="print JSON")
    found.add_argument("audit", metavar="AUDIT", help="what desk-audit --json says; - is the input")
    found.add_argument("base", metavar="BASE", help="the base policy")
    found.add_argument("logs", metavar="[HOST=]LOG", nargs="+", help="a log, or a folder of logs")
    return found


def audit_of(path: str) -> tuple[dict[str, Any], str]:
    """What an audit tells, and the digest of its text."""
    with open(0 if path == "-" else path, "rb") as file:
        data = file.read()
    try:
        told: dict[str, Any] = json.loads(data)
        grants_of(told)
        revoked_of(told)
    except (ValueError, KeyError, TypeError, RecursionError):
        raise Failed(f"{path}: it is not what desk-audit --json prints") from None
    return told, digest(data)


class Asked(NamedTuple):
    """An audit with its digest, a base's path, and the first and the last moment, where they are
    given."""

    audit: dict[str, Any]
    digest: str
    base: str
    first: int | None
    last: int | None

    @property
    def span(self) -> Span:
        return Span(self.first or 0, ENDLESS if self.last is None else self.last)


class Used:
    """Logs, read once, and what is told by them."""

    def __init__(self, said: argparse.Namespace, desk: Desk) -> None:
        self.desk, self.logs, self.skew = desk, logs_of(said), said.skew or 0
        self.runs, self.spans = runs_of(self.logs), self.logs.logged()
        self.version = desk.run("--version").stdout
        paths = sorted({path for word in said.logs for _, path in files_named(word)})
        # (of what is no file, such as a pipe, there is no digest)
        self.files = [
            (f"log {visible(it)}", file_digest(it)) for it in paths if os.path.isfile(it)
        ]

    def use(self, it: Asked) -> Use:
        base, span = self.desk.policy(self.desk.canonical(it.base)), it.span
        grants = [
            grant
            for grant in grants_of(it.audit)
            if grant.first <= span.last and span.first <= grant.last
        ]
        found = Use(self.desk, base, grants, revoked_of(it.audit), self.skew)
        found.take(self.runs, self.spans, span)
        found.judge()
        return found

    def told(self, it: Asked, use: Use, roster: str | None = None) -> Told:
        return {"made": self.made(it, roster), **told_of(self.logs, use)}

    def made(self, it: Asked, roster: str | None) -> Made:
        """What made the output."""
        files = [("audit", it.digest), ("base", file_digest(it.base))]
        files += [("roster", file_digest(roster))] if roster else []
        span = {"from": it.first, "until": it.last}
        more = {key: stamp_of(at) for key, at in span.items() if at is not None}
        return made("desk-used", self.version, [*files, *self.files], **more)


def files_named(word: str) -> list[tuple[str, str]]:
    """The files of a word [HOST=]LOG, each with its host."""
    found = NAMED.fullmatch(word)
    host, path = found.groups() if found else ("", word)
    return [(host, name) for name in files_of(path)]


def logs_of(said: argparse.Namespace) -> Logs:
    try:
        # (UTC needs no tzdata)
        logs = Logs(zoneinfo.ZoneInfo(said.zone)) if said.zone else Logs()
    except (zoneinfo.ZoneInfoNotFoundError, ValueError):
        raise Failed(f"there is no zone {said.zone}") from None
    logs.peers = Peers(said.peers or "")
    for word in said.logs:
        for host, path in files_named(word):
            read_log(logs, path, host, said.year or 0)
    return logs


def last_of(logs: Logs) -> int:
    return max((last for _, last in logs.logged().values()), default=0)


def roster_of(path: str) -> dict[str, Any]:
    """A roster, as a desk reads it."""
    with open(path, "rb") as file:
        document = read_toml(file.read())
    if document.faults:
        raise Failed(f"{path}:{document.faults[0].line}: {document.faults[0].said}")
    return document.value


def more_of(said: argparse.Namespace, use: Use, until: int) -> Told:
    """What the options ask for besides."""
    told: Told = {}
    if said.unused_for is not None:
        since = max(0, until - said.unused_for * DAY)
        standing = Standing(use)
        standing.decided()
        told |= {"unused_since": stamp_of(since), "unused_rules": standing.unused(since)}
    if said.baseline:
        told["beyond"] = list(beyond(use.desk, use.base.path, use.base, said.baseline))
    if said.roster:
        told["ceilings"] = [
            {
                "ceiling": it.ceiling,
                "grants": it.grants,
                "unused": it.unused,
                "no_log": it.unlogged,
                "proposal": it.text,
                "warnings": it.warnings,
                "persons": [person._asdict() for person in it.persons],
            }
            for it in proposals(roster_of(said.roster), use.grants, until)
        ]
    return told


def starts_of(said: argparse.Namespace, logs: Logs, use: Use, span: Span) -> Told:
    """The starts that no log has."""
    if not said.starts:
        return {}
    kept = read_starts(said.starts)
    firsts = {host: max(span.first, first) for host, (first, _) in logs.logged().items()}
    firsts[""] = max(span.first, min(firsts.values(), default=0))
    return starts_told(kept, unlogged(kept, use, firsts, span.last))


def used(said: argparse.Namespace) -> int:
    asked = Asked(*audit_of(said.audit), said.base, getattr(said, "from"), said.until)
    with tempfile.TemporaryDirectory() as folder:
        it = Used(said, Desk(program(said.desk), folder))
        use, logs = it.use(asked), it.logs
        until = last_of(logs) if said.until is None else said.until
        told = it.told(asked, use, said.roster) | more_of(said, use, until)
        told |= starts_of(said, logs, use, asked.span)
    sys.stdout.write(json_of(told) if said.json else text_of(told))
    is_clean = not told["after_revocation"] and not logs.count_unread
    is_clean = is_clean and not told.get("unlogged") and not told.get("starts_lost")
    return CLEAN if is_clean and all(it.ground != "neither" for it in use.rows) else FOUND


def main(words: list[str] | None = None) -> int:
    said = parser().parse_args(words)
    try:
        return used(said)
    except (Failed, BadPeers, NoDesk) as fault:
        why = str(fault)
    except OSError as fault:
        why = f"{fault.filename}: {fault.strerror}"
    print(f"desk-used: {visible(why)}", file=sys.stderr)
    return FAILED
