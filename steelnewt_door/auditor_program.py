"""The program `desk-auditor`: a look of the auditors' machine at a desk, as a probe of Nagios says
it. What is found counts once it lasts: a host fetches its file some minutes after a message."""

import argparse
import contextlib
import json
import os
import sys
import time
import tomllib
from dataclasses import dataclass

from steelnewt_client.codes import unusable
from steelnewt_client.desk import BadAddress, Desk, Silent
from steelnewt_client.signed import SITE
from steelnewt_door.auditing import Auditing, NoProgram, Site
from steelnewt_door.bringing import BadCopy, Copy
from steelnewt_door.journal import BadJournal
from steelnewt_door.judge import JudgeAway
from steelnewt_door.signers import BadSigners
from steelnewt_door.verifying import BadInput

CONFIG = "/etc/desk/auditor.toml"
OK, CRITICAL, UNKNOWN = 0, 2, 3
NAMES = {OK: "OK", CRITICAL: "CRITICAL", UNKNOWN: "UNKNOWN"}
TEXTS = {
    "site": "", "desk": "", "certificate": "", "key": "", "ca": "", "roster": "", "base": "",
    "hosts": "", "program": "desk", "keep": "/var/lib/desk-auditor", "signed_since": "",
}  # fmt: skip
NUMBERS = {"changes_by": 1, "late": 86_400, "lasts": 900}
FAULTS = (
    BadAddress, BadCopy, BadInput, BadJournal, BadSigners, JudgeAway, NoProgram, Silent, OSError,
    ValueError,
)  # fmt: skip


@dataclass(frozen=True)
class Settings:
    texts: dict[str, str]
    numbers: dict[str, int]
    known: frozenset[str]
    programs: frozenset[str]
    doors: dict[str, str]

    def site(self) -> Site:
        it, numbers = self.texts, self.numbers
        places = it["roster"], it["base"], it["hosts"], it["program"]
        parts = numbers["changes_by"], numbers["late"], it["signed_since"], self.programs
        return Site(it["site"], *places, *parts, self.doors)

    def ask(self, path: str) -> bytes:
        """What the desk's front, or its socket, answers."""
        it = self.texts
        pair = (it["certificate"], it["key"]) if it["certificate"] else None
        found = Desk(it["desk"], "", pair, it["ca"] or None, patience=120.0)
        reply = found.exchange("GET", path)
        if reply.status != 200:
            raise Silent(f"{path}: {unusable(reply.status, reply.text)}")
        return reply.body


def read_settings(path: str) -> Settings:
    with open(path, "rb") as file:
        told = tomllib.load(file)
    known, programs, doors = (told.pop(it, []) for it in ("known", "programs", "doors"))
    texts, numbers = dict(TEXTS), dict(NUMBERS)
    for name, value in told.items():
        if name in texts and isinstance(value, str):
            texts[name] = value
        elif name in numbers and type(value) is int and value >= 0:
            numbers[name] = value
        else:
            raise ValueError(f"{path}: {name} is no setting, or has another value")
    if not SITE.fullmatch(texts["site"]) or not all(texts[it] for it in ("desk", "roster", "base")):
        raise ValueError(f"{path}: it needs site, desk, roster and base")
    parts = frozenset(map(str, known)), frozenset(map(str, programs)), dict(doors)
    return Settings(texts, numbers, *parts)


def lasting(found: list[str], path: str, lasts: int, clock: float) -> list[str]:
    """What was found at each look for so many seconds; the first looks are kept in a file. (A host
    has its file a while after the desk: all else counts at once.)"""
    before: dict[str, float] = {}
    with contextlib.suppress(OSError, ValueError):
        with open(path, encoding="utf-8") as file:
            before = dict(json.load(file))
    since = {it: before.get(it, clock) for it in found}
    with open(f"{path}.new", "w", encoding="utf-8") as file:
        json.dump(since, file)
    os.replace(f"{path}.new", path)
    return [it for it in found if not it.startswith("HOST ") or clock - since[it] >= lasts]


def shown(text: str) -> str:
    """(of a stranger's bytes nothing goes to a terminal that it obeys)"""
    return "".join(it if it.isprintable() else ascii(it)[1:-1] for it in text)


def looked(settings: Settings) -> tuple[int, str, dict[str, int]]:
    """One look: the status, what is said, and the figures."""
    folder = settings.texts["keep"]
    os.makedirs(folder, 0o750, exist_ok=True)
    audit = Auditing(settings.site(), Copy(folder))
    audit.look(settings.ask)
    seen = [it for it in dict.fromkeys(audit.found) if it not in settings.known]
    path = os.path.join(folder, "found.json")
    found = lasting(seen, path, settings.numbers["lasts"], time.time())
    for line in found:
        print(f"desk-auditor: {shown(line)}", file=sys.stderr)
    text = f"{settings.texts['site']}: {len(found)} found"
    text += f": {found[0]}" if found else ""
    return CRITICAL if found else OK, text, audit.counts | {"found": len(found)}


def main(words: list[str] | None = None) -> int:
    parser = argparse.ArgumentParser(
        "desk-auditor",
        description="Brings what a door kept and what its desk holds, says what nobody signed, and"
        " whether hosts have what people signed.",
        epilog="Exit status: 0 nothing was found, 2 something was, 3 nothing is known.",
    )
    parser.add_argument("--config", default=CONFIG, help=f"the settings (default {CONFIG})")
    said, counts = parser.parse_args(words), dict[str, int]()
    try:
        status, text, counts = looked(read_settings(said.config))
    except FAULTS as fault:
        status, text = UNKNOWN, f"{type(fault).__name__}: {fault}"
    line = f"DESK AUDITOR {NAMES[status]} - {shown(text)}".replace("|", "/")
    print(line + " |" + "".join(f" {name}={value}" for name, value in counts.items()))
    return status
