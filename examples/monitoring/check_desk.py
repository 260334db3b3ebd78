#!/usr/bin/env python3
"""Looks after a desk and a host's file: for Nagios and its like, and as a text file for Prometheus.

    check_desk.py --desk https://desk.example --cert auditor.pem --key auditor.key --ca ca.pem
    check_desk.py --store /var/lib/desk/desk.db           (beside the desk: its size and its disk)
    check_desk.py --certificate /etc/desk/front/server.pem --crl /etc/desk/front/crl.pem
                  --front-pid /run/nginx.pid              (beside the front)
    check_desk.py --outbox /var/lib/desk-relay/outbox.db  (beside a relay: its oldest message and
                  notice, who asked most within a day, its disk)
    check_desk.py --program /usr/bin/desk                 (whether this program is proved)
    check_desk.py --file /etc/sudoers.d/desk              (on a host: how old its file is)
    check_desk.py --backup /srv/desk-backup               (the last backup, and the last drill of one)

On the desk's machine `--desk unix:/run/desk/desk.sock` asks the desk itself, as root or as a member
of the group desk-front, and without a certificate.

Each may be given with the others. One line on the output, and the status 0 (all is well), 1
(somebody has to look), 2 (the desk does not answer, what is looked at cannot be read, or a limit is
passed) or 3 (the words are wrong: nothing was looked at). With --textfile the figures are written
there as well, in one step. It asks the desk only what an auditor's certificate may: /v1/parked,
/v1/reviews/NOW, /v1/count and /v1/requests/after/YESTERDAY, for requests that dispute each other; and
with `--roster` /v1/requests/after/NOW, to remark below that line each grant that begins after the last day on which its asker may ask. Remarked are also commands in
force that are ALL or a directory, as the roster's ceilings allow them.

With `--unit desk`, on the desk's machine, it compares the messages with the memory that the unit
may have, and with `--roster` how much of the roster's limits is used: what grows for years.
"""

import argparse
import dataclasses
import datetime
import http.client
import json
import os
import re
import socket
import sqlite3
import ssl
import subprocess
import sys
import tempfile
import time
import urllib.error
import urllib.parse
import urllib.request
from collections.abc import Callable
from typing import NoReturn

DAY = 86_400
HEADINGS = ("LIVE", "BARRED", "CONFLICTS", "BROAD", "PARKED")
# Each figure: what it is, for Prometheus.
FIGURES = {
    "desk_up": "whether the desk answers",
    "desk_grants": "grants in force",
    "desk_grants_needless": "grants in force of which the base gives all",
    "desk_conflicts": "pairs of conflicting duties that one person holds",
    "desk_broad": "commands in force that are ALL or a directory",
    "desk_messages": "messages that the desk holds",
    "desk_memory_percent": "how much of its memory the messages may need",
    "desk_memory_bytes": "the memory that the desk's unit has",
    "desk_memory_limit_bytes": "the memory that the desk's unit may have",
    "desk_roster_percent": "how much is used of that limit of rosters of which most is used",
    "desk_disputed": "names under which several requests were asked, one of them within a day",
    "desk_parked": "verdicts whose request has not come",
    "desk_parked_old": "verdicts that have waited for more than a day",
    "desk_grants_after_last_day": "grants that begin after their asker's last day",
    "desk_store_bytes": "the size of the store and its log",
    "desk_store_free_percent": "how much of the store's disk is free",
    "desk_proved": "whether the program's promises are proved",
    "desk_outbox_free_percent": "how much of the outbox's disk is free",
    "desk_certificate_seconds": "the time until the first of the certificates ends",
    "desk_crl_seconds": "the time until the first of the lists of revoked certificates ends",
    "desk_outbox_waiting": "messages that a relay keeps and the desk has not answered",
    "desk_outbox_oldest_seconds": "the age of the oldest of them",
    "desk_notices_waiting": "events that a relay has not told to anybody",
    "desk_notices_oldest_seconds": "the time since the oldest of them was to be told",
    "desk_notices_given_up": "events of the last week that could not be told for a day",
    "desk_notices_looked_seconds": "the time since a relay looked for what is to be told",
    "desk_asked_most": "messages of the person who sent most of them to a relay within a day",
    "desk_backup_age_seconds": "the age of the last whole backup",
    "desk_drill_age_seconds": "the time since a backup was last tried",
    "desk_host_file_age_seconds": "the age of the host's file since its last fetch",
}
# What is looked at; each may be left out, but not all.
LOOKED_AT = ("desk", "store", "certificate", "crl", "outbox", "file", "program", "backup")
# Each limit: the option, its two values, what it limits, and whether less is worse.
LIMITS = (
    ("days", 30, 7, "days that a certificate or a list of revoked ones still holds", True),
    ("free", 15, 5, "percent of the store's or the outbox's disk that are free", True),
    ("waits", 300, 3600, "seconds for which a relay's message or notice waits", False),
)
# What a message may need of the desk's memory, in bytes.
A_MESSAGE = 2048
# The limits of a roster: its bytes, what each of its tables and lists may have, and one person.
ROSTER_BYTES = 1 << 20
ROSTER_MOST = {
    "relays": 64,
    "hosts": 1024,
    "duties": 256,
    "conflicts": 4096,
    "people": 4096,
    "ceilings": 1024,
}
PERSON_MOST = 256
# How many of an outbox's last messages are looked at for who sent most.
MOST_COUNTED = 50_000
# From how many percent of one of them on somebody is told.
NEAR = 90
# What one clock may be ahead of another, in seconds.
AHEAD = 300
# Where a desk and a relay say that they gave up their reserve of disk, for revocations alone.
GIVEN_UP, RESERVE = "/run/desk-reserve/free", "reserve"
ALONE = "refusals and revocations alone are kept until there is room"


class Words(argparse.ArgumentParser):
    def error(self, message: str) -> NoReturn:
        """Wrong words: Nagios's 'unknown'."""
        print(f"DESK UNKNOWN - {message}")
        sys.exit(3)


def words() -> argparse.Namespace:
    parser = Words(description="Looks after a desk and a host's file.", allow_abbrev=False)
    parser.add_argument(
        "--desk", help="the desk, as https://desk.example or unix:/run/desk/desk.sock"
    )
    parser.add_argument("--cert", help="an auditor's certificate")
    parser.add_argument("--key", help="its key")
    parser.add_argument("--ca", help="the authority of the front's certificate")
    parser.add_argument(
        "--roster", help="the desk's roster: remark grants that begin after their asker's last day"
    )
    parser.add_argument(
        "--unit", help="the desk's unit on this machine, as desk: compare messages and memory"
    )
    parser.add_argument(
        "--broad-warning", action="store_true", help="a command that is ALL or a directory warns"
    )
    parser.add_argument("--store", help="the store, where this runs beside the desk")
    parser.add_argument(
        "--store-most",
        type=int,
        default=1 << 30,
        help="bytes of the store that are too many (1 GiB)",
    )
    parser.add_argument(
        "--certificate", action="append", help="a file of certificates (may be given again)"
    )
    parser.add_argument(
        "--crl", action="append", help="a list of revoked certificates (may be given again)"
    )
    parser.add_argument(
        "--front-pid",
        help="the front's file with its process: it has to have read these certificates and lists",
    )
    parser.add_argument("--outbox", help="a relay's outbox.db")
    for name, warning, critical, what, _ in LIMITS:
        for level, value in (("warning", warning), ("critical", critical)):
            said = f"{what}: the limit of a {level} ({value})"
            parser.add_argument(f"--{name}-{level}", type=int, default=value, help=said)
    parser.add_argument("--backup", help="the folder of desk-backup's backups")
    said = "seconds after which the last backup, and the last drill, is too old (26 hours)"
    parser.add_argument("--backup-age", type=int, default=93_600, help=said)
    parser.add_argument("--program", help="the program desk: warn where it is not proved")
    parser.add_argument("--file", help="a host's sudoers file")
    parser.add_argument(
        "--file-age", type=int, default=3600, help="seconds after which the file is too old (3600)"
    )
    parser.add_argument(
        "--textfile",
        help="a file of Prometheus's node exporter, as /var/lib/node_exporter/desk.prom",
    )
    given = parser.parse_args()
    check_words(parser, given)
    # (as serve.conf has an address, and no store)
    if given.desk and re.fullmatch(r"[^/]+:[0-9]+", given.desk):
        given.desk = f"http://{given.desk}"
    given.store = None if given.store == "-" else given.store
    return given


def check_words(parser: Words, given: argparse.Namespace) -> None:
    """An empty word is a variable of a script's that has no value: it must not look as if all were
    well."""
    for name, value in vars(given).items():
        if value == "" or isinstance(value, list) and "" in value:
            parser.error(f"--{name.replace('_', '-')} has an empty value")
    if not any(getattr(given, name) for name in LOOKED_AT):
        parser.error("name what to look at: " + ", ".join(f"--{name}" for name in LOOKED_AT))
    for name in ("roster", "unit", "broad_warning"):
        if getattr(given, name) and not given.desk:
            parser.error(f"--{name.replace('_', '-')} needs a --desk")
    if given.front_pid and not (given.certificate or given.crl):
        parser.error("--front-pid needs a --certificate or a --crl")
    for name, _, _, _, is_less_worse in LIMITS:
        warning, critical = getattr(given, f"{name}_warning"), getattr(given, f"{name}_critical")
        if min(warning, critical) < 0:
            parser.error(f"--{name}-warning and --{name}-critical are 0 or more")
        if warning < critical if is_less_worse else warning > critical:
            parser.error(f"--{name}-warning comes after --{name}-critical")


class SocketConnection(http.client.HTTPConnection):
    """A connection to the socket of a path."""

    def __init__(self, path: str, timeout: float) -> None:
        super().__init__("localhost", timeout=timeout)
        self.path = path

    def connect(self) -> None:
        self.sock = socket.socket(socket.AF_UNIX)
        self.sock.settimeout(self.timeout)
        self.sock.connect(self.path)


def ask_socket(path: str, route: str) -> str:
    client = SocketConnection(path, 30)
    try:
        client.request("GET", route)
        reply = client.getresponse()
        text = reply.read().decode()
    except http.client.HTTPException as fault:
        raise ValueError(f"no reply: {type(fault).__name__}") from None
    finally:
        client.close()
    if reply.status != 200:
        raise ValueError(f"it answers {reply.status}, {text.strip()}")
    return text


def ask(given: argparse.Namespace, route: str) -> str:
    if given.desk.startswith("unix:"):
        return ask_socket(given.desk.removeprefix("unix:"), route)
    context = None
    if given.desk.startswith("https:"):
        context = ssl.create_default_context(cafile=given.ca)
        if given.cert:
            context.load_cert_chain(given.cert, given.key)
    with urllib.request.urlopen(f"{given.desk}{route}", timeout=30, context=context) as reply:
        return reply.read().decode()


def stamp(moment: float) -> str:
    return datetime.datetime.fromtimestamp(moment, datetime.timezone.utc).strftime("%Y%m%d%H%M%SZ")


def sections(report: str) -> dict[str, list[str]]:
    """The report's lines below each heading."""
    found: dict[str, list[str]] = {name: [] for name in HEADINGS}
    heading = None
    for line in report.splitlines()[1:]:
        if line in HEADINGS:
            heading = line
        elif heading:
            found[heading].append(line)
    return found


def of_desk(given: argparse.Namespace, now: float) -> tuple[dict[str, int], list[str]]:
    """The figures of what the desk answers, and its broad commands."""
    parked = ask(given, "/v1/parked").splitlines()
    text = ask(given, f"/v1/reviews/{stamp(now)}")
    # (a page of something before the desk is no report, and must not be taken for an empty one)
    lines = text.splitlines()
    if lines[:1] != [f"REVIEW {stamp(now)}"] or not set(HEADINGS) <= set(lines):
        raise ValueError("what comes is not a report")
    report = sections(text)
    figures = {
        "desk_up": 1,
        "desk_messages": int(ask(given, "/v1/count").split()[0]),
        "desk_grants": len(report["LIVE"]),
        "desk_grants_needless": sum(line.endswith(" needless") for line in report["LIVE"]),
        "desk_conflicts": len(report["CONFLICTS"]),
        "desk_broad": len(report["BROAD"]),
        "desk_parked": len(parked),
        "desk_parked_old": sum(json.loads(line)["at"] < stamp(now - DAY) for line in parked),
    }
    return figures, report["BROAD"]


def disputes(given: argparse.Namespace, now: float) -> list[str]:
    """The names under which several requests were asked, one of them within a day: a number was
    given twice, as after a restore."""
    names = json.loads(ask(given, f"/v1/requests/after/{stamp(now - DAY)}"))["names"]
    return [
        f"{it['by']} {it['no']}"
        for it in names
        if len(it["requests"]) > 1 and max(one["at"] for one in it["requests"]) > stamp(now - DAY)
    ]


def moment_of(text: str) -> float:
    return datetime.datetime.strptime(text, "%Y%m%d%H%M%S%z").timestamp()


def last_backup(folder: str) -> str:
    """The moment of the last whole backup in a folder."""
    names = [it for it in os.listdir(folder) if re.fullmatch("[0-9]{14}Z", it)]
    whole = [it for it in names if os.path.exists(os.path.join(folder, it, "manifest.json"))]
    if not whole:
        raise ValueError("it has no whole backup")
    return max(whole)


def memory_of(unit: str) -> tuple[int, int | None]:
    """How many bytes a unit may have, or else the machine; and how many it has, where that is
    known."""
    names = [f"--property={it}" for it in ("LoadState", "MemoryMax", "MemoryCurrent")]
    words = ["systemctl", "show", *names, "--", unit]
    ran = subprocess.run(words, capture_output=True, text=True, check=False)
    told = dict(line.partition("=")[::2] for line in ran.stdout.splitlines())
    if told.get("LoadState") != "loaded":
        raise ValueError(ran.stderr.strip() or "systemd has no such unit")
    machine = os.sysconf("SC_PHYS_PAGES") * os.sysconf("SC_PAGE_SIZE")
    limit, has = told.get("MemoryMax", ""), told.get("MemoryCurrent", "")
    most = min(machine, int(limit)) if limit.isdecimal() else machine
    return most, int(has) if has.isdecimal() else None


def shares(path: str, roster: dict) -> dict[str, int]:
    """How many percent of each limit of rosters one uses."""
    used = {"bytes": (os.path.getsize(path), ROSTER_BYTES)}
    used |= {name: (len(roster.get(name, ())), most) for name, most in ROSTER_MOST.items()}
    longest = max(map(len, roster.get("people", {}).values()), default=0)
    used["entries of one person"] = longest, PERSON_MOST
    return {name: 100 * count // most for name, (count, most) in used.items()}


def last_day(roster: dict, person: str, duty: str) -> str:
    """The last day on which somebody holds a duty; nothing where there is none."""
    days = [""]
    for entry in roster["people"].get(person, []):
        if entry == duty:
            return "99991231"
        if isinstance(entry, dict) and entry["duty"] == duty:
            days.append(entry["until"])
    return max(days)


def roster_of(path: str) -> dict:
    # (hosts, which need none of this, may have a Python before 3.11)
    import tomllib

    with open(path, "rb") as file:
        return tomllib.load(file)


def late_grants(given: argparse.Namespace, roster: dict, now: float) -> list[str]:
    """Each grant, now or to come, that begins after the last day on which its asker holds the duty
    that the ceiling asks for."""
    found = []
    for it in json.loads(ask(given, f"/v1/requests/after/{stamp(now)}"))["names"]:
        if it["status"] != "granted":
            continue
        ceiling, first = it["requests"][0]["ceiling"], it["window"]["from"]
        day = last_day(roster, it["by"], roster["ceilings"][ceiling]["ask"])
        if first[:8] > day:
            said = f"{it['by']}'s last day is {day or 'none'}"
            found.append(f"{it['by']} {it['no']} begins at {first}, and {said}")
    return found


def size(store: str) -> int:
    return sum(os.path.getsize(path) for path in (store, f"{store}-wal") if os.path.exists(path))


def free(path: str) -> int:
    """How many percent of a file's disk are free for those who are not root: of its bytes, or of
    its files, whichever is less."""
    disk = os.statvfs(path)
    shares = [(disk.f_bavail, disk.f_blocks), (disk.f_favail, disk.f_files)]
    return min(100 * left // whole for left, whole in shares if whole)


def date_of(kind: str, option: str, name: str, text: str) -> float:
    """A date that openssl tells of a certificate (`x509`) or a list of revoked ones (`crl`)."""
    words = ["openssl", kind, "-noout", option]
    ran = subprocess.run(words, input=text, capture_output=True, text=True, check=False)
    found = re.fullmatch(rf"{name}=(.*)\n", ran.stdout)
    if ran.returncode or not found:
        raise ValueError(f"openssl {kind} finds no {name} there")
    return ssl.cert_time_to_seconds(found[1])


def certificate_end(path: str, now: float) -> float:
    """When the first of a file's certificates ends."""
    with open(path, encoding="latin-1") as file:
        parts = re.split(r"^(?=-----BEGIN )", file.read(), flags=re.MULTILINE)
    certificates = [part for part in parts if re.match(r"-----BEGIN [A-Z ]*CERTIFICATE-", part)]
    if not certificates:
        raise ValueError("it has no certificate")
    if any(date_of("x509", "-startdate", "notBefore", it) > now + AHEAD for it in certificates):
        raise ValueError("it does not hold yet")
    return min(date_of("x509", "-enddate", "notAfter", it) for it in certificates)


def crl_end(path: str, now: float) -> float:
    with open(path, encoding="latin-1") as file:
        text = file.read()
    if date_of("crl", "-lastupdate", "lastUpdate", text) > now + AHEAD:
        raise ValueError("it does not hold yet")
    return date_of("crl", "-nextupdate", "nextUpdate", text)


def started(process: int) -> float:
    """When a process started."""
    with open(f"/proc/{process}/stat", encoding="latin-1") as file:
        ticks = int(file.read().rpartition(")")[2].split()[19])
    since_boot = ticks / os.sysconf("SC_CLK_TCK")
    return time.time() - time.clock_gettime(time.CLOCK_BOOTTIME) + since_boot


def front_started(path: str) -> float:
    """When the oldest process of a front started that serves. (A reload begins new ones; an old one
    that still has connections goes by what it read.)"""
    with open(path, encoding="ascii") as file:
        first = int(file.read().split()[0])
    with open(f"/proc/{first}/task/{first}/children", encoding="ascii") as file:
        workers = [int(word) for word in file.read().split()]
    return min(map(started, workers or [first]))


def opened(path: str) -> sqlite3.Connection:
    """An outbox, which nothing is written into."""
    os.stat(path)
    return sqlite3.connect(f"file:{urllib.parse.quote(path)}?mode=ro", uri=True, timeout=20)


def waiting(base: sqlite3.Connection, now: float) -> tuple[int, int]:
    """How many messages an outbox keeps that the desk has not answered, and the age of the oldest
    one."""
    bodies = [row[0] for row in base.execute("SELECT body FROM messages WHERE state = 'kept'")]
    texts = [json.loads(body)["at"] for body in bodies]
    moments = [datetime.datetime.strptime(text, "%Y%m%d%H%M%S%z") for text in texts]
    return len(bodies), max((int(now - it.timestamp()) for it in moments), default=0)


def notices(base: sqlite3.Connection, now: float) -> dict[str, int]:
    """What a relay has to tell, where it tells people of anything: `looked` is made by the first
    look."""
    tables = {row[0] for row in base.execute("SELECT name FROM sqlite_schema WHERE type = 'table'")}
    if not {"notices", "looked"} <= tables:
        return {}
    due = base.execute("SELECT count(*), min(began) FROM notices WHERE state = 'due'").fetchone()
    given_up = "SELECT count(*) FROM notices WHERE state = 'given up' AND began > ?"
    lost = base.execute(given_up, (now - 8 * DAY,)).fetchone()[0]
    looked = base.execute("SELECT at FROM looked").fetchone()[0]
    found = {"desk_notices_waiting": due[0], "desk_notices_given_up": lost}
    found["desk_notices_oldest_seconds"] = max(0, int(now - (due[1] or now)))
    return found | {"desk_notices_looked_seconds": max(0, int(now - looked))}


def asked_most(base: sqlite3.Connection, now: float) -> tuple[int, int, str]:
    """How many messages came within a day, and how many of them from whom who sent most."""
    since = stamp(now - DAY)
    rows = base.execute(
        "SELECT by, count(*) FROM messages WHERE body ->> '$.at' > ?"
        " AND id > (SELECT max(id) FROM messages) - ? GROUP BY by ORDER BY 2 DESC",
        (since, MOST_COUNTED),
    ).fetchall()
    return (sum(row[1] for row in rows), rows[0][1], rows[0][0]) if rows else (0, 0, "")


def lagging(path: str, now: float) -> list[tuple[str, int, int, str]]:
    """Each of several desks that lacks messages of an outbox: how many, for how many seconds one of
    them, and what it said last."""
    base = sqlite3.connect(f"file:{urllib.parse.quote(path)}?mode=ro", uri=True, timeout=20)
    try:
        # (a relay of before 0.20 posts to one desk)
        tables = {name for (name,) in base.execute("SELECT name FROM sqlite_master")}
        if "owed" not in tables or len(base.execute("SELECT 1 FROM desks").fetchall()) < 2:
            return []
        rows = base.execute(
            "SELECT desk, count(*), min(since), (SELECT answer FROM owed AS last WHERE"
            " last.desk = owed.desk AND answer <> '' ORDER BY tried DESC LIMIT 1)"
            " FROM owed GROUP BY desk ORDER BY desk"
        )
        return [(desk, count, int(now - since), said or "") for desk, count, since, said in rows]
    finally:
        base.close()


@dataclasses.dataclass
class Found:
    """The figures, and what is wrong."""

    given: argparse.Namespace
    now: float
    figures: dict[str, int] = dataclasses.field(default_factory=dict)
    critical: list[str] = dataclasses.field(default_factory=list)
    warning: list[str] = dataclasses.field(default_factory=list)
    remarks: list[str] = dataclasses.field(default_factory=list)

    def look(self, at: str, part: Callable[[str], None]) -> None:
        """Looks at a file; where it cannot be read, that is critical."""
        try:
            part(at)
        except FileNotFoundError as fault:
            self.critical.append(f"there is no {fault.filename or at}")
        except PermissionError:
            self.critical.append(f"cannot look at {at} (Permission denied): run as root or desk")
        except (OSError, ValueError, KeyError, TypeError, sqlite3.Error) as fault:
            self.critical.append(f"cannot look at {at}: {fault}")

    def limit(self, name: str, value: int, said: str) -> None:
        """Compares a value with a limit's two values."""
        is_less_worse = next(row[4] for row in LIMITS if row[0] == name)
        for level in ("critical", "warning"):
            most = getattr(self.given, f"{name}_{level}")
            if value < most if is_less_worse else value > most:
                getattr(self, level).append(said)
                break

    def least(self, name: str, value: float) -> None:
        """A figure of which the least counts; what is past is 0."""
        self.figures[name] = min(self.figures.get(name, sys.maxsize), max(0, int(value)))

    def desk(self) -> None:
        try:
            figures, broad = of_desk(self.given, self.now)
            self.figures |= figures
            disputed = disputes(self.given, self.now)
            self.figures["desk_disputed"] = len(disputed)
            if disputed:
                self.warning.append(f"asked twice under one number: {', '.join(disputed)}")
            if not self.given.broad_warning:
                self.remarks += [f"broad: {' '.join(line.split())}" for line in broad]
        except (OSError, ValueError, KeyError, TypeError) as fault:
            self.figures["desk_up"] = 0
            self.critical.append(f"{self.given.desk} does not answer: {fault}")
        for name, said in (
            ("desk_conflicts", "conflicting duties held by one person"),
            ("desk_grants_needless", "needless grants"),
            ("desk_broad", "broad commands in force"),
            ("desk_parked_old", "verdicts waiting for more than a day"),
        ):
            if name == "desk_broad" and not self.given.broad_warning:
                continue
            if self.figures.get(name):
                self.warning.append(f"{self.figures[name]} {said}")

    def unit(self, name: str) -> None:
        messages, (memory, has) = self.figures["desk_messages"], memory_of(name)
        self.figures["desk_memory_percent"] = share = 100 * A_MESSAGE * messages // memory
        self.figures["desk_memory_limit_bytes"] = memory
        self.figures |= {} if has is None else {"desk_memory_bytes": has}
        if share >= 50:
            said = f"{messages} messages may need {share} % of the memory of {name}"
            less = "cut its history with desk-cut (desk-change-roster --cut)"
            self.warning.append(f"{said}: restart it, {less}, or give the machine more")

    def roster(self, path: str) -> None:
        roster = roster_of(path)
        used = shares(path, roster)
        self.figures["desk_roster_percent"] = max(used.values())
        near = [f"{share} % of its {name}" for name, share in used.items() if share >= NEAR]
        if near:
            self.warning.append(f"the roster has {', '.join(near)}")
        late = late_grants(self.given, roster, self.now)
        self.remarks += late
        self.figures["desk_grants_after_last_day"] = len(late)

    def store(self, path: str) -> None:
        os.stat(path)
        self.figures["desk_store_bytes"] = size(path)
        self.figures["desk_store_free_percent"] = left = free(path)
        if size(path) > self.given.store_most:
            self.warning.append(f"the store has {size(path)} bytes")
        self.limit("free", left, f"{left} % of the store's disk are free")
        if os.path.exists(GIVEN_UP):
            self.critical.append(f"the disk of {path} is full: {ALONE}")

    def certificate(self, path: str) -> None:
        self.holds_until("desk_certificate_seconds", path, certificate_end(path, self.now))

    def crl(self, path: str) -> None:
        self.holds_until("desk_crl_seconds", path, crl_end(path, self.now))

    def holds_until(self, name: str, path: str, end: float) -> None:
        left = end - self.now
        self.least(name, left)
        said = f"{path} ends in {int(left // DAY)} days" if left > 0 else f"{path} has ended"
        self.limit("days", int(left // DAY), said)

    def front_pid(self, path: str) -> None:
        began = front_started(path)
        for file in (self.given.certificate or []) + (self.given.crl or []):
            if os.path.getmtime(file) > began:
                self.critical.append(f"{file} is newer than what the front has read: restart it")

    def program(self, path: str) -> None:
        words = [path, "--version"]
        said = subprocess.run(words, capture_output=True, text=True, check=False).stdout
        if not said.startswith("desk "):
            raise ValueError("it says no version of a desk")
        self.figures["desk_proved"] = int("NOT PROVED" not in said)
        if "NOT PROVED" in said:
            self.warning.append(f"{path} is NOT PROVED: it is for trials")

    def outbox(self, path: str) -> None:
        base = opened(path)
        try:
            self.outbox_of(path, base)
        finally:
            base.close()

    def outbox_of(self, path: str, base: sqlite3.Connection) -> None:
        left = free(path)
        self.limit("free", left, f"{left} % of the outbox's disk are free")
        if not os.path.exists(os.path.join(os.path.dirname(path), RESERVE)):
            self.critical.append(f"the disk of {path} is full: {ALONE}")
        count, age = waiting(base, self.now)
        self.figures |= {"desk_outbox_waiting": count, "desk_outbox_oldest_seconds": max(0, age)}
        self.figures["desk_outbox_free_percent"] = left
        if age < -AHEAD:
            raise ValueError("it has a message from the future: look at the clock")
        self.limit("waits", age, f"{count} messages wait in {path}, one for {age} seconds")
        for desk, count, age, said in lagging(path, self.now):
            why = f": {said}" if said else ""
            self.limit("waits", age, f"{desk} lacks {count} messages, one for {age} seconds{why}")
        every, most, person = asked_most(base, self.now)
        self.figures["desk_asked_most"] = most
        if most:
            self.remarks.append(f"within a day {person} sent {most} of {every} messages")
        self.figures |= (told := notices(base, self.now))
        if told:
            self.notices(told)

    def notices(self, told: dict[str, int]) -> None:
        """Whether anybody is told of what happens."""
        count, age = told["desk_notices_waiting"], told["desk_notices_oldest_seconds"]
        self.limit("waits", age, f"{count} events are not told to anybody, one for {age} seconds")
        age = told["desk_notices_looked_seconds"]
        said = f"nobody looked for {age} seconds at what is to be told: look at desk-relay-notify"
        self.limit("waits", age, said)
        if lost := told["desk_notices_given_up"]:
            self.warning.append(f"{lost} events could not be told for a day, and are given up")

    def backup(self, path: str) -> None:
        age = int(self.now - moment_of(last_backup(path)))
        self.figures["desk_backup_age_seconds"] = max(0, age)
        if age < -AHEAD:
            raise ValueError("it has a backup from the future: look at the clock")
        if age > self.given.backup_age:
            self.critical.append(f"the last backup in {path} is {age // 3600} hours old")
        drill = os.path.join(path, "drill.json")
        if not os.path.exists(drill):
            self.warning.append(f"no backup in {path} was ever tried: desk-restore --drill")
            return
        with open(drill, encoding="utf-8") as file:
            told = json.load(file)
        tried = int(self.now - moment_of(told["tried"]))
        self.figures["desk_drill_age_seconds"] = max(0, tried)
        if told["wrong"]:
            self.critical.append(f"the backup {told['at']} would not serve: {told['wrong'][0]}")
        elif tried > self.given.backup_age:
            self.warning.append(f"a backup in {path} was last tried {tried // 3600} hours ago")

    def file(self, path: str) -> None:
        age = int(self.now - os.path.getmtime(path))
        if age < -AHEAD:
            raise ValueError("it is from the future: look at the clock")
        self.figures["desk_host_file_age_seconds"] = max(0, age)
        if age > self.given.file_age:
            self.critical.append(
                f"{path} was fetched {age} seconds ago: look at desk-fetch on this host"
            )


def gather(given: argparse.Namespace, now: float) -> Found:
    found = Found(given, now)
    if given.desk:
        found.desk()
    for part in ("unit", "roster"):
        if getattr(given, part) and found.figures["desk_up"]:
            found.look(getattr(given, part), getattr(found, part))
    for part in ("store", "certificate", "crl", "front_pid", "outbox", "file", "program"):
        named = getattr(given, part) or []
        for path in [named] if isinstance(named, str) else named:
            found.look(path, getattr(found, part))
    if given.backup:
        found.look(given.backup, found.backup)
    return found


def verdict(found: Found) -> tuple[int, str]:
    """The status, and the line that says why."""
    if found.critical:
        return 2, "DESK CRITICAL - " + "; ".join(found.critical + found.warning)
    if found.warning:
        return 1, "DESK WARNING - " + "; ".join(found.warning)
    return 0, "DESK OK"


def write_textfile(path: str, figures: dict[str, int]) -> None:
    lines = []
    for name, value in figures.items():
        lines += [f"# HELP {name} {FIGURES[name]}", f"# TYPE {name} gauge", f"{name} {value}"]
    with tempfile.NamedTemporaryFile("w", dir=os.path.dirname(path) or ".", delete=False) as file:
        file.write("\n".join(lines) + "\n")
        os.fchmod(file.fileno(), 0o644)
    os.replace(file.name, path)


def main() -> int:
    given = words()
    found = gather(given, time.time())
    if given.textfile:
        try:
            write_textfile(given.textfile, found.figures)
        except OSError as fault:
            found.critical.append(f"cannot write {given.textfile}: {fault.strerror}")
    status, line = verdict(found)
    # (one line, and behind the first bar the figures)
    line = " ".join(line.split()).replace("|", "/")
    print(line + " |" + "".join(f" {name}={value}" for name, value in found.figures.items()))
    # (Nagios's long output: it changes no status)
    print("".join(f"{remark}\n" for remark in found.remarks), end="")
    return status


if __name__ == "__main__":
    try:
        sys.exit(main())
    except Exception as fault:  # whatever it is, nobody may take it for a warning
        print(f"DESK UNKNOWN - {type(fault).__name__}: {fault}")
        sys.exit(3)
