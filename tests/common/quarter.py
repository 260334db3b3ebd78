"""A site of three months, as an auditor finds it: 30 hosts, 42 people, five rosters, two bases, the
messages of some 620 requests, what sudo logged on the hosts, and why people asked. What an audit
has to find is planted, and `Planted` says where.

    python3 -m tests.common.quarter FOLDER DESK

The same seed gives the same bytes.
"""

import json
import os
import random
import sys
from collections.abc import Iterator
from dataclasses import dataclass, field
from typing import Any

from tests.common.histories import Moment, write_history
from tests.common.quarter_reading import History, Message, seconds, stamp

FROM, UNTIL = "20260701000000Z", "20260930235959Z"
MOMENTS = (
    "20260601060000Z",
    "20260715060000Z",
    "20260805060000Z",
    "20260901060000Z",
    "20260920060000Z",
)
SECOND_BASE = "20260815060000Z"
# what was said of a change
SAID = {MOMENTS[3]: "by root\nwhy hal.p has left\nticket OPS-31\napproved-by fay.o\n"}
REQUESTS = 600
DAYS = 92
DB = [f"db{it}" for it in range(1, 6)]
WEB = [f"web{it}" for it in range(1, 9)]
APP = [f"app{it}" for it in range(1, 9)]
CACHE = [f"cache{it}" for it in range(1, 5)]
LEGACY, KEYS = ["legacy1", "legacy2"], ["k1", "k2"]
# the log of this one is lost
UNLOGGED = "k2"
DBA = "ann.k bob.s carl.m emil.h hal.p ida.w jon.b mia.berg rolf.c".split()
DBA_APPROVERS = "bob.s carl.m fay.o gus.k hal.p jack.y kira.g".split()
WEBBERS = "wim.d xia.l abe.n bea.t cyd.r dan.u eli.f".split()
WEB_APPROVERS = "wim.d xia.l zed.q tom.e".split()
APPS = "dora.v fritz.a gil.o hana.s ivo.p kay.z lars.b".split()
APP_APPROVERS = "dora.v fritz.a max.w nora.c".split()
ON_CALL = "ann.k jon.b kay.z".split()
# nobody of these ever asks or approves
DORMANT = "leo.x vic.t".split()
OTHERS = "pia.l quin.t sue.n uma.j yan.f nils.r olga.dba".split()
DUTIES = """approve-app approve-db approve-web audit open-envelope operate-app operate-db
 operate-web take-call""".split()
COMMANDS = {
    "db-prod": [
        "/usr/bin/id",
        "/usr/bin/journalctl -u postgresql",
        "/usr/bin/systemctl restart postgresql",
    ],
    "web-all": ["ALL"],
    "app-care": ["/usr/bin/systemctl restart app", "/usr/local/sbin/"],
    "app-legacy": ["ALL"],
    "cache-care": ["/usr/bin/systemctl restart redis"],
    "break-glass": ["ALL"],
}
# what is run by a grant of these
RUN = {
    "ALL": ["/usr/bin/systemctl restart nginx", "/usr/bin/systemctl status nginx"],
    "/usr/local/sbin/": ["/usr/local/sbin/deploy-app --now"],
}
FIRST_BASE = """\
# Until the middle of August the owner of the databases could do everything on them.
Host_Alias DATABASES = db1, db2, db3, db4, db5
olga.dba DATABASES = (ALL) ALL
ann.k DATABASES = NOPASSWD: /usr/bin/systemctl status postgresql
uma.j app1, app2 = (root) ALL
"""
LATER_BASE = """\
Host_Alias DATABASES = db1, db2, db3, db4, db5
olga.dba DATABASES = (root) /usr/bin/journalctl, (postgres) NOPASSWD: ALL
ann.k DATABASES = NOPASSWD: /usr/bin/systemctl status postgresql
uma.j app1, app2 = (root) ALL
deploy web1, web2 = (root) /usr/bin/systemctl reload nginx
zed.q web1 = (root) ALL, !/usr/bin/su
"""


@dataclass
class Planted:
    """What an audit has to find: names, each as `ann.k 7`."""

    own: list[str] = field(default_factory=list)
    conflict: list[str] = field(default_factory=list)
    leaver: list[str] = field(default_factory=list)
    disputed: list[str] = field(default_factory=list)
    quick: list[str] = field(default_factory=list)
    renamed: str = ""
    backdated: str = ""
    struck_out: str = ""
    # asked and refused by the desk, so that no message has its number
    attempt: str = ""
    refused: int = 0
    revoked: int = 0
    late: list[Message] = field(default_factory=list)
    # runs by no right, as host, who and command
    neither: list[tuple[str, str, str]] = field(default_factory=list)
    # a message's moment of arrival, where that is not its own
    came: dict[str, str] = field(default_factory=dict)


@dataclass
class Quarter:
    rosters: dict[str, str]
    bases: dict[str, str]
    lines: list[str]
    planted: Planted
    logs: dict[str, list[str]] = field(default_factory=dict)
    reasons: list[str] = field(default_factory=list)


def line_of(message: Message) -> str:
    return json.dumps(message, sort_keys=True, separators=(",", ":"))


# ---- the rosters


def people(number: int) -> dict[str, list[Any]]:
    """Who holds which duties, by the number of the roster."""
    found: dict[str, list[Any]] = {}
    for duty, held in (
        ("operate-db", DBA),
        ("approve-db", DBA_APPROVERS),
        ("operate-web", WEBBERS),
        ("approve-web", WEB_APPROVERS),
        ("operate-app", [*APPS, *DORMANT]),
        ("approve-app", APP_APPROVERS),
        ("take-call", ON_CALL),
        ("open-envelope", ["glass"]),
        ("audit", ["eve.r"]),
    ):
        for person in held:
            found.setdefault(person, []).append(duty)
    for person in OTHERS:
        found.setdefault(person, [])
    # (she audits and approves, so her approvals never count)
    found["eve.r"].append("approve-db")
    if number >= 1:
        found["new.joe"] = ["operate-db", "operate-web"]
    if number >= 2:
        found["mia.berg"] = [{"duty": "operate-db", "from": "20260101", "until": "20260804"}]
        found["mia.holm"] = ["operate-db", "approve-db"]
        found["gus.k"] = [{"duty": "approve-db", "from": "20260101", "until": "20260731"}]
    if number >= 3:
        del found["hal.p"]
    if number >= 4:
        found["dora.v"] = ["operate-app"]
    return found


def ceilings(number: int) -> dict[str, Message]:
    hosts = {
        "db-prod": [*DB, "db6"] if number >= 1 else DB,
        "web-all": [it for it in WEB if number < 4 or it not in ("web3", "web4")],
        "app-care": APP,
        "app-legacy": LEGACY,
        "cache-care": CACHE,
        "break-glass": [*DB, *WEB, *APP, *KEYS],
    }
    kinds = {"db-prod": "db", "web-all": "web", "cache-care": "web"}
    found = {}
    for label, named in hosts.items():
        kind = kinds.get(label, "app")
        found[label] = {
            "ask": f"operate-{kind}",
            "approve": f"approve-{kind}",
            "needs": 2 if label == "db-prod" and number < 3 else 1,
            "hosts": named,
            "runas": ["postgres", "root"] if label == "db-prod" else ["root"],
            "commands": COMMANDS[label],
            "longest": 14400,
        }
    found["break-glass"] |= {"ask": "take-call", "approve": "open-envelope", "longest": 3600}
    if number >= 3:
        found["db-prod"]["commands"] = [*COMMANDS["db-prod"], "/usr/bin/vi"]
    if number >= 4:
        del found["app-legacy"]
    return found


def toml(value: Any) -> str:
    if isinstance(value, dict):
        return "{" + ", ".join(f"{key} = {toml(it)}" for key, it in value.items()) + "}"
    if isinstance(value, list):
        return "[" + ", ".join(map(toml, value)) + "]"
    return json.dumps(value)


def roster(number: int) -> str:
    hosts = sorted([*DB, *WEB, *APP, *CACHE, *LEGACY, *KEYS, *(["db6"] if number >= 1 else [])])
    conflicts = [[f"approve-{kind}", "audit"] for kind in ("app", "db", "web")]
    lines = ['relays = ["chat"]', f"hosts = {toml(hosts)}", f"duties = {toml(DUTIES)}"]
    lines += [f"conflicts = {toml(conflicts)}", "[people]"]
    lines += [f"{json.dumps(it)} = {toml(held)}" for it, held in sorted(people(number).items())]
    for label, ceiling in sorted(ceilings(number).items()):
        lines.append(f"[ceilings.{label}]")
        lines += [f"{key} = {toml(value)}" for key, value in ceiling.items()]
    return "".join(f"{line}\n" for line in lines)


# ---- the messages


class Maker:
    """Makes the messages, in order of their requests."""

    def __init__(self, seed: int) -> None:
        self.random = random.Random(seed)
        self.rosters = {at: roster(number) for number, at in enumerate(MOMENTS)}
        self.history = History(self.rosters, [])
        self.numbers: dict[str, int] = {}
        self.messages: list[Message] = []
        self.planted = Planted()
        self.reasons: list[str] = []

    def say(self, **message: Any) -> Message:
        self.messages.append(message)
        return message

    def ask(self, at: str, by: str, label: str, **more: Any) -> Message:
        """A request under a ceiling: its hosts and commands are drawn, where none are named."""
        draw = self.random
        ceiling = self.history.readings[self.history.served(at)].ceilings[label]
        self.numbers[by] = more.pop("no", self.numbers.get(by, 0) + 1)
        begins = stamp(seconds(at) + draw.choice((600, 1800, 3600)))
        lasts = min(draw.choice((3600, 7200, 14400)), ceiling["longest"])
        some = ceiling["commands"]
        asked = {
            "at": at,
            "by": by,
            "ceiling": label,
            "cmnds": sorted(draw.sample(some, min(len(some), draw.choice((1, 2))))),
            "from": begins,
            "hosts": sorted(draw.sample(ceiling["hosts"], draw.choice((1, 1, 2)))),
            "kind": "request",
            "no": self.numbers[by],
            "runas": "root",
            "until": stamp(seconds(begins) + lasts),
        }
        if draw.random() < 0.9:
            self.reason(asked, "acked", None)
        return self.say(**asked | more)

    def reason(self, asked: Message, state: str, answer: str | None) -> None:
        """Why somebody asked, as `desk-relay reasons` prints it."""
        name = {"who": asked["by"], "no": asked["no"], "at": asked["at"]}
        why = {"why": "planned work", "ticket": f"OPS-{asked['at'][4:12]}"}
        self.reasons.append(json.dumps({**name, **why, "state": state, "answer": answer}))

    def verdict(self, kind: str, asked: Message, by: str, after: int) -> Message:
        at = stamp(seconds(asked["at"]) + after)
        return self.say(at=at, by=by, kind=kind, no=asked["no"], of=asked["by"])

    def approvers(self, asked: Message, later: int = 0) -> list[str]:
        """Who may approve a request, so long after it was asked."""
        at = stamp(seconds(asked["at"]) + later)
        reading = self.history.readings[self.history.served(at)]
        ceiling = reading.ceilings[asked["ceiling"]]
        found = [it for it in reading.people if it not in ("eve.r", asked["by"])]
        return sorted(it for it in found if reading.holds(it, ceiling["approve"], at))

    def needs(self, asked: Message) -> int:
        found = self.history.readings[self.history.served(asked["at"])].ceilings
        return int(found[asked["ceiling"]]["needs"])

    # ---- an ordinary day

    def moment(self, day: int, hour: int | None = None) -> str:
        draw = self.random
        hour = draw.randrange(7, 18) if hour is None else hour
        at = seconds(FROM) + day * 86_400 + hour * 3600 + draw.randrange(3600)
        return stamp(at)

    def ordinary(self, count: int) -> None:
        for it in range(count):
            at = self.moment(it * DAYS // count)
            reading = self.history.readings[self.history.served(at)]
            labels = [it for it in sorted(reading.ceilings) if it != "break-glass"]
            label = self.random.choice(labels)
            ask = reading.ceilings[label]["ask"]
            askers = [it for it in reading.people if reading.holds(it, ask, at)]
            askers = sorted({*askers} - {*DORMANT})
            if "wim.d" in askers and self.random.random() < 0.4:
                askers = ["wim.d", "xia.l"]
            self.answered(self.ask(at, self.random.choice(askers), label))

    def answered(self, asked: Message) -> None:
        """What becomes of an ordinary request."""
        chance = self.random.random()
        if chance < 0.06:
            return
        if chance < 0.10:
            self.verdict("refuse", asked, self.random.choice(self.approvers(asked, 900)), 900)
            self.planted.refused += 1
            return
        after = self.approve(asked)
        if chance > 0.93:
            by = self.random.choice([asked["by"], *self.approvers(asked, 5400)])
            said = self.verdict("revoke", asked, by, max(after, 1800) + 4500)
            self.planted.revoked += 1
            if self.random.random() < 0.3:
                self.planted.came[line_of(said)] = stamp(seconds(said["at"]) + 5400)

    def approve(self, asked: Message) -> int:
        """As many approvals as are needed; the answer is when the last one was given."""
        after = 0
        pair = {"wim.d": "xia.l", "xia.l": "wim.d"}.get(asked["by"])
        for _ in range(self.needs(asked)):
            after += self.random.randrange(60, 1800)
            said = {it["by"] for it in self.messages[-2:] if it.get("of") == asked["by"]}
            may = [it for it in self.approvers(asked, after) if it not in said]
            by = pair if pair in may and self.random.random() < 0.8 else self.random.choice(may)
            if by == "bob.s" and self.random.random() < 0.5:
                after = min(after, self.random.randrange(5, 25))
                self.planted.quick.append(f"{asked['by']} {asked['no']}")
            self.verdict("approve", asked, by, after)
        return after

    # ---- what is planted

    def plant(self) -> None:
        self.own()
        self.conflicting()
        self.leavers()
        self.disputes()
        self.glass()
        self.rename()
        self.strike_out()
        self.backdate()

    def own(self) -> None:
        """Somebody approves their own request; another approval comes, or none."""
        for it in range(14):
            by = ("bob.s", "carl.m", "wim.d", "fritz.a")[it % 4]
            label = {"wim.d": "web-all", "fritz.a": "app-care"}.get(by, "db-prod")
            asked = self.ask(self.moment(3 + it * 6, 6), by, label)
            self.verdict("approve", asked, by, 300)
            self.planted.own.append(f"{by} {asked['no']}")
            if it % 2:
                self.approve(asked)

    def conflicting(self) -> None:
        for it in range(5):
            asked = self.ask(self.moment(1 + it * 7, 5), "jon.b", "db-prod")
            self.verdict("approve", asked, "eve.r", 500)
            self.planted.conflict.append(f"jon.b {asked['no']}")

    def leavers(self) -> None:
        """The roster of 5 August says that gus.k's duty ended in July: what he approves on the
        third counts until then, and what he approves later never."""
        for day, others in ((33, 1), (42, 1), (55, 0)):
            asked = self.ask(self.moment(day, 5), "ida.w", "db-prod")
            self.verdict("approve", asked, "gus.k", 600)
            for by in ("carl.m", "fay.o")[:others]:
                self.verdict("approve", asked, by, 700)
            self.planted.leaver.append(f"ida.w {asked['no']}")

    def disputes(self) -> None:
        for day in (20, 60):
            asked = self.ask(self.moment(day, 6), "cyd.r", "web-all")
            self.say(**asked | {"cmnds": ["/usr/bin/id"], "at": stamp(seconds(asked["at"]) + 60)})
            self.verdict("approve", asked, "zed.q", 900)
            self.planted.disputed.append(f"cyd.r {asked['no']}")

    def glass(self) -> None:
        asked = self.ask(self.moment(48, 2), "kay.z", "break-glass", hosts=["k1"])
        self.verdict("approve", asked, "glass", 20)
        # (he is not on call, so the desk refuses him, and his number is missing)
        self.ask(self.moment(72, 5), "rolf.c", "db-prod")
        self.numbers["rolf.c"] += 1
        refused = {"by": "rolf.c", "no": self.numbers["rolf.c"], "at": self.moment(73, 3)}
        self.reason(refused, "refused", "A3 NotAsker")
        self.planted.attempt = f"rolf.c {refused['no']}"
        self.ask(self.moment(74, 5), "rolf.c", "db-prod")

    def rename(self) -> None:
        """mia.berg asks on her last day, and as mia.holm approves on the next."""
        at = "20260804230000Z"
        more = {"from": "20260805060000Z", "until": "20260805090000Z", "hosts": ["db1"]}
        asked = self.ask(at, "mia.berg", "db-prod", **more)
        self.verdict("approve", asked, "carl.m", 1200)
        self.verdict("approve", asked, "mia.holm", 28_800)
        self.planted.renamed = f"mia.berg {asked['no']}"

    def strike_out(self) -> None:
        """hal.p revokes a grant an hour before the roster strikes him out."""
        more = {"from": "20260901050000Z", "until": "20260901090000Z", "hosts": ["db2"]}
        asked = self.ask("20260901040000Z", "carl.m", "db-prod", **more)
        for by, after in (("fay.o", 300), ("kira.g", 400)):
            self.verdict("approve", asked, by, after)
        self.verdict("revoke", asked, "hal.p", 4800)
        self.planted.revoked += 1
        self.planted.struck_out = f"carl.m {asked['no']}"

    def backdate(self) -> None:
        """The second approval comes when the work is done, with a moment before it."""
        more = {"from": "20260910080000Z", "until": "20260910120000Z", "hosts": ["db3"]}
        more["cmnds"] = ["/usr/bin/vi"]
        asked = self.ask("20260910073000Z", "emil.h", "db-prod", **more)
        said = self.verdict("approve", asked, "bob.s", 1920)
        self.planted.came[line_of(said)] = "20260910150000Z"
        self.planted.backdated = f"emil.h {asked['no']}"


# ---- the logs


def entry(at: str, host: str, who: str, command: str) -> str:
    day, hour = f"{at[:4]}-{at[4:6]}-{at[6:8]}", f"{at[8:10]}:{at[10:12]}:{at[12:14]}"
    said = f"TTY=pts/0 ; PWD=/ ; USER=root ; COMMAND={command}"
    return f"{day}T{hour}+00:00 {host} sudo:    {who} : {said}"


NEITHER = (
    ("20260711230501Z", "db3", "fay.o", "/usr/bin/bash"),
    ("20260805120000Z", "web2", "zed.q", "/usr/bin/cat /etc/shadow"),
    ("20260822050000Z", "db3", "gus.k", "/usr/bin/vi /etc/shadow"),
    ("20260912034500Z", "k1", "rolf.c", "/usr/bin/bash"),
    ("20260917170000Z", "app5", "mia.berg", "/usr/bin/id"),
)
BY_BASE = (
    ("20260703101500Z", "db3", "olga.dba", "/usr/bin/bash"),
    ("20260712101500Z", "db3", "olga.dba", "/usr/bin/bash"),
    ("20260721101500Z", "db3", "olga.dba", "/usr/bin/bash"),
    ("20260820101500Z", "web1", "deploy", "/usr/bin/systemctl reload nginx"),
    ("20260918101500Z", "web2", "deploy", "/usr/bin/systemctl reload nginx"),
)


def runs(found: Quarter, draw: random.Random) -> Iterator[tuple[str, str, str, str]]:
    """What ran: when, where, who and what."""
    hosts = [*DB, "db6", *WEB, *APP, *CACHE, *LEGACY, *KEYS]
    for host in hosts:
        for day in range(DAYS + 1):
            yield stamp(seconds(FROM) + day * 86_400 + 3600), host, "root", "/usr/bin/run-parts"
    history = History(found.rosters, found.lines)
    for by, no, host, first, last in history.pieces(FROM, UNTIL):
        name = f"{by} {no}"
        is_short = seconds(last) - seconds(first) < 600
        if name in (found.planted.backdated, found.planted.struck_out) or is_short:
            continue
        if draw.random() < 0.4:
            for command in history.requests[by, no][0]["cmnds"][:1]:
                at = stamp(seconds(first) + draw.randrange(60, 600))
                yield at, host, by, draw.choice(RUN.get(command, [command]))
    yield "20260910083000Z", "db3", "emil.h", "/usr/bin/vi /etc/passwd"
    yield from NEITHER
    yield from BY_BASE


def quarter(seed: int = 1, count: int = REQUESTS) -> Quarter:
    """The site of a seed, with so many ordinary requests beside those that are planted."""
    maker = Maker(seed)
    maker.ordinary(count)
    maker.plant()
    lines = sorted({line_of(it) for it in maker.messages})
    bases = {MOMENTS[0]: FIRST_BASE, SECOND_BASE: LATER_BASE}
    found = Quarter(maker.rosters, bases, lines, maker.planted, reasons=sorted(maker.reasons))
    found.planted.neither = [(host, who, command) for _, host, who, command in NEITHER]
    for at, host, who, command in sorted(runs(found, random.Random(seed))):
        if host != UNLOGGED:
            found.logs.setdefault(host, []).append(entry(at, host, who, command))
    return found


def served(found: Quarter) -> dict[str, Moment]:
    """What the desk was served with, since when."""

    def last(texts: dict[str, str], at: str) -> str:
        return texts[max(it for it in texts if it <= at)]

    moments = sorted({*found.rosters, *found.bases})
    return {
        at: Moment(last(found.rosters, at), last(found.bases, at), SAID.get(at, ""))
        for at in moments
    }


def write(found: Quarter, folder: str, desk: str) -> None:
    """Puts the site into a folder, as an auditor is handed it."""
    write_history(os.path.join(folder, "history"), desk, served(found))
    texts = {"messages": found.lines, "reasons": found.reasons}
    texts |= {f"logs/{host}": lines for host, lines in found.logs.items()}
    for name, lines in texts.items():
        path = os.path.join(folder, name)
        os.makedirs(os.path.dirname(path), exist_ok=True)
        with open(path, "w", encoding="utf-8") as file:
            file.write("".join(f"{line}\n" for line in lines))


if __name__ == "__main__":
    write(quarter(), *sys.argv[1:])
