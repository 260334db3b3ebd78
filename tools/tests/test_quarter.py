"""An audit of a site of three months with five rosters and two bases (tests/common/quarter.py):
each answer of the evidence beside a second reading of the texts, and beside what was planted."""

from __future__ import annotations

import csv
import hashlib
import json
import os
import re
import subprocess
import tomllib
from collections import Counter
from collections.abc import Iterator
from html.parser import HTMLParser
from pathlib import Path
from typing import Any, NamedTuple

from conftest import ROOT

from desk_tools.gaps import gaps, numbers_of

from tests.common.quarter import (
    FROM,
    MOMENTS,
    REQUESTS,
    SECOND_BASE,
    UNLOGGED,
    UNTIL,
    Quarter,
    quarter,
    write,
)
from tests.common.quarter_reading import History, seconds, stamp, without_cuts

PROGRAM = os.path.join(ROOT, "tools", "desk-evidence")
SEED, COUNT = "third quarter", 25
# (WHOLE: the whole site, 600 ordinary requests)
ORDINARY = REQUESTS if os.environ.get("WHOLE") else 120


class Audit(NamedTuple):
    """A site, the folder that was made of it, and a second reading of the site's texts."""

    site: Quarter
    folder: str
    history: History
    desk: str

    def read(self, name: str) -> str:
        with open(os.path.join(self.folder, name), encoding="utf-8") as file:
            return file.read()

    @property
    def told(self) -> dict[str, Any]:
        found: dict[str, Any] = json.loads(self.read("summary.json"))
        return found

    def rows(self, name: str) -> list[dict[str, str]]:
        return list(csv.DictReader(self.read(name).splitlines()))


def made(desk: str, folder: Path) -> Audit:
    site = quarter(count=ORDINARY)
    write(site, str(folder), desk)
    words = [PROGRAM, str(folder / "evidence"), FROM, UNTIL, "--desk", desk]
    for name in ("messages", "history", "reasons"):
        words += [f"--{name}", str(folder / name)]
    words += ["--log", str(folder / "logs"), "--sample", str(COUNT), "--seed", SEED]
    ran = subprocess.run(words, capture_output=True, text=True, check=False)
    assert ran.returncode == 0, ran
    return Audit(site, str(folder / "evidence"), History(site.rosters, site.lines), desk)


def test_a_quarter(desk: str, tmp_path: Path) -> None:
    it = made(desk, tmp_path)
    for check in CHECKS:
        check(it)


# ---- who had what, when


def pieces(it: Audit) -> None:
    """Each grant on each host, by the roster of each moment: as the second reading has it."""
    rows = it.rows("grants.csv")
    told = [(row["who"], int(row["no"]), row["host"], row["from"], row["until"]) for row in rows]
    assert without_cuts(told) == without_cuts(it.history.pieces(FROM, UNTIL))
    for row in rows:
        day, hour = row["from_time"].split(" ")
        assert f"{day}{hour}Z".replace("-", "").replace(":", "") == row["from"]
    name = it.site.planted.struck_out.split(" ")
    ends = [row["ended"] for row in rows if [row["who"], row["no"]] == name]
    # (hal.p's revocation held for forty minutes, until the roster struck him out)
    assert ends == ["revoked", "until"], ends
    cut = [row for row in rows if row["ended"].startswith("by the roster of ")]
    assert all(row["ended"].rpartition(" ")[2] in MOMENTS for row in cut)


def became(it: Audit) -> None:
    statuses = it.history.statuses(FROM, UNTIL)
    told = {row["status"]: row["requests"] for row in it.told["became"]}
    assert told == Counter(statuses.values()) and it.told["requests"] == len(statuses)


def second_reading(it: Audit) -> None:
    assert it.told["second_reading"] == {"differs_by": []}
    folders = sorted({*MOMENTS, SECOND_BASE})
    for name in folders:
        said = it.read(f"{name}/comparison").splitlines()
        assert said[0] == "the statuses are the same", name
        # (a number is missing, so nothing is said of all)
        assert said[1].startswith("all messages of this time that are here are told"), said
        assert said[1].endswith(", and NUMBERS ARE MISSING (gaps)"), said
        head = json.loads(it.read(f"{name}/made.json"))
        text = it.read(f"{name}/roster.toml").encode()
        assert head["read"][0] == {"what": "roster", "sha256": hashlib.sha256(text).hexdigest()}
        assert head["refused"] == len(it.read(f"{name}/refused").splitlines())


def reports(it: Audit) -> None:
    """A report at a moment says nothing of what was said later."""
    for name in sorted({*MOMENTS, SECOND_BASE}):
        for end in ("from", "until"):
            first, *lines = it.read(f"{name}/{end}.report").splitlines()
            parked = lines[lines.index("PARKED") + 1 :]
            at = first.removeprefix("REVIEW ")
            assert all(word <= at for line in parked for word in line.split() if is_moment(word))


def every_name(it: Audit) -> None:
    """Each name's status and window, by the roster of each moment: of all that the time touches, or
    the day before or after it."""
    moments = sorted({*MOMENTS, SECOND_BASE})
    day = 86_400
    for name, after in zip(moments, [*moments[1:], stamp(seconds(UNTIL) + 1)], strict=True):
        first = stamp(seconds(max(name, FROM)) - day)
        last = stamp(seconds(after) - 1 + day)
        lines = [line.split(" ", 2) for line in it.read(f"{name}/statuses").splitlines()]
        told = {(by, int(no)): status for by, no, status in lines}
        wanted = it.history.lines(name)
        assert told == {key: wanted[key] for key in wanted if it.history.touches(key, first, last)}


def is_moment(word: str) -> bool:
    return len(word) == 15 and word[:14].isdigit() and word.endswith("Z")


# ---- who approved it


def approvals(it: Audit) -> None:
    keys = ("by", "no", "approver", "at", "why")
    told = sorted(tuple(row[key] for key in keys) for row in it.told["not_accepted"])
    assert told == it.history.unaccepted(FROM, UNTIL)
    names = {(f"{row['by']} {row['no']}", row["why"]) for row in it.told["not_accepted"]}
    planted = it.site.planted
    assert {(name, "asker") for name in planted.own} <= names
    assert {(name, "conflict") for name in planted.conflict} <= names
    # (the first of the three was approved before a roster said that the approver had left)
    late = [(name, "duty") in names for name in planted.leaver]
    assert late == [False, True, True], late


def careful(it: Audit) -> None:
    counted = it.history.counted(FROM, UNTIL)
    quick = Counter(by for _, by, after in counted if after <= 30)
    every = Counter(by for _, by, _ in counted)
    rows = it.told["quick"]["approvers"]
    told = {row["approver"]: (row["approvals"], row["quick"]) for row in rows}
    assert told == {by: (every[by], count) for by, count in quick.items()}
    assert told["bob.s"][1] >= len(it.site.planted.quick)
    pairs = Counter((one, other) for one, other, _ in counted)
    for row in it.told["pairs"]:
        assert row["approvals"] == pairs[row["asker"], row["approver"]]
        assert row["other_way"] == pairs[row["approver"], row["asker"]]
    top = {(row["asker"], row["approver"]) for row in it.told["pairs"][:2]}
    assert top == {("wim.d", "xia.l"), ("xia.l", "wim.d")}, top


# ---- what ran, and by what


def ran(it: Audit) -> None:
    """Whoever ran what the base of the day allowed is not accused."""
    told = [(row["host"], row["by"], row["command"]) for row in it.told["without_grant"]]
    assert sorted(told) == sorted(it.site.planted.neither)
    use = {row["by"]: row for row in it.told["use"]}
    pieces = it.history.pieces(FROM, UNTIL)
    for person, row in use.items():
        hosts = {(no, host) for by, no, host, _, _ in pieces if by == person}
        assert row["used"] + row["unused"] + row["no_log"] == len(hosts), row
        lost = {(no, host) for no, host in hosts if host == UNLOGGED}
        assert row["no_log"] == len(lost), row
    name = it.site.planted.backdated.split(" ")
    used = [row["used"] for row in it.rows("grants.csv") if [row["who"], row["no"]] == name]
    assert used == ["used"], used


LOGGED = re.compile(r"(\S+)\+00:00 (\S+) sudo: +(\S+) : .*COMMAND=(.*)")


def wider(it: Audit) -> None:
    """Each ceiling's proposal has what was run by its grants, by the last roster, and no more."""
    roster, base = (f"{it.folder}/{MOMENTS[-1]}/{each}" for each in ("roster.toml", "base.sudo"))
    with open(f"{it.folder}/messages", "rb") as file:
        words = [f"{it.desk}-audit", roster, base, "-", "--json"]
        audit = subprocess.run(words, stdin=file, capture_output=True, check=False)
    words = [os.path.join(ROOT, "tools", "desk-used"), "--json", "--desk", it.desk]
    words += ["--roster", roster, "-", base, f"{it.folder}/../logs"]
    ran = subprocess.run(words, input=audit.stdout, capture_output=True, check=False)
    told = json.loads(ran.stdout)["ceilings"]
    lines = [line for each in it.site.logs.values() for line in each]
    logged = [found for line in lines if (found := LOGGED.fullmatch(line))]
    runs = [(f"{re.sub('[-:T]', '', on[1])}Z", on[2], on[3], on[4]) for on in logged]
    assert len(runs) == len(lines)
    wanted = it.history.used(MOMENTS[-1], runs)
    ceilings = it.history.readings[MOMENTS[-1]].ceilings
    for row in told:
        label = row["ceiling"]
        proposed = tomllib.loads(row["proposal"]).get("ceilings", {label: ceilings[label]})[label]
        is_used = not row["proposal"].startswith("# No grant")
        assert (set(proposed["commands"]) if is_used else set()) == wanted.get(label, set()), row
    assert {"web-all", "break-glass"} <= {row["ceiling"] for row in told}, told


# ---- what changed


def changes(it: Audit) -> None:
    told = {row["at"]: row for row in it.told["changes"]}
    assert sorted(told) == sorted({*MOMENTS[1:], SECOND_BASE})
    for at, words in (
        (MOMENTS[1], ("new.joe joins: operate-db, operate-web", "the host db6 is new")),
        (MOMENTS[2], ("mia.holm joins: approve-db, operate-db",)),
        (MOMENTS[3], ("db-prod: needs from 2 to 1", "db-prod: commands now /usr/bin/vi")),
        (MOMENTS[3], ("hal.p is struck out, and had: approve-db, operate-db",)),
        (MOMENTS[4], ("the ceiling app-legacy is gone", "dora.v no longer has: approve-app")),
        (MOMENTS[4], ("web-all: hosts no longer web3", "web-all: hosts no longer web4")),
        (SECOND_BASE, ("gone from the base: olga.dba DATABASES = (ALL) ALL",)),
    ):
        for said in words:
            assert said in told[at]["words"], (at, said, told[at]["words"])
    why = [f"{row['word']} {row['text']}" for row in told[MOMENTS[3]]["said"]]
    assert why == ["by root", "why hal.p has left", "ticket OPS-31", "approved-by fay.o"]
    kinds = {f"{row['by']} {row['no']}": row["kind"] for row in told[MOMENTS[3]]["altered"]}
    assert kinds[it.site.planted.struck_out] == "given back", kinds
    kinds = {f"{row['by']} {row['no']}": row["kind"] for row in told[MOMENTS[2]]["altered"]}
    assert kinds[it.site.planted.renamed] == "begins", kinds
    # (what was asked later was no roster's to alter)
    assert not told[MOMENTS[1]]["altered"], told[MOMENTS[1]]
    words = told[SECOND_BASE]["words"]
    assert any(it.startswith("It allows no longer, for one: olga.dba on db") for it in words), words


def idle(it: Audit) -> None:
    told = [(row["person"], row["duty"], row["never"]) for row in it.told["idle"]]
    assert sorted(told) == sorted(it.history.idle(FROM, UNTIL))
    assert {"leo.x", "vic.t"} <= {person for person, _, _ in told}


def standing(it: Audit) -> None:
    told = {
        (row["user"], row["target"], row["right"], *row["without"]): row["since"]
        for row in it.told["standing"]
    }
    assert told == {
        ("ann.k", "root", "/usr/bin/systemctl status postgresql"): MOMENTS[0],
        ("deploy", "root", "/usr/bin/systemctl reload nginx"): SECOND_BASE,
        ("olga.dba", "postgres", "EVERYTHING"): MOMENTS[0],
        ("olga.dba", "root", "/usr/bin/journalctl"): MOMENTS[0],
        ("uma.j", "root", "EVERYTHING"): MOMENTS[0],
        ("zed.q", "root", "EVERYTHING", "/usr/bin/su"): SECOND_BASE,
    }


# ---- what is whole


def removed(it: Audit) -> None:
    """A request that is taken out with all verdicts on it leaves a gap in its asker's numbers."""
    by = next(it for it, no in sorted(it.history.requests) if no == 3)
    no = 2
    lines = [line for line in it.site.lines if not is_about(json.loads(line), by, no)]
    missing = History({MOMENTS[0]: it.site.rosters[MOMENTS[0]]}, lines).missing()
    assert no in missing[by] and len(lines) < len(it.site.lines)
    found = gaps(numbers_of(map(json.loads, lines)))
    assert {gap.by: [*range(gap.first, gap.last + 1)] for gap in found} == missing


def is_about(message: dict[str, Any], by: str, no: int) -> bool:
    return (message.get("of", message["by"]), message["no"]) == (by, no)


def whole(it: Audit) -> None:
    told = {row["by"]: [*range(row["first"], row["last"] + 1)] for row in it.told["gaps"]}
    assert told == it.history.missing()
    who, no = it.site.planted.attempt.split(" ")
    assert it.read("gaps") == f"{who} lacks {no}\n"
    (attempt,) = it.told["attempts"]
    assert (attempt["who"], attempt["answer"]) == (who, "A3 NotAsker") and attempt["no"] == int(no)
    reasons = [json.loads(line) for line in it.site.reasons]
    given = {f"{row['who']} {row['no']}" for row in reasons}
    asked = {f"{by} {no}" for by, no in it.history.requests}
    assert sorted(asked - given) == sorted(it.told["without_reason"])


def sample(it: Audit) -> None:
    """Anybody draws the same 25."""
    statuses = it.history.statuses(FROM, UNTIL)
    digests = {
        hashlib.sha256(f"{SEED} {by} {no}".encode()).hexdigest(): (by, no) for by, no in statuses
    }
    drawn = sorted(digests[it] for it in sorted(digests)[:COUNT])
    rows = it.rows("sample.csv")
    assert [(row["who"], int(row["no"])) for row in rows] == drawn
    for row in rows:
        name = row["who"], int(row["no"])
        assert row["status"] == statuses[name], row
        assert row["roster"] in {*MOMENTS, SECOND_BASE} and row["roster"] <= row["asked"]
        held = it.history.pieces(FROM, UNTIL)
        assert bool(row["in_force"]) == any(piece[:2] == name for piece in held), row


def handed_on(it: Audit) -> None:
    """The summary has the digests of what it speaks of, and says what made it."""
    told = it.told
    assert set(told["files"]) == {"grants.csv", "sample.csv", "report.html"}
    for name, digest in told["files"].items():
        assert hashlib.sha256(it.read(name).encode()).hexdigest() == digest, name
    head = told["made"]
    assert (head["program"], head["messages"]) == ("desk-evidence", len(it.site.lines))
    assert {"proved", "version", "logic"} <= head.keys()
    whats = [row["what"] for row in head["read"]]
    assert f"roster of {MOMENTS[3]}" in whats and f"base of {SECOND_BASE}" in whats


class Tags(HTMLParser):
    """The tags of a page: none is left open, and none asks for another file or runs anything."""

    def __init__(self) -> None:
        super().__init__()
        self.open: list[str] = []
        self.titles: list[str] = []

    def handle_starttag(self, tag: str, attrs: list[tuple[str, str | None]]) -> None:
        assert tag not in ("script", "img", "link", "iframe", "a"), tag
        assert not any(name.startswith("on") or name in ("src", "href") for name, _ in attrs)
        if tag not in ("meta", "br"):
            self.open.append(tag)

    def handle_endtag(self, tag: str) -> None:
        assert self.open.pop() == tag, tag

    def handle_data(self, data: str) -> None:
        if self.open and self.open[-1] == "h2":
            self.titles.append(data)


def page(it: Audit) -> None:
    tags = Tags()
    text = it.read("report.html")
    tags.feed(text)
    assert not tags.open and len(tags.titles) == 14, tags.titles
    assert "url(" not in text and "@import" not in text
    said_there = ("hal.p is struck out", "olga.dba", "it was their own request", "ticket: OPS-31")
    for said in (*said_there, SEED):
        assert said in text, said


def checks() -> Iterator[Any]:
    yield from (pieces, became, every_name, second_reading, reports, approvals, careful, ran)
    yield from (wider, changes, idle, standing, whole, removed, sample, handed_on, page)


CHECKS = tuple(checks())
