"""What came after a backup: found where it still is, filled in, and named where it is not.

Whoever else has messages is believed: the relay's outbox, the door's journal, a second desk, what
people's own machines keep of what they signed. A host's file says what the lost desk granted.
"""

from __future__ import annotations

import glob
import json
import os
import re
from collections.abc import Iterable, Iterator
from dataclasses import dataclass, field
from typing import Any, NamedTuple

from steelnewt_backup.faults import Failed
from steelnewt_backup.follow import said_in
from steelnewt_backup.site import Answer, Site, name_of, run_relay
from steelnewt_client.messages import canonical

ACK = "ack"
JOURNAL = "/var/lib/desk-door"
REVOKED = "/root/revoked.txt"
DATED = re.compile(
    r"(?P<who>\S+) (?P<host>\S+) = \((?P<runas>\S+)\) NOTBEFORE=(?P<first>[0-9]{14}Z)"
    r" NOTAFTER=(?P<last>[0-9]{14}Z) (?P<command>.+)"
)


class Source(NamedTuple):
    """Messages that somebody else has: what they are called, by which relay they come, and whether
    a desk acknowledged them."""

    what: str
    relay: str
    messages: list[str]
    is_held: bool = True


class Heard(NamedTuple):
    """What a host has: of how many messages and of which roster its file was made, and the file's
    lines."""

    host: str
    messages: int
    roster: str
    lines: list[str]


@dataclass
class Told:
    """What a restore found: filled in, not taken, lost, and what stays open for a person; notes
    wait for nobody."""

    filled: list[tuple[str, str]] = field(default_factory=list)
    refused: list[tuple[str, Answer]] = field(default_factory=list)
    again: list[str] = field(default_factory=list)
    lost: list[str] = field(default_factory=list)
    open: list[str] = field(default_factory=list)
    notes: list[str] = field(default_factory=list)


# ---- who else has messages


def of_outbox(site: Site) -> Iterator[Source]:
    """The relay reads its own outbox, as its own account: whoever wrote it, nothing is run. What
    the desk has not answered is posted again by the relay itself."""
    if site.outbox():
        rows = [it.split(" ", 2) for it in run_relay(site, "sent", "--after", "0").splitlines()]
        yield Source("the outbox", site.relay(), [row[2] for row in rows if row[1] == "acked"])


def of_said(folder: str, relay: str) -> Iterator[Source]:
    """What desk-backup --follow wrote beside the backups."""
    found = [text for _, text in said_in(folder)]
    if found:
        yield Source("what was said since", relay, found, is_held=False)


def of_journal(root: str) -> list[Source]:
    """What the door's journal says that was acknowledged, by relay."""
    came: dict[int, tuple[str, str]] = {}
    taken: dict[str, list[str]] = {}
    for path in sorted(glob.glob(f"{root}{JOURNAL}/journal-*.jsonl")):
        for row in rows_of(path):
            if row.get("row") in ("came", "brought"):
                came[int(row["no"])] = str(row["relay"]), str(row["message"])
            elif row.get("row") == "answered" and row.get("code") == ACK:
                relay, message = came.get(int(row["of"]), ("", ""))
                if message:
                    taken.setdefault(relay, []).append(message)
    return [Source("the door's journal", relay, found) for relay, found in taken.items()]


def rows_of(path: str) -> Iterator[dict[str, Any]]:
    """The rows of a file of the journal; a last one that was cut off is none."""
    with open(path, encoding="utf-8", errors="replace") as file:
        for line in file:
            try:
                row = json.loads(line)
            except ValueError:
                continue
            if isinstance(row, dict):
                yield row


def of_file(path: str, relay: str) -> Source:
    """Messages of a file, one a line; behind a tab a signature may stand."""
    try:
        with open(path, encoding="utf-8") as file:
            lines = [line.partition("\t")[0].strip() for line in file]
    except (OSError, ValueError) as fault:
        raise Failed(f"{path} cannot be read: {fault}") from None
    return Source(path, relay, [it for it in lines if it.startswith("{")])


def sources(site: Site, files: Iterable[str], folder: str) -> list[Source]:
    relay = site.relay()
    found = [*(of_file(it, relay) for it in files), *of_outbox(site)]
    found += [*of_said(folder, relay), *of_journal(site.root)]
    if os.path.exists(site.root + REVOKED):
        found.append(of_file(site.root + REVOKED, relay))
    return found


# ---- filled in


def order(message: str) -> tuple[bool, str]:
    """Requests first: a verdict whose request has not come waits."""
    return '"kind":"request"' not in message, message


def fill(site: Site, found: list[Source], told: Told) -> None:
    """Gives the desk each message that a source has and the desk lacks. (What was cut out of its
    store it does not lack: it would fill it up again, and be counted twice.)"""
    held = {*site.messages(), *site.archived()}
    for source in found:
        lacking = sorted({it for it in source.messages if it not in held}, key=order)
        for answer in site.deliver(source.relay or site.relay(), lacking):
            held.add(answer.message)
            if answer.said == ACK:
                told.filled.append((source.what, answer.message))
                if '"kind":"approve"' in answer.message:
                    told.again.append(answer.message)
            elif source.is_held:
                told.refused.append((source.what, answer))
            else:
                told.lost.append(f"the desk did not take it ({answer.said}): {answer.message}")


# ---- what hosts have heard of


def heard_of(folder: str, rosters: set[str], host: str) -> Heard:
    """What was brought from a host: its record HOST.json, and its file HOST.sudoers. (A change of
    the roster takes no message away, so a count under any of these rosters says what came.)"""
    try:
        with open(os.path.join(folder, f"{host}.json"), encoding="ascii") as file:
            rows = json.load(file)["installed"]
        same = [int(row[0]) for row in rows if row[1] in rosters]
        last = str(rows[-1][1])
        with open(os.path.join(folder, f"{host}.sudoers"), encoding="utf-8") as file:
            lines = file.read().splitlines()
    except (OSError, ValueError, KeyError, TypeError, IndexError) as fault:
        raise Failed(f"{folder}: {host}.json and {host}.sudoers cannot be read: {fault}") from None
    return Heard(host, max(same, default=0), last, lines)


def all_heard(folder: str, rosters: set[str]) -> list[Heard]:
    names = sorted(glob.glob(os.path.join(folder, "*.json")))
    if not names:
        raise Failed(f"{folder} has no HOST.json: bring /var/lib/desk-host/HOST.json of each host")
    hosts = [os.path.basename(it).removesuffix(".json") for it in names]
    return [heard_of(folder, rosters, it) for it in hosts]


def compare(site: Site, heard: list[Heard], count: int, now: str, told: Told) -> None:
    """Names each grant that a host has and the desk does not, and each that a host has no more.
    Only a host that has heard of more than the `count` messages that came back says something of
    the loss."""
    held, rosters = site.messages(), site.rosters()
    for it in heard:
        if it.roster not in rosters:
            told.open.append(
                f"{it.host} had a roster of sha256 {it.roster[:16]}..: it came after the backup, so"
                " give the desk that one"
            )
        if it.messages <= count:
            continue
        told.lost.append(
            f"{it.host} has heard of {it.messages} messages, and {count} came back:"
            f" {it.messages - count} are in no source"
        )
        own = {line for line in site.host_file(it.host) if is_live(line, now)}
        theirs = {line for line in it.lines if is_live(line, now)}
        for line in sorted(theirs - own):
            told.lost.append(f"granted, and nobody knows by which messages: {line}")
        for line in sorted(own - theirs):
            told.open.append(ended(line, it.host, held))


def is_live(line: str, now: str) -> bool:
    """Whether it is the line of a grant that is not over."""
    found = DATED.fullmatch(line)
    return found is not None and found["last"] >= now


def ended(line: str, host: str, held: list[str]) -> str:
    names = ", ".join(f"{who} {no}" for who, no in requests_for(line, held))
    return f"{host} has it no more, so it was revoked: {names or 'nobody knows'}: {line}"


def requests_for(line: str, held: list[str]) -> list[tuple[str, int]]:
    """The requests that may have given a line: its last second is the window's."""
    grant = DATED.fullmatch(line)
    found = []
    for message in held if grant else []:
        told = json.loads(message)
        is_same = (
            told.get("kind") == "request"
            and grant is not None
            and told["by"] == grant["who"]
            and grant["host"] in told["hosts"]
            and told["runas"] == grant["runas"]
            and told["from"] <= grant["first"]
            and told["until"] == grant["last"]
            and grant["command"] in told["cmnds"]
        )
        if is_same:
            found.append((str(told["by"]), int(told["no"])))
    return found


def revoke(site: Site, heard: list[Heard], count: int, by: str, now: str, told: Told) -> None:
    """Revokes in somebody's name what hosts have no more: hosts that have heard more are
    believed."""
    held, wanted = site.messages(), set[tuple[str, int]]()
    for it in heard:
        if it.messages > count:
            lines = {line for line in site.host_file(it.host) if is_live(line, now)}
            for line in lines - set(it.lines):
                wanted.update(requests_for(line, held))
    messages = [
        canonical({"at": now, "by": by, "kind": "revoke", "no": no, "of": of})
        for of, no in sorted(wanted)
    ]
    for answer in site.deliver(site.relay(), messages):
        if answer.said == ACK:
            told.filled.append(("what hosts no longer have", answer.message))
        else:
            told.refused.append(("what hosts no longer have", answer))


# ---- who may have asked since


def greatest(messages: Iterable[str]) -> dict[str, int]:
    """Each asker's greatest number."""
    found: dict[str, int] = {}
    for name in filter(None, map(name_of, messages)):
        found[name[0]] = max(found.get(name[0], 0), name[1])
    return found
