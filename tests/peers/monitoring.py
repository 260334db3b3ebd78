#!/usr/bin/env python3
"""Tries examples/monitoring/check_desk.py beside real desks: each thing that it looks at, well and
not well.

`python3 -m tests.peers.monitoring WORDS..` runs another program than build/desk.
"""

import contextlib
import http.server
import json
import os
import re
import runpy
import signal
import sqlite3
import subprocess
import sys
import tempfile
import threading
import time
import urllib.request
from collections.abc import Callable, Iterator

from steelnewt_client.messages import Verdict
from steelnewt_relay.events import Event
from steelnewt_relay.notices import Notices
from steelnewt_relay.outbox import Outbox
from tests.common import desk, front, outsider
from tests.common.ports import free_port


Row = tuple[str, bool, str]
CHECK = os.path.join(desk.EXAMPLES, "monitoring", "check_desk.py")
NOW = int(time.time())
HOUR, DAY = 3600, 86_400
LINE = re.compile(r"# HELP (desk_[a-z_]+) \S.*|# TYPE (desk_[a-z_]+) gauge|(desk_[a-z_]+) [0-9]+")


def approval(at: int) -> str:
    return desk.approval(at=desk.stamp(at))


def request(command: str, at: int = NOW - HOUR) -> str:
    first, last = desk.stamp(at), desk.stamp(at + HOUR + HOUR // 2)
    return desk.request(cmnds=[command], at=first, until=last, **{"from": first})


@contextlib.contextmanager
def serving(folder: str, roster: str, base: str, messages: list[str]) -> Iterator[str]:
    """A desk that was told the messages, over the store desk.db of the folder: its address."""
    files = desk.write(folder, "roster.toml", roster), desk.write(folder, "base.sudo", base)
    store = os.path.join(folder, "desk.db")
    for end in ("", "-wal"):
        with contextlib.suppress(FileNotFoundError):
            os.unlink(store + end)
    with desk.Server(store, program=desk.named(), roster=files[0], base=files[1]) as server:
        for line in messages:
            target = f"http://{server.address}/v1/relays/chat/messages"
            urllib.request.urlopen(target, line.encode(), timeout=20).read()
        yield f"http://{server.address}"


def check(*words: str, before: tuple[str, ...] = ()) -> tuple[int, str]:
    ran = subprocess.run(
        [*before, "/usr/bin/python3", CHECK, *words],
        stdout=subprocess.PIPE,
        stderr=subprocess.STDOUT,
        text=True,
        check=False,
    )
    return ran.returncode, ran.stdout


def desk_rows() -> list[tuple[str, str, str, list[str], int, str]]:
    """What it is about, the roster, the base, the messages, and the status and the line of the
    check."""
    roster, base = desk.read(desk.ROSTER), desk.read(desk.BASE)
    calm = roster.replace('eve = ["approve-db", "audit"]', 'eve = ["audit"]')
    granted = [request("/usr/bin/id"), approval(NOW - HOUR)]
    return [
        (
            "all is well",
            calm,
            base,
            granted,
            0,
            "DESK OK | desk_up=1 desk_messages=2 desk_grants=1 desk_grants_needless=0 ",
        ),
        (
            "conflicting duties",
            roster,
            base,
            [],
            1,
            "DESK WARNING - 1 conflicting duties held by one person |",
        ),
        (
            "a verdict that has waited for two days",
            calm,
            base,
            [approval(NOW - 2 * DAY)],
            1,
            "DESK WARNING - 1 verdicts waiting for more than a day |",
        ),
        (
            "a verdict that has waited for an hour",
            calm,
            base,
            [approval(NOW - HOUR)],
            0,
            "desk_parked=1 desk_parked_old=0",
        ),
        (
            "a number that was given twice today",
            calm,
            base,
            [*granted, request("/usr/local/sbin/")],
            1,
            "DESK WARNING - asked twice under one number: ann 7 |",
        ),
        (
            "one that was given twice two days ago",
            calm,
            base,
            [request("/usr/bin/id", NOW - 2 * DAY), request("/usr/local/sbin/", NOW - 2 * DAY)],
            0,
            "desk_messages=2",
        ),
        (
            "a needless grant",
            calm,
            base + "ann db1 = ALL\n",
            granted,
            1,
            "DESK WARNING - 1 needless grants |",
        ),
        (
            "a broad grant",
            calm,
            base,
            [request("/usr/local/sbin/"), approval(NOW - HOUR)],
            0,
            "broad: ann 7 /usr/local/sbin/",
        ),
    ]


def is_textfile(path: str) -> bool:
    """Whether each line is one of Prometheus's text format."""
    with open(path, encoding="utf-8") as file:
        lines = file.read().splitlines()
    return (
        len(lines) >= 3
        and all(LINE.fullmatch(line) for line in lines)
        and os.stat(path).st_mode & 0o777 == 0o644
    )


def desks(folder: str) -> Iterator[tuple[str, bool, str]]:
    text = os.path.join(folder, "desk.prom")
    for what, roster, base, messages, status, says in desk_rows():
        with serving(folder, roster, base, messages) as address:
            got, said = check("--desk", address, "--textfile", text)
        yield what, got == status and says in said and is_textfile(text), f"{got}: {said}"
    store = os.path.join(folder, "desk.db")
    yield from at_its_socket(folder)
    yield "a desk that is down", *is_said(
        check("--desk", "http://127.0.0.1:1"),
        2,
        "DESK CRITICAL - http://127.0.0.1:1 does not answer",
    )
    yield "a store", *is_said(
        check("--desk", "http://127.0.0.1:1", "--store", store),
        2,
        f"desk_store_bytes={size(store)}",
    )
    with serving(folder, desk_rows()[0][1], "", []) as address:
        yield "a large store", *is_said(
            check("--desk", address, "--store", store, "--store-most", "100"),
            1,
            "WARNING - the store has ",
        )
        bare = check("--desk", address.removeprefix("http://"), "--store", "-")
        yield "as serve.conf has it", *is_said(bare, 0, "DESK OK |")
        yield "no store", *is_said(
            check("--desk", address, "--store", "/nowhere.db"), 2, "there is no /nowhere.db"
        )
        hidden, before = closed(folder)
        yield "a store that this account may not see", *is_said(
            check("--desk", address, "--store", hidden, before=before),
            2,
            f"cannot look at {hidden}",
        )


def late(folder: str) -> Iterator[Row]:
    """Grants that begin after their asker's last day are remarked below the line, and change no
    status."""
    entry = 'ann = [{ duty = "operate-db", from = "20260101", until = "%s" }]'
    calm = desk.read(desk.ROSTER).replace('eve = ["approve-db", "audit"]', 'eve = ["audit"]')
    today, later = desk.stamp(NOW)[:8], NOW + 3 * DAY
    window = {"from": desk.stamp(later), "until": desk.stamp(later + HOUR)}
    asked = desk.request(8, cmnds=["/usr/bin/id"], at=desk.stamp(NOW - HOUR), **window)
    messages = [request("/usr/bin/id"), approval(NOW - HOUR), asked]
    messages.append(desk.approval(8, at=desk.stamp(NOW - HOUR)))
    for last, said in (
        (desk.stamp(later - DAY)[:8], f"ann 8 begins at {window['from']}, and ann's last day is "),
        (desk.stamp(later)[:8], ""),
        (today, "ann 8 begins at "),
    ):
        roster = calm.replace('ann = ["operate-db"]', entry % last)
        with serving(folder, roster, desk.read(desk.BASE), messages) as address:
            path = os.path.join(folder, "roster.toml")
            status, text = check("--desk", address, "--roster", path)
        first, *rest = text.splitlines()
        is_right = status == 0 and first.startswith("DESK OK |") and len(rest) == bool(said)
        count = f"desk_grants_after_last_day={len(rest)}"
        is_right = is_right and "".join(rest).startswith(said) and count in first
        yield f"a last day of {last}", is_right, text
    with serving(folder, calm, "", messages) as address:
        found = check("--desk", address, "--roster", "/nowhere")
        yield "no roster", *is_said(found, 2, "/nowhere")


def as_in_team(folder: str) -> Iterator[Row]:
    """The site of docs/TEAM.md, whose roster gives all of a development host: what it is meant to
    give is no alarm."""
    text = desk.read("docs", "TEAM.md")
    (roster,) = re.findall(r"^```toml\n(.*?)^```$", text, re.MULTILINE | re.DOTALL)
    first = desk.stamp(NOW - HOUR)
    asked = {"ceiling": "dev", "hosts": ["dev1"], "runas": "root", "cmnds": ["ALL"], "at": first}
    asked |= {"from": first, "until": desk.stamp(NOW + HOUR)}
    messages = [desk.request(**asked), desk.approval(by="ben", at=first)]
    with serving(folder, roster, desk.read("examples", "site.sudo"), messages) as address:
        status, said = check("--desk", address)
        told = said.startswith("DESK OK | ") and " desk_grants=1 " in said
        told = told and said.splitlines()[1:] == ["broad: ann 7 ALL"]
        yield "TEAM's site after a grant of ALL", status == 0 and told, f"{status}: {said}"
        found = check("--desk", address, "--broad-warning")
        yield "a site that wants it", *is_said(found, 1, "WARNING - 1 broad commands in force |")


def telling(folder: str, text: str) -> tuple[str, ...]:
    """What goes before a command for which systemd says this of a unit."""
    path = desk.write(folder, "systemctl", f"#!/bin/sh\nprintf '{text}'\n")
    os.chmod(path, 0o755)
    return ("env", f"PATH={folder}:{os.environ['PATH']}")


def long_lived(folder: str) -> Iterator[Row]:
    """What grows for years: the messages beside the memory of the unit, and the roster."""
    calm = desk.read(desk.ROSTER).replace('eve = ["approve-db", "audit"]', 'eve = ["audit"]')
    messages = [request("/usr/bin/id"), approval(NOW - HOUR)]
    machine = os.sysconf("SC_PHYS_PAGES") * os.sysconf("SC_PAGE_SIZE")
    with serving(folder, calm, "", messages) as address:
        words = ("--desk", address, "--unit", "desk")
        for limit, status, says in (
            (8192 + 1, 0, "desk_memory_percent=49"),
            (8192, 1, "WARNING - 2 messages may need 50 % of the memory of desk: restart it, cut"),
            (8192, 1, "cut its history with desk-cut (desk-change-roster --cut), or give the"),
            (8192, 1, "desk_memory_bytes=4242"),
            (8192, 1, "desk_memory_limit_bytes=8192"),
            (4096, 1, "desk_memory_percent=100"),
            ("infinity", 0, "desk_memory_percent=0"),
            (machine * 2, 0, "desk_memory_percent=0"),
        ):
            told = f"LoadState=loaded\\nMemoryMax={limit}\\nMemoryCurrent=4242\\n"
            before = telling(folder, told)
            found = check(*words, before=before)
            yield f"a unit of {limit} bytes", *is_said(found, status, says)
        before = telling(folder, "LoadState=not-found\nMemoryMax=infinity\n")
        yield "no unit", *is_said(check(*words, before=before), 2, "systemd has no such unit")
    limits = json.loads(desk.read("tools", "schemas", "roster.schema.json"))["properties"]
    there = {name: it.get("maxItems", it.get("maxProperties")) for name, it in limits.items()}
    known = runpy.run_path(CHECK)["ROSTER_MOST"]
    yield "the limits of a roster", known == there, f"{known} and {there}"
    for count, status, says in (
        (921, 0, "desk_roster_percent=89"),
        (922, 1, "WARNING - the roster has 90 % of its hosts |"),
    ):
        more = "".join(f', "h{number}"' for number in range(count - 3))
        grown = calm.replace('"web1"]', f'"web1"{more}]', 1)
        with serving(folder, grown, "", []) as address:
            path = os.path.join(folder, "roster.toml")
            found = check("--desk", address, "--roster", path)
        yield f"{count} hosts", *is_said(found, status, says)


def at_its_socket(folder: str) -> Iterator[tuple[str, bool, str]]:
    """A desk that is asked at its socket, by those who may open it and by others."""
    address = f"unix:{folder}/desk.sock"
    with desk.Server(program=desk.named(), listen=address):
        found = check("--desk", address)
        yield "a desk at its socket", *is_said(found, 1, "WARNING - 1 conflicting duties")
        if os.geteuid() == 0:
            found = check("--desk", address, before=(*outsider.NOBODY,))
            yield "asked by nobody", *is_said(found, 2, f"{address} does not answer: [Errno 13]")


def closed(folder: str) -> tuple[str, tuple[str, ...]]:
    """A store in somebody else's folder, and what goes before a command that may not look there."""
    inside = os.path.join(folder, "closed")
    os.mkdir(inside)
    if os.geteuid():
        os.chmod(inside, 0)
        return os.path.join(inside, "desk.db"), ()
    nobody = 65534
    os.chown(inside, nobody, nobody)
    os.chmod(inside, 0o700)
    bare = ("setpriv", "--bounding-set=-all", "--inh-caps=-all")
    return os.path.join(inside, "desk.db"), bare


def size(store: str) -> int:
    return sum(os.path.getsize(store + end) for end in ("", "-wal") if os.path.exists(store + end))


def is_said(answer: tuple[int, str], status: int, says: str) -> tuple[bool, str]:
    return answer[0] == status and says in answer[1], f"{answer[0]}: {answer[1]}"


def files(folder: str) -> Iterator[tuple[str, bool, str]]:
    file = os.path.join(folder, "desk")
    yield "no host's file", *is_said(check("--file", file), 2, "DESK CRITICAL - there is no ")
    with open(file, "w", encoding="utf-8"):
        pass
    yield "a new file", *is_said(check("--file", file), 0, "DESK OK | desk_host_file_age_seconds=")
    os.utime(file, (NOW - 2 * HOUR, NOW - 2 * HOUR))
    yield "an old file", *is_said(check("--file", file), 2, "look at desk-fetch on this host")
    yield "a file that may be old", *is_said(
        check("--file", file, "--file-age", "86400"), 0, "DESK OK"
    )
    os.utime(file, (NOW + DAY, NOW + DAY))
    yield "a file of tomorrow", *is_said(check("--file", file), 2, "it is from the future")


def ends(folder: str) -> Iterator[Row]:
    """Certificates and lists of revoked ones, as the front's authority makes them."""
    ca = os.path.join(folder, "ca")
    front.certify(ca, "init")
    made = {}
    for name, first, last in (("year", -1, 365), ("twenty", -1, 20), ("three", -1, 3)):
        made[name] = dated(ca, name, first, last)
    made |= {"old": dated(ca, "old", -9, -1), "early": dated(ca, "early", 2, 9)}
    for name, status, says in (
        ("year", 0, "DESK OK | desk_certificate_seconds=315"),
        ("twenty", 1, "host-twenty.pem ends in 19 days"),
        ("three", 2, "host-three.pem ends in 2 days"),
        ("old", 2, "host-old.pem has ended | desk_certificate_seconds=0"),
        ("early", 2, "it does not hold yet"),
    ):
        found = check("--certificate", made[name])
        yield f"a certificate, {name}", *is_said(found, status, says)
    both = desk.write(folder, "both.pem", desk.read(made["year"]) + desk.read(made["old"]))
    yield "the second one in a file", *is_said(check("--certificate", both), 2, "has ended")
    two = check("--certificate", made["year"], "--certificate", made["twenty"])
    yield "the second file", *is_said(two, 1, "host-twenty.pem ends in 19 days")
    limits = ("--days-warning", "10", "--days-critical", "1")
    yield "other limits", *is_said(check("--certificate", made["three"], *limits), 1, "in 2 days")
    yield "a key", *is_said(check("--certificate", f"{ca}/ca.key"), 2, "it has no certificate")
    for days, status, says in (
        (1, 0, "DESK OK | desk_crl_seconds=314"),
        (345, 1, "crl.pem ends in 19 days"),
        (362, 2, "crl.pem ends in 2 days"),
        (400, 2, "crl.pem has ended | desk_crl_seconds=0"),
        (-3, 2, "it does not hold yet"),
    ):
        front.certify(ca, "renew", before=(desk.tool("faketime"), "-f", f"{-days:+}d"))
        yield f"a list of {days} days ago", *is_said(check("--crl", f"{ca}/crl.pem"), status, says)
    wrong = check("--crl", made["year"])
    yield "a list that is none", *is_said(wrong, 2, "openssl crl finds no lastUpdate there")


def dated(ca: str, name: str, first: float, last: float) -> str:
    """A host's certificate that holds from a day to another, in days from now: its path."""
    dates = desk.stamp(NOW + first * DAY), desk.stamp(NOW + last * DAY)
    front.certify(ca, "host", name, dates=dates)
    return os.path.join(ca, f"host-{name}.pem")


def box_check(path: str, *words: str) -> tuple[int, str]:
    """(the disk of this machine may be nearly full)"""
    return check("--outbox", path, "--free-warning", "0", "--free-critical", "0", *words)


def notices(box: Outbox, path: str) -> Iterator[Row]:
    """What is to be told: one that waits, one that was given up, and nobody who looks."""
    yield "who sent most", *is_said(box_check(path), 0, "within a day bob sent 4 of 4 messages")
    yield "nobody is told anything", "desk_notices" not in box_check(path)[1], ""
    found = Notices(box)
    found.untold()
    found.record([Event("asked", 1, {"by": "ann", "to": []})])
    for age, status, says in (
        (60, 0, "desk_notices_waiting=1 desk_notices_given_up=0 desk_notices_oldest_seconds=6"),
        (400, 1, "1 events are not told to anybody, one for 40"),
        (2 * HOUR, 2, "DESK CRITICAL - 1 events are not told to anybody"),
    ):
        box.base.execute("UPDATE notices SET began = ?", (time.time() - age,))
        yield f"an event waits for {age} s", *is_said(box_check(path), status, says)
    box.base.execute("UPDATE notices SET state = 'given up'")
    yield "it is given up", *is_said(box_check(path), 1, "1 events could not be told for a day")
    box.base.execute("UPDATE notices SET began = 0")
    yield "long ago", *is_said(box_check(path), 0, "desk_notices_given_up=0 ")
    for age, status in ((400, 1), (2 * HOUR, 2)):
        box.base.execute("UPDATE looked SET at = ?", (time.time() - age,))
        yield f"nobody looked for {age} s", *is_said(box_check(path), status, "nobody looked for ")
    box.base.execute("UPDATE looked SET at = ?", (time.time(),))


def outboxes(folder: str) -> Iterator[Row]:
    """A relay's outbox, written by the relay's own program."""
    path = os.path.join(folder, "outbox.db")
    box = Outbox(path)
    yield "nothing was sent", *is_said(box_check(path), 0, "desk_outbox_waiting=0")
    for no, age, status, says in (
        (1, 60, 0, "DESK OK | desk_outbox_waiting=1 desk_outbox_oldest_seconds=6"),
        (2, 400, 1, "2 messages wait in"),
        (3, 2 * HOUR, 2, "DESK CRITICAL - 3 messages wait in"),
    ):
        box.keep_verdict(Verdict("bob", "approve", "ann", no, desk.stamp(time.time() - age)))
        yield f"one waits for {age} s", *is_said(box_check(path), status, says)
    limits = ("--waits-warning", "9000", "--waits-critical", "9000")
    yield "other limits", *is_said(box_check(path, *limits), 0, "DESK OK")
    for kept in box.unposted()[1:]:
        box.answered(kept.id, "acked" if kept.id == 2 else "refused")
    yield "these were answered", *is_said(box_check(path), 0, "desk_outbox_waiting=1 ")
    box.keep_verdict(Verdict("bob", "approve", "ann", 9, desk.stamp(time.time() + DAY)))
    box.answered(1, "acked")
    yield "one of tomorrow", *is_said(box_check(path), 2, "it has a message from the fut")
    box.answered(4, "acked")
    yield from notices(box, path)
    os.rename(f"{folder}/reserve", f"{folder}/given-up")
    given_up = box_check(path)
    yield "its reserve is given up", *is_said(given_up, 2, "refusals and revocations alone are")
    os.rename(f"{folder}/given-up", f"{folder}/reserve")
    full = check("--outbox", path, "--free-warning", "100", "--free-critical", "0")
    yield "its disk", *is_said(full, 1, "% of the outbox's disk are free")
    box.close()
    yield "nobody has it open", *is_said(box_check(path), 0, "desk_outbox_waiting=0")
    box.base = sqlite3.connect(path)
    box.base.execute("INSERT INTO messages VALUES (9, '{}', '', '', '', 1, '', 'kept', '')")
    box.base.commit()
    yield "a message without its moment", *is_said(box_check(path), 2, "cannot look at")
    box.base.execute("DROP TABLE messages")
    box.close()
    yield "another database", *is_said(box_check(path), 2, "no such table: messages")


def programs(folder: str) -> Iterator[Row]:
    """Whether the program is proved, by its own word."""
    for said, status, says in (
        ("desk 1.0\\nproved with rattle logic 1\\n", 0, "DESK OK | desk_proved=1"),
        ("desk 1.0\\nNOT PROVED: rattle logic 1\\n", 1, "is NOT PROVED: it is for trials |"),
        ("", 2, "it says no version of a desk"),
    ):
        path = desk.write(folder, "program", f"#!/bin/sh\nprintf '{said}'\n")
        os.chmod(path, 0o755)
        yield f"a program that says {said!r}", *is_said(check("--program", path), status, says)
    yield "no program", *is_said(check("--program", "/nowhere/it"), 2, "there is no /nowhere/it")


def fronts(folder: str) -> Iterator[Row]:
    """A front that has not read the list of revoked ones that lies beside it."""
    ca, port, pid = os.path.join(folder, "ca"), free_port(), os.path.join(folder, "pid")
    front.certify(ca, "server", "desk.example", "127.0.0.1")
    words = ("--crl", f"{ca}/crl.pem", "--certificate", f"{ca}/server.pem", "--front-pid", pid)
    front.certify(ca, "renew")
    with front.front(front.nginx_words(folder, port, "127.0.0.1:1"), port):
        yield "a front that has read it", *is_said(check(*words), 0, "DESK OK")
        front.certify(ca, "revoke", "host-year")
        late = check(*words)
        yield "a new list", *is_said(late, 2, "crl.pem is newer than what the front has read")
        os.kill(int(desk.read(pid)), signal.SIGHUP)
        wait_until(lambda: check(*words)[0] == 0)
        yield "a reload", *is_said(check(*words), 0, "DESK OK")
        front.certify(ca, "server", "desk.example", "127.0.0.1")
        late = check(*words)
        yield "a new certificate", *is_said(late, 2, "server.pem is newer than what the front")
    yield "no front", *is_said(check(*words), 2, "DESK CRITICAL - ")
    desk.write(folder, "pid", "no number")
    yield "no process", *is_said(check(*words), 2, f"cannot look at {pid}")


def wait_until(holds: Callable[[], bool]) -> None:
    for _ in range(1_200):
        if holds():
            return
        time.sleep(0.1)


def disks(folder: str) -> Iterator[Row]:
    """The store's disk, small and nearly full."""
    disk = os.path.join(folder, "disk")
    os.mkdir(disk)
    script = f"mount -t tmpfs -o size=1000k none {disk} && touch {disk}/desk.db &&"
    script += f' head -c "$0" /dev/zero > {disk}/fill && exec "$@"'
    for filled, status, says in (
        (500_000, 0, "DESK OK | desk_store_bytes=0 desk_store_free_percent="),
        (900_000, 1, "% of the store's disk are free"),
        (1_015_808, 2, "DESK CRITICAL - "),
    ):
        inside = ("unshare", "--mount", "bash", "-c", script, str(filled))
        found = check("--store", f"{disk}/desk.db", before=inside)
        yield f"a disk with {filled} bytes", *is_said(found, status, says)


def unreadable(folder: str) -> Iterator[Row]:
    """What cannot be read is critical, and wrong words are unknown: none of it is well."""
    empty, junk = desk.write(folder, "empty", ""), desk.write(folder, "junk", os.urandom(4096))
    for option in ("--certificate", "--crl", "--outbox"):
        for path in (empty, junk, folder, "/nowhere/it", "/dev/null"):
            found = check(option, path)
            yield f"{option} {path}", *is_said(found, 2, "DESK CRITICAL - ")
    hidden, before = closed(os.path.join(folder, "ca"))
    for option in ("--store", "--certificate", "--crl", "--outbox", "--file"):
        found = check(option, hidden, before=before)
        yield f"{option}, which this account may not see", *is_said(found, 2, "cannot look at")
        yield f"{option} of nothing", *is_said(check(option, ""), 3, f"{option} has an empty value")
        yield f"{option} alone", *is_said(check(option), 3, "DESK UNKNOWN - ")
    for words, says in (
        ((), "name what to look at"),
        (("--textfile", "/tmp/x"), "name what to look at"),
        (("--file", empty, "--fil", "x"), "unrecognized"),
        (("--file", empty, "--front-pid", "/run/nginx.pid"), "needs a --certificate"),
        (("--file", empty, "--roster", empty), "--roster needs a --desk"),
        (("--file", empty, "--unit", "desk"), "--unit needs a --desk"),
        (("--file", empty, "--broad-warning"), "--broad-warning needs a --desk"),
        (("--crl", empty, "--days-warning", "soon"), "invalid int"),
        (("--crl", empty, "--days-warning", "3", "--days-critical", "5"), "comes after"),
        (("--crl", empty, "--days-warning", "3", "--days-critical", "-5"), "are 0 or more"),
        (("--outbox", empty, "--waits-warning", "9999"), "comes after"),
    ):
        found = check(*words)
        yield " ".join(words), *is_said(found, 3, "DESK UNKNOWN - ")
        yield f"{words}: why", says in found[1], found[1]
    found = check("--file", empty, "--textfile", "/nowhere/desk.prom")
    yield "figures that cannot be written", *is_said(found, 2, "cannot write /nowhere/desk.prom")
    no_openssl = ("env", "PATH=/nowhere")
    found = check("--certificate", f"{folder}/ca/ca.pem", before=no_openssl)
    yield "no openssl", *is_said(found, 2, "there is no openssl")


class Login(http.server.BaseHTTPRequestHandler):
    """Something that stands before a desk, and answers all with a page of its own."""

    page = b""

    def do_GET(self) -> None:
        self.send_response(200)
        self.send_header("Content-Length", str(len(self.page)))
        self.end_headers()
        self.wfile.write(self.page)

    def log_message(self, *_: object) -> None:
        pass


def pages(_: str) -> Iterator[Row]:
    server = http.server.ThreadingHTTPServer(("127.0.0.1", 0), Login)
    threading.Thread(target=server.serve_forever, daemon=True).start()
    for page in (b"", b"<html>log in</html>\n", b"[]\n", b"{}\n", b"\xff\n"):
        Login.page = page
        found = check("--desk", f"http://127.0.0.1:{server.server_port}")
        yield f"a page {page!r}", *is_said(found, 2, "does not answer: ")
    server.shutdown()


PARTS = (
    desks,
    as_in_team,
    long_lived,
    late,
    files,
    ends,
    fronts,
    outboxes,
    programs,
    disks,
    unreadable,
    pages,
)


def main() -> None:
    checks, wrong = 0, 0
    with tempfile.TemporaryDirectory() as folder:
        for part in PARTS:
            for what, is_right, said in part(folder):
                checks += 1
                if not is_right:
                    wrong += 1
                    print(f"{what}: otherwise. {said}")
    print(f"monitoring: {checks} checks, {wrong} wrong")
    sys.exit(1 if wrong else 0)


if __name__ == "__main__":
    main()
