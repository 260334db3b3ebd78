"""A crowd at a relay that stands behind the shipped fronts: no answer is late, none is 429, and
nothing that was sent is lost.

The gate has a short form, which makes up for what else the machine does. CROWD=60 is the whole
one: 50 people for 60 seconds, over 1,000 open requests.
"""

import json
import os
import random
import re
import subprocess
import threading
import time
from collections.abc import Callable
from dataclasses import dataclass, field
from datetime import datetime, timedelta
from pathlib import Path

import requests

from relays.tests.front import Front
from relays.tests.site import BASE, DESK, Site
from relays.tests.test_page import ASKED, token
from relays.tests.test_tls import READER, fronted
from steelnewt_client.messages import Request, Wish
from steelnewt_client.moments import now, stamp
from steelnewt_relay.outbox import Outbox
from tests.common.stalls import Machine, Mark

SECONDS = float(os.environ.get("CROWD", "0"))
IS_WHOLE = SECONDS > 0
OPEN, PEOPLE = (1000, 50) if IS_WHOLE else (150, 12)
# Seconds that an answer may take.
LATE = 2.0
# (most wait a moment before they go on, as people do who read)
PAUSE = (0.5, 2.5)
AT_SSH = 2


def names() -> tuple[list[str], list[str]]:
    """Who asks, and who approves."""
    half = PEOPLE // 2
    return [f"p{it}" for it in range(half)], [f"q{it}" for it in range(PEOPLE - half)]


def opened(site: Site, count: int, at: datetime) -> list[str]:
    """Requests that wait, in the desk's store and in the outbox; their texts."""
    askers, approvers = names()
    roster = site.folder / "site.roster"
    people = [f'{it} = ["operate-db"]' for it in askers]
    people += [f'{it} = ["approve-db"]' for it in approvers]
    text = roster.read_text().replace("[people]\n", "[people]\n" + "\n".join(people) + "\n")
    roster.write_text(text)
    texts, outbox = [], Outbox(str(site.folder / "outbox.db"))
    with outbox.writing():
        for number in range(count):
            by, begins = askers[number % len(askers)], at - timedelta(seconds=number)
            window = stamp(begins), stamp(begins + timedelta(hours=2))
            wish = Wish.of("db-care", ["db1"], "root", ["/usr/bin/id"], window)
            request = Request(by, outbox.next_number(by), stamp(begins), wish)
            outbox.insert(request, "request", by, request.no, None)
            texts.append(request.text())
        outbox.base.execute("UPDATE messages SET state = 'acked'")
    outbox.close()
    words = [DESK, "deliver", str(roster), str(BASE), str(site.store), "chat"]
    lines = "".join(f"{it}\n" for it in texts)
    ran = subprocess.run(words, input=lines, capture_output=True, text=True, check=True)
    assert ran.stdout == "ack\n" * count
    return texts


@dataclass
class Seen:
    """What the people of a crowd saw."""

    machine: Machine
    took: list[tuple[float, str]] = field(default_factory=list)
    wrong: list[str] = field(default_factory=list)
    sent: int = 0

    def timed(self, name: str, ask: Callable[[], requests.Response]) -> str:
        began = self.machine.mark()
        reply = ask()
        self.took.append((self.seconds(began), name))
        is_told = "does not answer" not in reply.text and "answers 429" not in reply.text
        if reply.status_code != 200 or not is_told:
            self.wrong.append(f"{name}: {reply.status_code} {reply.text[:2000]}")
        return str(reply.text)

    def seconds(self, began: Mark) -> float:
        """How long an answer took; in the gate's short form, without the time for which the people
        themselves stood still."""
        return time.monotonic() - began.at if IS_WHOLE else self.machine.since(began)


def one(front: Front, person: str, seen: Seen, ended: threading.Event, seed: int) -> None:
    """Somebody at the page: asks, or approves what waits longest, again and again."""
    chance, url, peer = random.Random(seed), front.url(person), requests.Session()

    def get(name: str, path: str) -> str:
        text = seen.timed(name, lambda: peer.get(url + path, timeout=60))
        ended.wait(chance.uniform(*PAUSE))
        return text

    def post(name: str, path: str, words: dict[str, str]) -> str:
        text = seen.timed(name, lambda: peer.post(url + path, data=words, timeout=60))
        ended.wait(chance.uniform(*PAUSE))
        return text

    while not ended.is_set():
        home = get("home", "/")
        if person.startswith("p"):
            shown, what = post("ask", "/ask", ASKED | {"token": token(home)}), "request"
        else:
            waits = re.findall(r'id="waits-(p[0-9]+)-([0-9]+)"', home)
            of, no = chance.choice(waits)
            shown, what = get("verdict", f"/verdict?kind=approve&of={of}&no={no}"), "verdict"
        done = post("send", "/send", {"token": token(shown), "what": what})
        seen.sent += 1
        if "The desk has your" not in done and "waiting" not in done:
            seen.wrong.append(f"send: {done[:2000]}")


def caller(site: Site, seen: Seen, ended: threading.Event, seed: int) -> None:
    """Somebody at a shell, whose every word is a program of its own."""
    chance = random.Random(seed)
    askers, approvers = names()
    while not ended.is_set():
        person, line = chance.choice(
            [(askers[0], "mine"), (approvers[0], "waiting"), (askers[0], "live")]
        )
        began = seen.machine.mark()
        ran = site.run(person, line)
        seen.took.append((seen.seconds(began), line))
        if ran.returncode != 0:
            seen.wrong.append(f"{line}: {ran}")
        ended.wait(chance.uniform(*PAUSE))


def at_once(site: Site, front: Front, seconds: float, machine: Machine) -> Seen:
    """All of them, for a while."""
    seen, ended = Seen(machine), threading.Event()
    everybody = [it for part in names() for it in part]
    people: list[threading.Thread] = []
    for number, person in enumerate(everybody):
        given = (front, person, seen, ended, number)
        people.append(threading.Thread(target=one, args=given))
    for number in range(AT_SSH):
        people.append(threading.Thread(target=caller, args=(site, seen, ended, 100 + number)))
    for it in people:
        it.start()
    time.sleep(seconds)
    ended.set()
    for it in people:
        it.join(timeout=120)
    return seen


def processor(process: int) -> float:
    """How many seconds a process had the processor."""
    words = Path(f"/proc/{process}/stat").read_text().rpartition(")")[2].split()
    return (int(words[11]) + int(words[12])) / os.sysconf("SC_CLK_TCK")


def slowness(process: int) -> float:
    """How much longer a process took for all that it did, since the machine gave its processors to
    others: 1 where it never waited for one."""
    rows = [it.read_text().split() for it in Path(f"/proc/{process}/task").glob("*/schedstat")]
    had, waited = (sum(int(row[it]) for row in rows) for it in (0, 1))
    return (had + waited) / had


def told(seen: Seen, asked: int, seconds: float, busy: float, slow: float) -> str:
    took = sorted(seen.took)
    late = [it for it in took if it[0] > LATE]
    return (
        f"{OPEN} open requests, {PEOPLE} people for {seconds:g} seconds: {len(took)} answers, half"
        f" of them within {took[len(took) // 2][0]:.2f} s, the slowest {took[-1]}, {len(late)} late"
        f" ({late[:5]}); {seen.sent} messages; the page had the processor for {busy:.1f} s, and was"
        f" {slow:.1f} times as slow as on a machine of its own; the desk was asked {asked} times; {len(seen.wrong)} wrong answers: {seen.wrong[:2]}"
    )


def test_a_crowd(quiet_site: Site) -> None:
    site, seconds = quiet_site, SECONDS or 6.0
    texts = opened(site, OPEN, now() - timedelta(minutes=1))
    site.start_desk()
    with fronted(site, READER):
        page = site.start_page()
        site.start("post", "--every", "1")
        everybody = [it for part in names() for it in part]
        front = Front(site, everybody, certified=everybody[:1])
        try:
            with Machine() as machine:
                seen = at_once(site, front, seconds, machine)
            busy, slow = processor(page.pid), slowness(page.pid)
            site.wait_until_posted()
        finally:
            front.stop()
    logs = [(site.folder / f"{it}.log").read_text() for it in ("desk", "desk-fetches")]
    log = [json.loads(it) for text in logs for it in text.splitlines()]
    line = told(seen, sum(it["request"].startswith("GET ") for it in log), seconds, busy, slow)
    print(line)
    assert {it["status"] for it in log} == {"200"}, line
    assert not seen.wrong, line
    kept = [body for body, state in site.kept() if state == "acked"]
    assert len(kept) == OPEN + seen.sent, line
    site.stop_desk()
    assert set(kept) == set(site.stored()) and set(texts) <= set(kept), line
    # (the gate's short form may have the machine with others, who are no fault of the relay's)
    assert max(seen.took)[0] <= (LATE if IS_WHOLE else LATE * slow), line
