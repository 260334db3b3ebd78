"""Random sites: two relays, three desks, verdicts by any relay, and rosters that change.

The relay `chat` is ours; the relay `mail` posts by itself. One desk may be served late and so lack
messages, a message of the other relay may be at some desks alone, and each desk has a roster of its
own, which it may change for another one.
"""

import hashlib
import io
import json
import os
import random
import subprocess
import time
from contextlib import redirect_stderr, redirect_stdout, suppress
from datetime import timedelta
from pathlib import Path
from typing import Any

from relays.tests.site import BASE, DESK, PATIENCE, SETTINGS, Site
from steelnewt_client.codes import Fate
from steelnewt_client.desk import Desk
from steelnewt_client.messages import BadWord, Request, Verdict, Wish
from steelnewt_client.moments import now, stamp
from steelnewt_relay import ssh
from steelnewt_relay.caller import Keyed
from steelnewt_relay.config import read_config
from steelnewt_relay.notices import Notices
from steelnewt_relay.posting import post_kept, post_one

DESKS = ("a", "b", "c")
PEOPLE = ("ann", "bob", "carol", "dave", "eve")
DUTIES = ("approve", "audit", "operate")
CEILINGS = {"one": 1, "two": 2}
OTHERS = 500  # (the other relay's numbers go on from here)
CEILING = """
[ceilings.{label}]
ask = "operate"
approve = "approve"
needs = {needs}
hosts = ["db1", "db2"]
runas = ["root"]
commands = ["/usr/bin/"]
longest = 90000
"""
Name = tuple[str, int]
Entry = dict[str, Any]


def roster(chance: random.Random, labels: list[str]) -> str:
    """Who holds what, some of it on some days alone."""
    today = now()
    days = [(-3, -1), (-1, 0), (0, 0), (0, 3), (1, 2)]

    def entry(duty: str) -> str:
        if chance.random() < 0.6:
            return f'"{duty}"'
        span = [today + timedelta(days=it) for it in chance.choice(days)]
        first, last = (f"{it:%Y%m%d}" for it in span)
        return f'{{ duty = "{duty}", from = "{first}", until = "{last}" }}'

    often = {"approve": 0.75, "audit": 0.3, "operate": 0.85}
    lines = ['relays = ["chat", "mail"]', 'hosts = ["db1", "db2"]', f"duties = {list(DUTIES)}"]
    lines += ['conflicts = [["approve", "audit"]]', "[people]"]
    for person in PEOPLE:
        held = [entry(it) for it in DUTIES if chance.random() < often[it]]
        lines.append(f"{person} = [{', '.join(held)}]")
    made = [CEILING.format(label=it, needs=CEILINGS[it]) for it in labels]
    return "\n".join(lines).replace("'", '"') + "\n" + "".join(made)


class Served:
    """A desk in memory, with a roster of its own."""

    def __init__(self, folder: Path, name: str) -> None:
        self.path, self.address = folder / f"{name}.roster", f"unix:{folder}/{name}.sock"
        self.process: subprocess.Popen[bytes] | None = None

    def serve(self, text: str) -> None:
        self.path.write_text(text)
        words = [DESK, "serve", str(self.path), str(BASE), "-", self.address]
        pipe = subprocess.PIPE
        self.process = subprocess.Popen(
            words, stdin=pipe, stdout=pipe, stderr=subprocess.DEVNULL,
            env=os.environ | {"DESK_ORDERS": "stdin"},
        )  # fmt: skip
        assert self.process.stdout and self.process.stdout.readline().startswith(b"listening")

    def end(self) -> None:
        if self.process:
            self.process.terminate()
            with self.process:
                self.process.wait()

    def take_roster(self, text: str) -> None:
        """Has the desk serve another roster."""
        self.path.write_text(text)
        digest = hashlib.sha256(text.encode()).hexdigest()
        assert self.process and self.process.stdin
        self.process.stdin.write(f"roster {digest}\n".encode())
        self.process.stdin.flush()
        until = time.monotonic() + PATIENCE
        while Desk(self.address).count()[1] != digest:
            assert time.monotonic() < until
            time.sleep(0.01)


class RandomSite(Site):
    """A site that its number makes."""

    def __init__(self, folder: Path, seed: int) -> None:
        super().__init__(folder)
        self.chance = random.Random(seed)
        self.desks = {name: Served(folder, name) for name in DESKS}
        first, _, rest = SETTINGS.format(folder=folder).partition("\n")
        listed = ", ".join(f'"{it.address}"' for it in self.desks.values())
        self.config.write_text(f"desks = [{listed}]\n{rest}")
        self.settings = read_config(str(self.config))
        self.outbox = self.settings.open_outbox()
        self.outbox.number_past(0)
        self.notices = Notices(self.outbox)

    def close(self) -> None:
        self.end_jobs()
        for desk in self.desks.values():
            desk.end()
        self.outbox.close()

    def live(self) -> None:
        """All that happens: what people say, a desk that comes late, rosters that change."""
        chance = self.chance
        text = self.roster_text()
        late = chance.choice([*DESKS, "", "", ""])
        # (the relay's own copy is of the beginning: nothing that people read goes by it)
        (self.folder / "site.roster").write_text(text)
        for name, desk in self.desks.items():
            if name != late:
                desk.serve(text if chance.random() < 0.8 else self.roster_text())
        self.speak()
        post_kept(self.outbox, self.settings.open_desk())
        if late:
            self.desks[late].serve(text)
        if late and chance.random() < 0.5:
            post_kept(self.outbox, self.settings.open_desk())
        is_for_all, text = chance.random() < 0.5, self.roster_text()
        for desk in self.desks.values():
            if chance.random() < 0.6:
                desk.take_roster(text if is_for_all else self.roster_text())

    def roster_text(self) -> str:
        return roster(self.chance, list(CEILINGS)[: self.chance.choice([1, 2, 2, 2])])

    def wish(self, label: str) -> Wish:
        """A window that is past, open, or to come."""
        chance = self.chance
        begins = now() + timedelta(minutes=chance.choice([-600, -90, -30, -30, -30, 40]))
        length = timedelta(minutes=chance.choice([60, 300]))
        window = stamp(begins), stamp(begins + length)
        return Wish.of(label, [chance.choice(["db1", "db2"])], "root", ["/usr/bin/id"], window)

    def speak(self) -> None:
        """Requests by both relays, some of whose names two ask under, and verdicts by both."""
        chance, names = self.chance, list[Name]()
        for number in range(10):
            by, wish = chance.choice(PEOPLE), self.wish(chance.choice(list(CEILINGS)))
            at = stamp(now() - timedelta(hours=11))
            if chance.random() < 0.7:
                kept = self.outbox.keep_request(by, wish, at)
                post_one(self.outbox, self.settings.open_desk(), kept)
                message = kept.request
            else:
                message = Request(by, OTHERS + number, at, wish)
                self.post(message)
            names.append((by, message.no))
            if chance.random() < 0.1:
                self.post(Request(by, message.no, at, self.wish("one")))
        for name in [it for it in names for _ in range(chance.randrange(5))]:
            self.say(*name)

    def say(self, of: str, no: int) -> None:
        chance = self.chance
        kind = chance.choice(["approve"] * 5 + ["refuse", "revoke"])
        at = now() - timedelta(minutes=chance.choice([0, 1, 20, 20, 300, 580]))
        verdict = Verdict(chance.choice(PEOPLE), kind, of, no, stamp(at))
        if chance.random() < 0.5:
            self.post(verdict)
            return
        with suppress(BadWord):  # (nobody approves what the desks refused)
            post_one(self.outbox, self.settings.open_desk(), self.outbox.keep_verdict(verdict))

    def post(self, message: Request | Verdict) -> None:
        """The other relay brings a message, in one case of ten not to each desk."""
        is_whole = self.chance.random() < 0.9
        for desk in self.desks.values():
            if desk.process and (is_whole or self.chance.random() < 0.5):
                answer = Desk(desk.address, "mail").post("mail", message.text().encode())
                assert answer.fate in (Fate.TAKEN, Fate.FINAL), answer

    def asked(self) -> Desk:
        """The desk that the relay asks: it lacks the fewest of this relay's messages, and is the
        first in the settings among equals."""
        brought = {body for body, state in self.kept() if state != "refused"}

        def lacks(desk: Desk) -> int:
            return len(brought - set(desk.get("/v1/messages").splitlines()))

        return min((Desk(it.address, "chat") for it in self.desks.values()), key=lacks)

    def names(self) -> dict[Name, Entry]:
        """What that desk tells of each name, and of what is open who may approve it now."""
        desk, at = self.asked(), stamp(now())
        found = json.loads(desk.get("/v1/requests"))["names"]
        found += json.loads(desk.get(f"/v1/open/{at}"))["names"]
        return {(it["by"], it["no"]): it for it in found}

    def ssh(self, person: str, line: str) -> str:
        """What a person reads by ssh, through the relay's classes."""
        words, out = self.words(person), io.StringIO()
        caller = Keyed(person, words[words.index("--key") + 1], self.settings.ssh)
        with redirect_stdout(out), redirect_stderr(out):
            status = ssh.answer(self.settings, caller, line)
        assert status == 0, (line, out.getvalue())
        return out.getvalue()
