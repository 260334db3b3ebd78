"""A site with everything that a page can show, for the tests of sizes, colours and pictures: what
is empty is never wide, and never dark."""

import subprocess
from dataclasses import replace
from datetime import datetime, timedelta
from pathlib import Path

from relays.tests.site import BASE, DESK, Site
from steelnewt_client.messages import Verdict, Wish
from steelnewt_client.moments import now, stamp
from steelnewt_relay.config import read_config
from steelnewt_relay.outbox import Kept, Outbox
from steelnewt_relay.reasons import Reason

HOSTS = tuple(f"prod-payments-{number:02}" for number in range(1, 17))
COMMANDS = tuple(
    f"/usr/local/sbin/payments-{number:02} --drain --wait-for-connections" for number in range(16)
)
OPEN = 60
LONG = (
    "Payments API returns 502 since 02:41; on-call is with the vendor, and we drain, restart"
    " and rotate the keys on every node of the fleet (runbook PAY-12). "
)
WHY = (LONG * 4)[:500]
UNTIMED = "", ""  # (the windows are filled in as each is asked)
ONE_HOST = Wish.of("db-care", ("db1",), "root", ("/usr/bin/id",), UNTIMED)
ALL_HOSTS = Wish.of("payments-fleet", HOSTS, "root", COMMANDS, UNTIMED)
FLEET = """
[ceilings.payments-fleet]
ask = "operate-db"
approve = "approve-db"
needs = 1
hosts = [{hosts}]
runas = ["root"]
commands = ["ALL"]
longest = 14400
"""


class Everything:
    """The site, and the numbers of ann's requests by what they are."""

    def __init__(self, folder: Path) -> None:
        self.site = Site(folder)
        roster = folder / "site.roster"
        listed = ", ".join(f'"{it}"' for it in HOSTS)
        text = roster.read_text().replace('"web1"]', f'"web1", {listed}]', 1)
        roster.write_text(text + FLEET.format(hosts=listed))
        self.at = now()
        self.outbox: Outbox = read_config(str(self.site.config)).open_outbox()
        self.outbox.base.execute("PRAGMA synchronous = off")
        self.numbers = self.filled()
        self.deliver(roster)
        self.outbox.close()
        self.site.start_desk()

    def deliver(self, roster: Path) -> None:
        """Brings all of it to the desk, and notes each answer."""
        kept = self.outbox.unposted()
        words = [DESK, "deliver", str(roster), str(BASE), str(self.site.store), "chat"]
        lines = "".join(f"{it.message.text()}\n" for it in kept)
        # (one of them is refused, and so it ends with 2)
        ran = subprocess.run(words, input=lines, capture_output=True, text=True, check=False)
        for each, answer in zip(kept, ran.stdout.splitlines(), strict=True):
            is_taken = answer == "ack"
            state, said = ("acked", "") if is_taken else ("refused", answer)
            self.outbox.answered(each.id, state, said)

    def asked(
        self,
        since: timedelta,
        length: timedelta = timedelta(hours=1),
        by: str = "ann",
        reason: Reason = Reason("replica lags behind", "OPS-7"),
        wish: Wish = ONE_HOST,
    ) -> Kept:
        """A request whose window began so long ago."""
        begins = self.at - since
        wish = replace(wish, begins=stamp(begins), ends=stamp(begins + length))
        return self.outbox.keep_request(by, wish, stamp(min(begins, self.at)), reason=reason)

    def said(self, person: str, kind: str, kept: Kept, at: datetime, why: str = "") -> None:
        verdict = Verdict(person, kind, kept.request.by, kept.request.no, stamp(at))
        self.outbox.keep_verdict(verdict)
        message = self.outbox.find("body = ?", verdict.text())[0].id
        if why:
            self.outbox.base.execute("INSERT INTO reasons VALUES (?, ?, '')", (message, why))

    def filled(self) -> dict[str, int]:
        hour, minute = timedelta(hours=1), timedelta(minutes=1)
        found = {
            "wide": self.asked(minute, 4 * hour, reason=Reason(WHY, "OPS-4711"), wish=ALL_HOSTS),
            "short": self.asked(40 * minute),
            "refused": self.asked(minute, wish=replace(ONE_HOST, hosts=("web1",))),
            "lapsed": self.asked(3 * hour),
        }
        emergency = replace(ONE_HOST, ceiling="db-emergency", commands=("ALL",))
        self.asked(5 * minute, 15 * minute, "carol", wish=emergency)
        for name, since, wish in (
            ("live", 10 * minute, replace(ONE_HOST, hosts=("db1", "db2"))),
            ("live-wide", 9 * minute, ALL_HOSTS),
            ("coming", -hour, replace(ONE_HOST, runas="postgres")),
            ("over", 4 * hour, ONE_HOST),
        ):
            found[name] = kept = self.asked(since, wish=wish)
            self.said("carol", "approve", kept, self.at - max(since, minute) + minute / 2)
        found["objected"] = kept = self.asked(8 * minute)
        self.said("carol", "refuse", kept, self.at - minute, "not now, see OPS-9")
        for number in range(OPEN - 3):
            self.asked(2 * minute, hour + number * minute, "carol" if number % 3 else "ann")
        return {name: it.request.no for name, it in found.items()}
