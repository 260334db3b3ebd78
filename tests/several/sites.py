"""A random site: a roster, a base, and messages of which some repeat and some are refused."""

from __future__ import annotations

import dataclasses
import datetime
import json
import random
from collections.abc import Callable

RELAYS = ["chat", "mail", "web"]
GHOST = "ghost"  # an account at the broker whose relay the roster lacks
MIDNIGHT = datetime.datetime(2026, 1, 5, tzinfo=datetime.timezone.utc)
MINUTES = 20 * 24 * 60  # the days that the site's windows lie in
COMMANDS = ["/bin/ls", "/usr/bin/id", "/usr/bin/systemctl restart postgresql", "/usr/sbin/"]
BASE = "dba ALL = (postgres) ALL\np1 ALL = (root) /bin/ls\n"
Json = dict[str, object]


def stamp(minutes: float) -> str:
    return (MIDNIGHT + datetime.timedelta(minutes=minutes)).strftime("%Y%m%d%H%M%SZ")


def canonical(message: Json) -> bytes:
    return json.dumps(message, separators=(",", ":"), sort_keys=True).encode("ascii")


@dataclasses.dataclass(frozen=True)
class Post:
    """A message as a relay brings it."""

    relay: str
    body: bytes


class Site:
    """People with duties, hosts and ceilings; `messages` draws what they ask and answer."""

    def __init__(self, seed: int) -> None:
        self._chance = random.Random(seed)
        self.hosts = sorted(f"h{n}" for n in range(1, self._chance.randint(8, 13)))
        people = self._chance.randint(12, 30)
        self._askers = [f"p{n}" for n in range(1, people // 2)]
        self._approvers = [f"p{n}" for n in range(people // 2, people)]
        self._needs = {f"care{n}": self._chance.randint(1, 2) for n in range(1, 4)}
        self._next_no = 0
        self._asked: list[tuple[Json, int]] = []  # each with the minute at which it begins

    def roster(self) -> str:
        lines = [f"relays = {json.dumps(RELAYS)}", f"hosts = {json.dumps(self.hosts)}"]
        lines += ['duties = ["approve", "ask", "audit"]', 'conflicts = [["approve", "audit"]]']
        lines += ["[people]", 'auditor = ["audit"]']
        lines += [f'{person} = ["ask"]' for person in self._askers]
        for person in self._approvers:
            more = ', "audit"' if self._chance.random() < 0.1 else ""
            lines.append(f'{person} = ["approve"{more}]')
        for ceiling, needs in self._needs.items():
            lines += [f"[ceilings.{ceiling}]", 'ask = "ask"', 'approve = "approve"']
            lines += [f"needs = {needs}", f"hosts = {json.dumps(self.hosts[:-1])}"]
            lines += ['runas = ["postgres", "root"]', f"commands = {json.dumps(COMMANDS)}"]
            lines += ["longest = 14400"]
        return "\n".join(lines) + "\n"

    def messages(self, count: int) -> list[Post]:
        """So many, shuffled: one in twelve repeats another, and as many are refused."""
        made: list[Post] = []
        for _ in range(count):
            luck = self._chance.random()
            if luck < 0.08 and made:
                again = self._chance.choice(made)
                relay = again.relay if again.relay == GHOST else self._relay()
                made.append(Post(relay, again.body))
            elif luck < 0.16:
                made.append(self._refused())
            else:
                made.append(Post(self._relay(), canonical(self._message())))
        self._chance.shuffle(made)
        return made

    def accepted(self, count: int) -> list[Post]:
        """So many that no desk refuses, all different but by chance."""
        return [Post(self._relay(), canonical(self._message())) for _ in range(count)]

    def moments(self, count: int) -> list[str]:
        return [stamp(self._chance.randint(0, MINUTES)) for _ in range(count)]

    def _relay(self) -> str:
        return self._chance.choice(RELAYS)

    def _message(self) -> Json:
        if self._chance.random() < 0.4 or not self._asked:
            return self._request()
        return self._verdict()

    def _request(self) -> Json:
        begin, length = self._chance.randint(60, MINUTES), self._chance.randint(10, 240)
        # one in fifty takes the number of another: both are disputed then
        if self._asked and self._chance.random() < 0.02:
            other, _ = self._chance.choice(self._asked)
            by, no = other["by"], other["no"]
        else:
            self._next_no += 1
            by, no = self._chance.choice(self._askers), self._next_no
        commands = self._chance.sample(COMMANDS, self._chance.randint(1, 2))
        hosts = self._chance.sample(self.hosts[:-1], self._chance.randint(1, 2))
        request: Json = {
            "at": stamp(begin - self._chance.randint(0, 60)), "by": by,
            "ceiling": self._chance.choice(sorted(self._needs)), "cmnds": sorted(commands),
            "from": stamp(begin), "hosts": sorted(hosts), "kind": "request", "no": no,
            "runas": self._chance.choice(["postgres", "root"]), "until": stamp(begin + length),
        }
        self._asked.append((request, begin))
        return request

    def _verdict(self) -> Json:
        # mostly of a late request, so that many are answered more than once
        request, begin = self._asked[-self._chance.randint(1, min(len(self._asked), 200))]
        kind = self._chance.choice(["approve"] * 12 + ["refuse", "revoke"])
        by = self._chance.choice(self._approvers + [str(request["by"])])
        # one in thirty is about a request that never comes
        no = 900_000_000 + self._next_no if self._chance.random() < 0.03 else request["no"]
        at = stamp(begin + self._chance.randint(-60, 20))
        return {"at": at, "by": by, "kind": kind, "no": no, "of": request["by"]}

    def _refused(self) -> Post:
        if self._chance.random() < 0.1:
            return Post(GHOST, canonical(self._message()))
        spoil: Callable[[Json], bytes] = self._chance.choice(SPOILT)
        self._next_no += 1
        kept = list(self._asked)
        request = self._request() | {"no": self._next_no}
        self._asked = kept
        return Post(self._relay(), spoil(request))


def changed(**values: object) -> Callable[[Json], bytes]:
    return lambda request: canonical(request | values)


SPOILT: list[Callable[[Json], bytes]] = [
    lambda request: json.dumps(request).encode("ascii"),  # with blanks
    lambda request: canonical(request)[:-1],
    lambda request: b"\xff\xfe" + str(request["no"]).encode("ascii"),
    lambda request: canonical({"no": request["no"]}),
    lambda request: canonical(request | {"cmnds": ["/bin/ls " + "a" * 17_000]}),
    changed(by="nobody"),
    changed(ceiling="none"),
    changed(by="auditor"),
    changed(hosts=["h99"]),
    changed(runas="www-data"),
    changed(cmnds=["ALL"]),
    changed(until="20991231235959Z"),
    changed(until="19700101000000Z"),
]
