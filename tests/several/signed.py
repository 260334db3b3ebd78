"""A site whose people sign: their keys, the signers, and what they ask and answer, of now."""

from __future__ import annotations

import base64
import dataclasses
import pathlib
import random
from datetime import timedelta

from cryptography.hazmat.primitives.asymmetric.ed25519 import Ed25519PrivateKey
from cryptography.hazmat.primitives.serialization import Encoding, PublicFormat

from door.tests.doors import SITE
from door.tests.test_verify import Person
from steelnewt_client.messages import Request, Verdict, Wish
from steelnewt_client.moments import now, stamp
from steelnewt_client.signed import digest
from steelnewt_door.changes import Two
from steelnewt_door.changing import Changing
from steelnewt_door.judge import Judge
from steelnewt_door.signers import Signer, Signers
from tests.several.sites import RELAYS, Post

ASKERS = [f"ask{number}" for number in range(1, 7)]
APPROVERS = [f"yes{number}" for number in range(1, 7)]
LATE = "late"  # who is enrolled while messages are on their way
HOSTS = ["db1", "db2", "db3"]
BASE = "dba ALL = (postgres) ALL\n"
ROSTER = f"""\
relays = ["chat", "mail", "web"]
hosts = ["db1", "db2", "db3"]
duties = ["approve", "ask"]
conflicts = []
[people]
{"".join(f'{it} = ["ask"]' + chr(10) for it in ASKERS)}\
{"".join(f'{it} = ["approve"]' + chr(10) for it in [*APPROVERS, LATE])}\
[ceilings.care]
ask = "ask"
approve = "approve"
needs = 1
hosts = ["db1", "db2", "db3"]
runas = ["root"]
commands = ["/usr/bin/id", "/usr/bin/true"]
longest = 14400
"""


@dataclasses.dataclass(frozen=True)
class Grant:
    """A request and its approval, each as a line."""

    request: Post
    approval: Post


class People:
    """The people of the site, with their keys. What these say is drawn by chance."""

    def __init__(self, seed: int) -> None:
        self.chance, self.no = random.Random(seed), 0
        names = [*ASKERS, *APPROVERS, LATE, "thief"]
        self.people = {name: Person(name, Ed25519PrivateKey.generate()) for name in names}

    def public(self, name: str) -> tuple[str, str]:
        key = self.people[name].key.public_key()
        kind, text = key.public_bytes(Encoding.OpenSSH, PublicFormat.OpenSSH).split()
        return kind.decode(), text.decode()

    def enrol(self, folder: pathlib.Path, names: list[str]) -> None:
        """Has these people sign from now on, by the folder of one door."""
        changing = Changing(str(folder), Two(Judge(SITE), Signers(str(folder))))
        at = stamp(now() - timedelta(hours=1)) if not changing.now() else changing.next_moment()
        new = [Signer(name, *self.public(name), at) for name in names]
        signers, revoked = changing.held()
        changing.write_draft([*signers, *new], revoked, "{}")
        changing.put()
        changing.close()

    def relay(self) -> str:
        return self.chance.choice(RELAYS)

    def request(self) -> Request:
        self.no += 1
        begins, ends = now(), now() + timedelta(hours=2)
        command = self.chance.choice(["/usr/bin/id", "/usr/bin/true"])
        window = stamp(begins), stamp(ends)
        wish = Wish.of("care", [self.chance.choice(HOSTS)], "root", [command], window)
        return Request(self.chance.choice(ASKERS), self.no, window[0], wish)

    def post(self, who: str, text: str, about: str = "") -> Post:
        line = self.people[who].sign(text, digest(about) if about else "").line()
        return Post(self.relay(), line.encode())

    def verdict(self, kind: str, of: Request, by: str = "", about: str = "") -> Post:
        by = by or self.chance.choice(APPROVERS)
        return self.post(by, Verdict(by, kind, of.by, of.no, stamp(now())).text(), about)

    def grant(self, by: str = "") -> tuple[Grant, Request]:
        request = self.request()
        asked = self.post(request.by, request.text())
        return Grant(asked, self.verdict("approve", request, by, request.text())), request

    def traffic(self, count: int) -> list[Post]:
        """So many grants, of which one in four is revoked; one in ten lines comes twice, and what
        was said within a few lines may come in any order."""
        found: list[Post] = []
        for _ in range(count):
            grant, request = self.grant()
            found += [grant.request, grant.approval]
            if self.chance.random() < 0.25:
                found.append(self.verdict("revoke", request))
            if self.chance.random() < 0.2:
                found.append(Post(self.relay(), self.chance.choice(found[-20:]).body))
        places = [at + self.chance.uniform(0, 12) for at in range(len(found))]
        return [post for _, post in sorted(zip(places, found), key=lambda it: it[0])]

    def revocations(self, count: int) -> list[Post]:
        """Messages that need nothing before them."""
        found = []
        for _ in range(count):
            self.no += 1
            by = self.chance.choice(APPROVERS)
            text = Verdict(by, "revoke", ASKERS[0], self.no, stamp(now())).text()
            found.append(self.post(by, text))
        return found

    def forgeries(self, honest: list[Post]) -> dict[bytes, str]:
        """What a thief publishes with a relay's password, and the code of each."""
        found: dict[bytes, str] = {}
        grant, request = self.grant()
        message = grant.request.body.partition(b"\t")[0]
        found[message] = "P20 NotSigned"
        verdict = Verdict(APPROVERS[0], "approve", request.by, request.no, stamp(now())).text()
        found[verdict.encode()] = "P20 NotSigned"
        revoke = Verdict(APPROVERS[0], "revoke", request.by, request.no, stamp(now())).text()
        found[revoke.encode()] = "P20 NotSigned"
        for text in (verdict, revoke):
            about = digest(request.text()) if text == verdict else ""
            line = self.people["thief"].sign(text, about).line()
            found[line.encode()] = "A20 BadSignature"
        signature = honest[0].body.split(b"\t")[1]
        found[b"\t".join([revoke.encode(), signature])] = "A20 BadSignature"
        raw = base64.b64encode(b"SSHSIG" + bytes(60))
        found[b"\t".join([revoke.encode(), b"ssh:" + raw])] = "A20 BadSignature"
        return found


def message_of(post: Post) -> bytes:
    return post.body.partition(b"\t")[0]
