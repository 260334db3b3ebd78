#!/usr/bin/env python3
"""What three pages say of an approval that comes first, of a store that is cut, and of a second
desk that is fed through a front, beside a real desk: each was a trap for whoever followed the page.

`python3 -m tests.documents.check_traps WORDS..` runs another program than build/desk.
"""

import json
import os
import re
import ssl
import subprocess
import sys
import tempfile
import urllib.request
from collections.abc import Iterator

from tests.common import desk
from tests.common.front import certify
from tests.common.replies import Replies, reply

Row = tuple[str, bool, str]
# asked, approved and over in one week; and asked for in the next, under the same number
FIRST = desk.request(1, cmnds=["/usr/bin/id"])
APPROVED = desk.approval(1)
NEXT_WEEK = {"at": "20260112060000Z", "from": "20260112090000Z", "until": "20260112110000Z"}
AGAIN = desk.request(1, cmnds=["/usr/local/sbin/"], hosts=["db2"], **NEXT_WEEK)


def page(name: str) -> str:
    """A page's words, in one line."""
    return " ".join(desk.read("docs", *name.split("/")).split())


def told(folder: str, messages: list[str], name: str) -> str:
    """What a new desk says of a name when it has these messages."""
    with desk.Server(program=desk.named(), roster=desk.ROSTER, base=desk.BASE) as server:
        for line in messages:
            target = f"http://{server.address}/v1/relays/chat/messages"
            urllib.request.urlopen(target, line.encode(), timeout=60).read()
        return status_of(server, name)


def status_of(server: desk.Server, name: str) -> str:
    with urllib.request.urlopen(
        f"http://{server.address}/v1/requests/{name}", timeout=60
    ) as reply:
        document = json.loads(reply.read())
    return str(document["names"][0]["status"] if document["names"] else "none")


def approvals_that_come_first(folder: str) -> Iterator[Row]:
    """bob approves a number that nobody has asked under; then ann asks what she likes."""
    found = told(folder, [APPROVED, AGAIN], "ann/1")
    yield "an approval counts for what comes later", found == "granted", found
    text = page("MESSAGES.md")
    trap = "no effect; nor has one whose request has not come"
    yield "MESSAGES.md does not deny it", trap not in text, trap
    said = "counts for whatever request comes under that name"
    yield "MESSAGES.md says it", said in text, said


def stores_that_are_cut(folder: str) -> Iterator[Row]:
    """A store without what is over, where the number is used again and the old approval comes
    again (as a relay posts again what it kept)."""
    whole = told(folder, [FIRST, APPROVED, AGAIN, APPROVED], "ann/1")
    yield "the whole store gives nothing", whole == "disputed", whole
    cut = told(folder, [AGAIN, APPROVED], "ann/1")
    yield "a cut one grants what nobody approved", cut == "granted", cut
    text = page("change/SCALE.md")
    trap = re.search(r"begin a new store[^.]*windows are not over; today that is", text)
    yield "SCALE.md does not tell to cut it", trap is None, trap[0] if trap else ""
    for said in ("Requests stay for ever", "grant what nobody approved"):
        yield f"SCALE.md says: {said}", said in text, ""


def fronts_that_forge(folder: str) -> Iterator[Row]:
    """A second desk is fed through a front whose key somebody has, who answers in its place."""
    for words in (("init",), ("server", "localhost"), ("auditor", "feed")):
        certify(folder, *words)
    tls = ssl.SSLContext(ssl.PROTOCOL_TLS_SERVER)
    tls.load_cert_chain(*(os.path.join(folder, it) for it in ("server.pem", "server.key")))
    forged = "".join(f"{it}\n" for it in sorted((FIRST, APPROVED))).encode()
    with (
        Replies(lambda _: reply(forged), tls) as front,
        desk.Server(program=desk.named(), roster=desk.ROSTER, base=desk.BASE) as second,
    ):
        feeds = ["sh", os.path.join(desk.EXAMPLES, "feed-desk.sh")]
        feeds += [f"https://localhost:{front.address.rpartition(':')[2]}", "chat"]
        here = {**os.environ, "ADDR": second.address}
        fed = subprocess.run(
            feeds, cwd=folder, env=here, capture_output=True, text=True, check=False
        )
        found = status_of(second, "ann/1")
    yield "what it makes up is posted", "2 posted, 0 refused" in fed.stdout, str(fed)
    yield "and gives a right", found == "granted", found
    said = "and any message at a second desk that is fed through it"
    yield "SECURITY.md says so", said in page("SECURITY.md"), said


PARTS = (approvals_that_come_first, stores_that_are_cut, fronts_that_forge)


def main() -> None:
    checks, wrong = 0, 0
    with tempfile.TemporaryDirectory() as folder:
        for part in PARTS:
            for what, is_right, said in part(folder):
                checks += 1
                if not is_right:
                    wrong += 1
                    print(f"{what}: otherwise. {said}")
    print(f"traps of the pages: {checks} checks, {wrong} wrong")
    sys.exit(1 if wrong else 0)


if __name__ == "__main__":
    main()
