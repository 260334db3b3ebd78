"""What a relay keeps after a year at a site of four hundred people: for the tests of what grows."""

import json
import random
import threading
from bisect import bisect_left
from collections.abc import Iterator
from contextlib import contextmanager
from datetime import datetime, timedelta
from http.server import BaseHTTPRequestHandler, ThreadingHTTPServer
from pathlib import Path
from socket import AF_UNIX
from typing import Any

from steelnewt_client.messages import Request, Verdict, Wish
from steelnewt_client.moments import stamp
from steelnewt_relay.notices import Notices
from steelnewt_relay.outbox import Outbox

# A year has so many messages, of so many askers, approvers and hosts.
YEAR, ASKERS, APPROVERS, HOSTS = 331_249, 300, 100, 1_000
COMMANDS = ["/usr/bin/id", "/usr/sbin/service postgresql restart"]


def requests(count: int, end: datetime) -> Iterator[tuple[Request, list[Verdict]]]:
    """Requests with their verdicts, the last of them open, in the order in which they were asked."""
    chance, numbers = random.Random(count), dict[str, int]()
    asked = count // 3
    for place in range(asked):
        at = end - timedelta(days=365) * (asked - place) / asked
        by = f"ann{chance.randrange(ASKERS)}"
        numbers[by] = numbers.get(by, 0) + 1
        length = timedelta(hours=chance.choice((1, 2, 8)))
        hosts = [f"h{chance.randrange(HOSTS)}" for _ in range(chance.choice((1, 1, 1, 4)))]
        window = stamp(at), stamp(at + length)
        wish = Wish.of("db-care", hosts, "root", [chance.choice(COMMANDS)], window)
        request = Request(by, numbers[by], stamp(at), wish)
        yield request, list(verdicts(chance, request, at))


def verdicts(chance: random.Random, request: Request, at: datetime) -> Iterator[Verdict]:
    """Most requests have two approvals; some are refused, and some are revoked."""
    kinds = ["refuse"] if chance.random() < 0.01 else ["approve", "approve"]
    if chance.random() < 0.02:
        kinds.append("revoke")
    for place, kind in enumerate(kinds, 1):
        by = f"bob{(chance.randrange(APPROVERS // 4) * 4 + place) % APPROVERS}"
        when = stamp(at + timedelta(seconds=20 * place))
        yield Verdict(by, kind, request.by, request.no, when)


def fill(outbox: Outbox, count: int, end: datetime) -> int:
    """Keeps so many messages, or a few more, all of them acknowledged and told of; how many."""
    rows, last = [], {}
    for request, said in requests(count, end):
        last[request.by] = request.no
        rows.append((request.text(), request.by, "request", request.by, request.no))
        rows += [(it.text(), it.by, it.kind, it.of, it.no) for it in said]
    outbox.base.execute("PRAGMA synchronous = off")
    notices = Notices(outbox)
    with outbox.writing():
        outbox.base.executemany(
            "INSERT INTO messages (body, by, kind, of, no, state) VALUES (?, ?, ?, ?, ?, 'acked')",
            rows,
        )
        outbox.base.executemany("INSERT INTO numbers VALUES (?, ?)", last.items())
        # (it is made for what is there, as for what an older relay kept)
        outbox.base.execute("DROP TABLE IF EXISTS on_hosts")
        outbox.base.execute(
            "INSERT INTO notices (id, message, kind, body, state, began)"
            " SELECT hex(randomblob(16)), id, iif(kind = 'request', 'asked', kind),"
            " json_object('at', body ->> '$.at', 'until', body ->> '$.until', 'by', by, 'to',"
            " json_array('bob1', 'bob2')), 'done', 0 FROM messages"
        )
        outbox.base.execute(
            "INSERT INTO notices (id, message, kind, body, state, began)"
            " SELECT hex(randomblob(16)), id, 'granted', '{}', 'done', 0 FROM messages"
            " WHERE kind = 'request' AND body ->> '$.until' < ?",
            (stamp(end),),
        )
    assert not notices.untold()
    return len(rows)


# In the place of the moment that is asked about.
AT = "@"


def entry(request: Request, said: list[Verdict], roster_needs: int = 1) -> dict[str, Any]:
    """What a desk tells of a name (docs/AUDITING.md): granted, where enough approved it."""
    given = [it for it in said if it.kind == "approve"]
    is_granted = len(given) >= roster_needs and len(given) == len(said)
    told: dict[str, Any] = {"by": request.by, "no": request.no}
    told["status"] = "granted" if is_granted else "waiting"
    told["requests"] = [json.loads(request.text())]
    told["verdicts"] = [
        {"verdict": vars(it), "counts": True} for it in said if it.kind == "approve"
    ]
    if is_granted:
        told["window"] = {"from": request.wish.begins, "until": request.wish.ends}
    else:
        told |= {"lacks": 1, "may_approve": {"at": AT, "people": ["bob1", "bob2"]}}
    return told


class Told:
    """The answers of a desk that holds all that an outbox has: no desk, but as large as one's."""

    def __init__(self, path: Path, entries: list[dict[str, Any]]) -> None:
        self.path, self.asked = path, list[str]()
        rows = [(it["requests"][0]["until"], f"{it['by']}/{it['no']}", it) for it in entries]
        rows.sort(key=lambda it: it[:2])
        self.texts = [json.dumps(it, separators=(",", ":")) for _, _, it in rows]
        self.ends = [until for until, _, _ in rows]
        self.named = {name: text for (_, name, _), text in zip(rows, self.texts, strict=True)}

    def answer(self, path: str) -> str:
        self.asked.append(path)
        kind, _, rest = path.removeprefix("/v1/").partition("/")
        if kind not in ("requests", "open"):
            return ""
        if kind == "open" or rest.startswith("after/"):
            found = self.texts[bisect_left(self.ends, rest.removeprefix("after/")) :]
        else:
            found = [self.named[rest]] if rest in self.named else []
        at = rest if kind == "open" else "20991231235959Z"
        names = ",".join(found).replace(f'"at":"{AT}"', f'"at":"{at}"')
        return f'{{"names":[{names}],"windows":[]}}\n'


@contextmanager
def telling(told: Told) -> Iterator[None]:
    """Serves these answers at a desk's socket."""

    class Handler(BaseHTTPRequestHandler):
        protocol_version = "HTTP/1.1"

        def do_GET(self) -> None:
            body = told.answer(self.path).encode("ascii")
            self.send_response(200)
            self.send_header("Content-Length", str(len(body)))
            self.end_headers()
            self.wfile.write(body)

        def address_string(self) -> str:
            return "relay"

        def log_message(self, format: str, *args: object) -> None:
            pass

    class Server(ThreadingHTTPServer):
        address_family, daemon_threads = AF_UNIX, True

        def server_bind(self) -> None:
            self.socket.bind(str(self.server_address))

    with Server(str(told.path), Handler) as server:  # type: ignore[arg-type]
        threading.Thread(target=server.serve_forever, args=(0.02,), daemon=True).start()
        try:
            yield
        finally:
            server.shutdown()
            told.path.unlink()
