"""Asking a desk."""

from __future__ import annotations

import contextlib
import email.utils
import http.client
import queue
import re
import ssl
import threading
import time
import urllib.parse
from collections.abc import Callable, Sequence
from typing import NamedTuple, TypeVar, Union

from steelnewt_host.faults import Fault
from steelnewt_host.settings import Settings
from steelnewt_host.telling import say

PATIENCE = 60  # the seconds that the desks have for their answers
SOON = 10  # and once one of them has answered
AT_ONCE = 8  # so many desks are asked at a time: the unit may have 16 tasks
MOST = 16 * 1024 * 1024  # the bytes that a policy may have

Answered = TypeVar("Answered")


class Reply(NamedTuple):
    """What a desk answered: its body whole where the status is 200, else its first line."""

    status: int
    text: bytes
    date: str


def connection(settings: Settings, desk: str) -> tuple[http.client.HTTPConnection, str]:
    """The desk's connection, and what stands before each of its routes."""
    try:
        found = urllib.parse.urlsplit(desk)
        name, port = found.hostname, found.port
    except ValueError:  # (a port that is none)
        name, port = None, None
    if not name or port == 0 or found.scheme not in ("http", "https"):
        raise Fault(f"{desk} is no desk's address: http://.. or https://..")
    prefix = found.path.rstrip("/")
    if found.scheme == "http":
        return http.client.HTTPConnection(name, port, timeout=PATIENCE), prefix
    context = ssl.create_default_context(cafile=settings.ca or None)
    if settings.cert:
        context.load_cert_chain(settings.cert, settings.key or None)
    made = http.client.HTTPSConnection(name, port, timeout=PATIENCE, context=context)
    return made, prefix


def whole(reply: http.client.HTTPResponse, most: int) -> bytes:
    """The body of a 200, where nothing is missing, folded or said twice."""

    def one(name: str) -> str:
        values = reply.headers.get_all(name) or []
        return str(values[0]).strip() if len(values) == 1 else ""

    if any(reply.headers.get_all(it) for it in ("Transfer-Encoding", "Content-Encoding")):
        raise Fault("its 200 is in an encoding, and not as a desk sends it")
    if not re.fullmatch("[0-9]{1,9}", one("Content-Length")):
        raise Fault("its 200 has no Content-Length, so nobody sees whether it came whole")
    if not re.fullmatch("text/plain(; *charset=(utf-8|us-ascii))?", one("Content-Type").lower()):
        raise Fault(f"its 200 is no text/plain: {reply.headers.get('Content-Type')}")
    if int(one("Content-Length")) > most:
        raise Fault(f"its 200 is longer than {most} bytes")
    text = reply.read()
    if len(text) != int(one("Content-Length")):
        raise Fault("its 200 was cut short")
    return text


def ask(settings: Settings, desk: str, route: str, most: int = MOST) -> Reply:
    """One GET of a desk, on a connection of its own."""
    peer, prefix = connection(settings, desk)
    try:
        with contextlib.closing(peer):
            peer.request("GET", prefix + route, headers={"Connection": "close"})
            reply = peer.getresponse()
            date = reply.headers.get("Date", "")
            if reply.status == 200:
                return Reply(200, whole(reply, most), date)
            return Reply(reply.status, reply.read(200).partition(b"\n")[0], date)
    except http.client.IncompleteRead as why:
        raise Fault("its 200 was cut short") from why
    except (OSError, http.client.HTTPException, ValueError) as why:
        raise Fault(f"{why or type(why).__name__}{clock_hint(str(why))}") from why


def side_by_side(
    desks: Sequence[str], ask_one: Callable[[str], Answered]
) -> dict[str, Union[Answered, Fault]]:
    """What each desk answers, or why it gives nothing. All are asked at once: whoever hangs, or
    sends a byte now and then, costs its time once. Where one has answered, the others have no
    longer than `SOON`."""
    waiting: queue.Queue[str] = queue.Queue()
    done: queue.Queue[tuple[str, Union[Answered, Fault]]] = queue.Queue()
    for desk in desks:
        waiting.put(desk)

    def ask_some() -> None:
        with contextlib.suppress(queue.Empty):
            while True:
                desk = waiting.get_nowait()
                try:
                    done.put((desk, ask_one(desk)))
                except Fault as why:
                    done.put((desk, why))
                except Exception as why:  # (what one desk sends ends the asking of no other)
                    done.put((desk, Fault(f"its answer cannot be read: {why!r}")))

    for _ in range(min(len(desks), AT_ONCE)):
        threading.Thread(target=ask_some, daemon=True).start()
    return gathered(desks, done)


def gathered(
    desks: Sequence[str], done: queue.Queue[tuple[str, Union[Answered, Fault]]]
) -> dict[str, Union[Answered, Fault]]:
    """The answers as they come, until the time is over."""
    found: dict[str, Union[Answered, Fault]] = {}
    began = time.monotonic()
    while len(found) < len(desks):
        has_one = any(not isinstance(it, Fault) for it in found.values())
        patience = SOON if has_one else PATIENCE
        try:
            desk, told = done.get(timeout=max(began + patience - time.monotonic(), 0))
        except queue.Empty:
            late = Fault(f"no whole answer in {patience} seconds")
            return {desk: found.get(desk, late) for desk in desks}
        found[desk] = told
    return {desk: found[desk] for desk in desks}


def clock_hint(why: str) -> str:
    """What a fault of TLS asks of whoever reads the log."""
    if not re.search("expired|not yet valid", why):
        return ""
    here = time.strftime("%Y-%m-%dT%H:%M:%SZ", time.gmtime())
    return f"; a certificate is out of its dates, or a clock is wrong: this host's says {here}"


def needed(host: str) -> str:
    """What a front asks of a certificate."""
    return f"it has to be that of the host {host}, and in its dates by the front's clock"


def refusal(reply: Reply, host: str) -> Fault:
    """A reply that is none with a body to take."""
    said = reply.text.decode("ascii", "replace")
    hint = ""
    if reply.status == 403:
        hint = f"; the front refuses this certificate: {needed(host)}"
    elif said.startswith("P2 "):
        hint = f"; the desk's roster has no host {host}"
    elif 200 < reply.status < 400:
        hint = "; only a 200 has a file"
    return Fault(f"it answered {reply.status} {said[:60].strip()}{hint}")


def compare_clocks(desk: str, date: str) -> None:
    """The front's clock beside this host's: windows are tested by the host's. The desk alone sends
    no Date."""
    try:
        there = email.utils.parsedate_to_datetime(date).timestamp()
    except (TypeError, ValueError, OverflowError):
        return
    apart = round(time.time() - there)
    if abs(apart) > 300:
        say(f"this host's clock is {apart} seconds from that of {desk}: grants go by it, so set it")
