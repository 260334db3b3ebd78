"""The program `desk-relay`: which of its parts its words name."""

import argparse
import io
import json
import logging
import os
import signal
import sqlite3
import sys
import threading
from collections.abc import Iterable, Iterator, Sequence
from datetime import UTC, datetime
from itertools import islice

from steelnewt_client.messages import BadWord, Verdict, checked
from steelnewt_client.moments import now, stamp
from steelnewt_relay import ssh
from steelnewt_relay.archive import Archive, keep_tidy
from steelnewt_relay.caller import Caller, Keyed, certified
from steelnewt_relay.calls import open_calls
from steelnewt_relay.config import BadConfig, Config, read_config
from steelnewt_relay.events import Finder, Manner
from steelnewt_relay.forking import forked
from steelnewt_relay.keys import BadKey
from steelnewt_relay.lists import MOST_READ
from steelnewt_relay.notices import Notices, keep_looking, keep_telling, locked
from steelnewt_relay.outbox import Kept, Outbox
from steelnewt_relay.owing import Lag
from steelnewt_relay.posting import keep_posting
from steelnewt_relay.sent import BadOutbox, bodies, numbered
from steelnewt_relay.standing import Knowledge
from steelnewt_relay.ways import log_to_journal

CONFIG = "/etc/desk/relay.toml"


def parser() -> argparse.ArgumentParser:
    found = argparse.ArgumentParser(
        "desk-relay", description="A relay of the privileged access desk."
    )
    found.add_argument("--config", default=CONFIG, help=f"the settings (default {CONFIG})")
    found.add_argument("--person", help="who is calling by ssh; the words are SSH_ORIGINAL_COMMAND")
    way = found.add_mutually_exclusive_group()
    way.add_argument("--key", metavar="DIGEST", help="by which key, as desk-relay-person writes it")
    way.add_argument("--certificate", action="store_true", help="by a certificate that sshd took")
    jobs = found.add_subparsers(dest="job", metavar="JOB")
    post = jobs.add_parser("post", help="post what is kept, until SIGTERM")
    post.add_argument("--every", type=float, default=2.0, help="seconds between two rounds")
    notify = jobs.add_parser("notify", help="tell people what happened, until SIGTERM")
    notify.add_argument("--every", type=float, default=5.0, help="seconds between two rounds")
    jobs.add_parser("page", help="serve the page, until SIGTERM")
    again = jobs.add_parser("post-again", help="post again all that was acknowledged")
    said = "as `check` names it: one that lost its store, where the others have theirs"
    again.add_argument("desks", metavar="DESK", nargs="*", help=said)
    jobs.add_parser("check", help="say which desk lacks how many messages, and since when")
    past = jobs.add_parser("number-past", help="give no number up to this one, to nobody")
    past.add_argument("number", metavar="NUMBER", type=int)
    sent = jobs.add_parser("sent", help="print the outbox's messages, whoever may have written it")
    said = "only those behind this number, each with its number and state"
    sent.add_argument("--after", type=int, metavar="NUMBER", help=said)
    jobs.add_parser("reasons", help="print why people asked and decided, and by which keys")
    return found


# How long a call may take with its questions, and how many may be open: a person's, and all. (Each
# takes some 25 MB, beside the units and their bounds.)
MOST_SECONDS, MOST_OF_ONE, MOST_CALLS = 900, 8, 64


class Crowded(ValueError):
    """There is no room for another call."""


def check_room(person: str) -> None:
    """Refuses a call beside too many that are open."""
    words = sys.argv[1:]
    found = open_calls(words[: words.index("--person")] if "--person" in words else [])
    if found[person] > MOST_OF_ONE:
        raise Crowded(f"{person} has {MOST_OF_ONE} calls open: end one of them")
    if found.total() > MOST_CALLS:
        raise Crowded(f"{MOST_CALLS} calls are open: ask again in a while")


OLD_LINE = (
    "its line in authorized_keys is of an older version, and names no key: as root, write"
    " desk-relay-person renew (for certificates: --certificate behind the name)"
)


def caller_of(config: Config, said: argparse.Namespace) -> Caller:
    """Who is calling, by what their line says."""
    person = checked("person", said.person)
    if said.certificate:
        return certified(person, config.ssh)
    if said.key is None:
        raise BadKey(OLD_LINE)
    return Keyed(person, said.key, config.ssh)


def serve_person(config: Config, caller: Caller) -> int:
    """One call by ssh. The client's locale has no say in how the answer is written, or read."""
    for stream in (sys.stdin, sys.stdout, sys.stderr):
        if isinstance(stream, io.TextIOWrapper):
            stream.reconfigure(encoding="utf-8", errors="backslashreplace")
    log_to_journal()
    check_room(caller.person)
    signal.signal(signal.SIGALRM, ssh.too_late)
    signal.alarm(MOST_SECONDS)
    return ssh.answer(config, caller, os.environ.get("SSH_ORIGINAL_COMMAND", ""))


def ended_by_signal() -> threading.Event:
    ended = threading.Event()
    for number in (signal.SIGTERM, signal.SIGINT):
        signal.signal(number, lambda *_: ended.set())
    return ended


def post(config: Config, every: float) -> int:
    ended = ended_by_signal()
    tidy = (config.open_outbox, config.days, ended)
    threading.Thread(target=keep_tidy, args=tidy, daemon=True).start()
    keep_posting(config.open_outbox, config.open_desk(), every, ended)
    return 0


def notify(config: Config, every: float) -> int:
    """Tells people, where the settings say by what: one process looks at what happened and tells
    what is urgent, and another one all else."""
    if (told := config.notify) is None:
        print("desk-relay: nobody is told anything: the settings have no [notify]", file=sys.stderr)
        return 0
    ended, program = ended_by_signal(), (told.program, told.seconds)
    lock = locked(f"{config.outbox}.notify")
    other = forked(lambda: keep_telling(Notices(config.open_outbox()), program, every, ended))
    outbox, desk, manner = config.open_outbox(), config.open_desk(), Manner.of(config)

    def finder() -> Finder:
        if other.has_ended():
            raise OSError("the process that tells what is not urgent has ended")
        return Finder(Knowledge(outbox, desk, config.read_roster(), now()), manner)

    try:
        keep_looking(Notices(outbox), finder, program, every, ended)
    finally:
        other.end()
        os.close(lock)
    return 0


def post_again(config: Config, names: Sequence[str]) -> int:
    known = [each.label for each in config.open_desk().each]
    if other := [name for name in names if name not in known]:
        raise BadConfig(f"no desk is called {other[0]}: {', '.join(known)}")
    outbox = config.open_outbox()
    outbox.owed.know(known)
    count = outbox.post_again(names) + Archive(outbox).bring_back()
    return print_lines([f"{count} messages are posted again"])


def check(config: Config) -> int:
    """Says what each desk lacks; 1 where one lacks anything."""
    lags = {it.desk: it for it in config.open_outbox().owed.lags()}
    for each in config.open_desk().each:
        print(f"{each.label}: {told(lags[each.label]) if each.label in lags else 'lacks nothing'}")
    return 1 if lags else 0


def told(lag: Lag) -> str:
    """What a desk lacks."""
    text = f"lacks {lag.count} messages, one since {moment(lag.since)}"
    text += f", and refuses {lag.refused} of them that another has" if lag.refused else ""
    return f"{text}: {lag.answer}" if lag.answer else text


def moment(seconds: int) -> str:
    return stamp(datetime.fromtimestamp(seconds, UTC))


def reason_lines(outbox: Outbox) -> Iterator[str]:
    """Each message of which more is known here than the desk has."""
    for some in batched(outbox.with_reasons()):
        ways = outbox.ways.of([it.id for it in some])
        yield from (reason_line(it, ways.get(it.id)) for it in some)


def batched(found: Iterable[Kept]) -> Iterator[list[Kept]]:
    """Some at a time."""
    rest = iter(found)
    while some := list(islice(rest, MOST_READ)):
        yield some


def reason_line(kept: Kept, way: dict[str, str] | None) -> str:
    """A request's name or a verdict, why somebody asked or gave it, and by which key it came: a
    line for the evidence."""
    name: dict[str, object] = {}
    if isinstance(kept.message, Verdict):
        name |= vars(kept.verdict)
    else:
        request = kept.request
        name |= {"who": request.by, "no": request.no, "at": request.at}
        name["ceiling"] = request.wish.ceiling
    state = {"state": kept.state, "answer": kept.answer or None}
    return json.dumps(name | kept.reason.data() | state | {"came_by": way})


def print_lines(lines: Iterable[str]) -> int:
    for line in lines:
        print(line)
    return 0


def run_job(config: Config, job: str, said: argparse.Namespace) -> int:
    """One of the relay's own jobs."""
    if job == "post":
        return post(config, said.every)
    if job == "notify":
        return notify(config, said.every)
    if job == "post-again":
        return post_again(config, said.desks)
    if job == "check":
        return check(config)
    if job == "number-past":
        config.open_outbox().number_past(said.number)
        return print_lines([f"numbers go on behind {said.number}"])
    if job == "sent":
        after: int | None = said.after
        if after is not None:
            return print_lines(numbered(config.outbox, after))
        return print_lines(bodies(config.outbox))
    if job == "reasons":
        return print_lines(reason_lines(config.open_outbox()))
    # (Flask takes a moment to load, and a call by ssh has no use for it)
    from steelnewt_relay.page import serve

    serve(config)
    return 0


def forget_locale() -> None:
    """Drops what a client of sshd's may set (AcceptEnv LANG LC_*): gettext would take a file of
    messages from any folder that it names, so before any word is parsed."""
    for name in [it for it in os.environ if it in ("LANG", "LANGUAGE") or it.startswith("LC_")]:
        del os.environ[name]


def main(words: list[str] | None = None) -> int:
    forget_locale()
    said = parser().parse_args(words)
    logging.basicConfig(level=logging.INFO, format="%(name)s: %(message)s")
    if (said.person is None) == (said.job is None):
        parser().error("name a person or a job, and not both")
    try:
        config = read_config(said.config)
        if said.person is not None:
            return serve_person(config, caller_of(config, said))
        return run_job(config, said.job, said)
    except (BadConfig, BadKey, BadOutbox, BadWord, Crowded, OSError, sqlite3.Error) as fault:
        print(f"desk-relay: {fault}", file=sys.stderr)
        return 2
