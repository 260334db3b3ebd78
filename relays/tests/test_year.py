"""A relay that has kept for years answers as on its first day, in as little memory: no question
goes through all that it has.

The gate has 30,000 messages; YEAR=1 is the whole form, with the 331,249 of a year (years.py).
"""

import json
import os
import re
import subprocess
import time
from collections.abc import Callable, Iterator
from datetime import timedelta
from pathlib import Path

import pytest

from relays.tests.site import ROOT, SECRET, Site
from relays.tests.years import YEAR, Told, entry, fill, requests, telling
from steelnewt_client.messages import Request, Verdict, Wish
from steelnewt_client.moments import now, stamp
from steelnewt_client.signed import Signed, reason_digest
from steelnewt_relay.call import Call
from steelnewt_relay.caller import Keyed
from steelnewt_relay.config import read_config
from steelnewt_relay.events import Event, Finder, Manner
from steelnewt_relay.lists import Wanted
from steelnewt_relay.notices import Notices, look
from steelnewt_relay.outbox import Outbox, kept_of
from steelnewt_relay.page import create_app
from steelnewt_relay.reasons import Reason
from steelnewt_relay.ssh import ANSWERS
from steelnewt_relay.standing import Knowledge
from steelnewt_relay.words import parse
from steelnewt_relay.woken import Woken

IS_WHOLE = os.environ.get("YEAR", "0") != "0"
COUNT = YEAR if IS_WHOLE else 30_000
# Seconds that a question and an answer may take (and the gate's machine is busy with other things
# meanwhile), those of the processor, and the memory of who answers.
QUICK, SOON, BUSY, MOST_MIB = 0.02, 0.5, 3.0, 256
PERSON, HOST = "ann7", "h7"
END = now()
Question = Callable[[Outbox], object]


PAGES = [
    ("bob1", "/"), (PERSON, "/"), ("bob1", "/"), (PERSON, "/?all=1"), (PERSON, "/?all=1&mine=99"),
    ("bob1", "/history"), ("bob1", "/history?all=1"), ("bob1", "/history?all=1&page=99999"),
    ("bob1", f"/history?all=1&on={HOST}"), ("bob1", f"/history?who={PERSON}&all=1"),
]  # fmt: skip
WORDS = [
    (PERSON, "mine"), (PERSON, "mine --all"), (PERSON, "mine --all --page 2"), ("bob1", "waiting"),
    ("bob1", "history"), ("bob1", "history --all"), ("bob1", "history --all --page 3"),
    ("bob1", f"history --all --on {HOST}"),
    (PERSON, "overview"), ("bob1", f"show {PERSON} 1"),
]  # fmt: skip


@pytest.fixture(scope="module")
def year(tmp_path_factory: pytest.TempPathFactory) -> Iterator[Site]:
    """A site whose relay has kept so much, beside a desk that tells of all of it."""
    site = Site(tmp_path_factory.mktemp("year"))
    roster = site.folder / "site.roster"
    people = [f'{PERSON} = ["operate-db"]', 'bob1 = ["approve-db"]', 'bob2 = ["audit"]']
    text = roster.read_text().replace("[people]\n", "[people]\n" + "\n".join(people) + "\n")
    roster.write_text(text)
    outbox = Outbox(str(site.folder / "outbox.db"))
    assert fill(outbox, COUNT, END) >= COUNT
    outbox.close()
    yield site
    site.close()


def opened(site: Site) -> Outbox:
    return read_config(str(site.config)).open_outbox()


def asked(begins: timedelta = timedelta()) -> Wish:
    window = stamp(END + begins), stamp(END + begins + timedelta(hours=1))
    return Wish.of("db-care", [HOST], "root", ["/usr/bin/id"], window)


def reads() -> dict[str, Question]:
    """What is asked of an outbox again and again, by what it is for."""
    week, at = stamp(END - timedelta(days=7)), stamp(END)
    lists = {
        "mine": Wanted(PERSON, since=week), "mine --all": Wanted(PERSON),
        "history": Wanted(since=week), "history --all": Wanted(),
        "history --on": Wanted(host=HOST, since=week), "history --all --on": Wanted(host=HOST),
        "history --who --on --all": Wanted(PERSON, HOST),
    }  # fmt: skip
    found: dict[str, Question] = {
        name: lambda it, wanted=wanted: it.lists.page(wanted)  # type: ignore[misc]
        for name, wanted in lists.items()
    }
    found |= {
        f"how many of {name}": lambda it, wanted=wanted: it.lists.count(wanted)  # type: ignore[misc]
        for name, wanted in lists.items()
    }
    return found | {
        "what is open": lambda it: it.lists.open(at, it.share.open),
        "open of one": lambda it: it.lists.open_of(PERSON, at),
        "what is not posted": Outbox.unposted,
        "a request": lambda it: it.request(PERSON, 1),
        "its verdicts": lambda it: it.verdicts(PERSON, 1),
        "verdicts on fifty": lambda it: it.verdicts_on((PERSON, no) for no in range(50)),
        "fifty requests": lambda it: it.requests_on((PERSON, no) for no in range(50)),
        "a message": lambda it: it.entry(COUNT // 2),
        "of the same key": lambda it: it.same(PERSON, "key"),
        "a template": lambda it: it.template(PERSON, "restart-pg"),
        "a reason": lambda it: it.reasons.of_verdict("bob1", "approve", PERSON, 1),
        "who was told": lambda it: Woken(it).calls(7),
        "who is to be told next": lambda it: Woken(it).late(END, timedelta(minutes=10)),
        "what nobody was told of": lambda it: Notices(it).untold(),
        "what is over": lambda it: Notices(it).past(at),
        "what is due": lambda it: [Notices(it).due(is_urgent) for is_urgent in (True, False)],
    }


def writes(outbox: Outbox) -> None:
    """Each thing that is written while people work."""
    at, notices = stamp(END), Notices(outbox)
    kept = outbox.keep_request(PERSON, asked(), at, "key", "words", Reason("disk full", "OPS-7"))
    outbox.keep_request(PERSON, asked(), at, "key", "words", Reason("disk full", "OPS-7"))
    outbox.answered(kept.id, "acked")
    for kind in ("approve", "refuse", "revoke"):
        verdict = outbox.keep_verdict(Verdict("bob1", kind, PERSON, kept.request.no, at), "k" + kind)
        outbox.answered(verdict.id, "acked")
        notices.record([Event(kind, verdict.id, {"by": "bob1"})])
    made = outbox.prepare_request(PERSON, asked(), at)
    digest = reason_digest("", "")
    outbox.keep_signed(PERSON, Signed(made.text(), "signature", "", digest))
    outbox.own.save(PERSON, "restart-pg", kept.id, ())
    outbox.heard({PERSON: 10_000_000})
    for due in notices.due(False):
        notices.failed(due)
        notices.done(due)


def told(site: Site) -> Told:
    """A desk that tells of all of it."""
    found = [entry(request, said) for request, said in requests(COUNT, END)]
    return Told(Path(site.url.removeprefix("unix:")), found)


def plan_of(outbox: Outbox, statement: str) -> list[str]:
    rows = outbox.base.execute(f"EXPLAIN QUERY PLAN {statement}")
    return [str(row[3]) for row in rows]


def work(site: Site) -> None:
    """What people read at the page and by ssh, what they send, and what the relay does for itself
    every few seconds."""
    config, outbox = read_config(str(site.config)), opened(site)
    client = create_app(config).test_client()
    for person, path in PAGES:
        heads = {"X-Desk-Person": person, "X-Desk-Front": SECRET}
        assert client.get(path, headers=heads).status_code == 200
    for person, line in WORDS:
        call = Call(config, Keyed(person, "", config.ssh), parse(line))
        ANSWERS[call.said.command](call)
        call.outbox.close()
    knowledge = Knowledge(outbox, config.open_desk(), config.read_roster(), END)
    outbox.unposted()
    writes(outbox)
    assert look(Notices(outbox), lambda: Finder(knowledge, Manner(first="on-call"))) == ""
    outbox.close()


def test_no_statement_goes_through_all_messages(
    year: Site, monkeypatch: pytest.MonkeyPatch
) -> None:
    """By SQLite's own plan of each statement that is run for people, and every few seconds."""
    ran, make = set[str](), Outbox.open

    def traced(outbox: Outbox) -> None:
        make(outbox)
        outbox.base.set_trace_callback(ran.add)

    opened(year).close()  # (tables that an older outbox lacks are made from all that it has)
    with monkeypatch.context() as patch, telling(told(year)):
        patch.setattr(Outbox, "open", traced)
        work(year)
    outbox = opened(year)
    plain = [it for it in ran if it.split()[0] in ("SELECT", "INSERT", "UPDATE", "DELETE")]
    through = {
        (step, " ".join(statement.split())[:300])
        for statement in plain
        for step in plan_of(outbox, statement)
        if re.match(r"SCAN (messages|notices|reasons|on_hosts)\b", step)
    }
    assert not through, "\n".join(f"{step}: {statement}" for step, statement in sorted(through))
    # (those are the statements, and one that does go through all is found so)
    step, *_ = plan_of(outbox, "SELECT id FROM messages WHERE of || no = 'ann1'")
    assert len(plain) > 100 and step.startswith("SCAN messages"), (len(plain), step)
    outbox.close()


def test_each_question_is_quick(year: Site) -> None:
    """By the processor: what else the machine does has no part in it, and nothing waits here."""
    outbox, took = opened(year), dict[str, float]()
    for name, ask in reads().items():
        times = []
        for _ in range(3):
            kept_of.cache_clear()
            begun = time.thread_time()
            ask(outbox)
            times.append(time.thread_time() - begun)
        took[name] = min(times)
    outbox.close()
    for name, seconds in sorted(took.items(), key=lambda it: -it[1]):
        print(f"{name:28} {seconds * 1e3:8.2f} ms")
    slow = {name: seconds for name, seconds in took.items() if seconds > QUICK}
    assert not slow, slow


MEASURED = """
import json, sys, time
sys.path[:0] = [{root!r}]
from steelnewt_relay.config import read_config
config, took = read_config({config!r}), []
def timed(name, ask):
    # (people do not come right behind one another: whoever does waits for the next question)
    time.sleep(0.45)
    begun, used = time.perf_counter(), time.process_time()
    said = ask()
    took.append((name, time.perf_counter() - begun, time.process_time() - used, said))
if sys.argv[1] == "page":
    from steelnewt_relay.page import create_app
    client = create_app(config).test_client()
    def get(person, path):
        heads = {{"X-Desk-Person": person, "X-Desk-Front": {secret!r}}}
        reply = client.get(path, headers=heads)
        assert reply.status_code == 200, reply.text
        return reply.text.count("<article")
    client.get("/static/page.css")
    for person, path in json.loads(sys.argv[2]):
        timed(person + " " + path, lambda: get(person, path))
else:
    from steelnewt_relay.call import Call
    from steelnewt_relay.caller import Keyed
    from steelnewt_relay.ssh import ANSWERS
    from steelnewt_relay.words import parse
    import contextlib, io
    for person, line in json.loads(sys.argv[2]):
        def ask():
            said, told = parse(line), io.StringIO()
            with contextlib.redirect_stdout(told):
                call = Call(config, Keyed(person, "", config.ssh), said)
                assert ANSWERS[said.command](call) == 0, told.getvalue()
            return len(told.getvalue().splitlines())
        timed(person + " " + line, ask)
with open("/proc/self/status") as file:
    most = next(int(line.split()[1]) for line in file if line.startswith("VmHWM"))
print(json.dumps([took, most >> 10]))
"""


def answers(site: Site, way: str, asked: list[tuple[str, str]]) -> int:
    """How much is shown, by a process of its own, whose time and memory are measured."""
    text = MEASURED.format(root=str(ROOT), config=str(site.config), secret=SECRET)
    words = ["/usr/bin/python3", "-c", text, way, json.dumps(asked)]
    ran = subprocess.run(words, capture_output=True, text=True, check=False)
    assert ran.returncode == 0, ran.stderr
    took, mebibytes = json.loads(ran.stdout)
    for name, seconds, used, shown in took:
        print(f"{way} {name:36} {seconds:6.3f} s, {used:.3f} of the processor, {shown} shown")
    print(f"{way}: {mebibytes} MiB at most")
    assert mebibytes < MOST_MIB
    assert not [it for it in took if it[1] > (SOON if IS_WHOLE else BUSY) or it[2] > SOON]
    return sum(shown for *_, shown in took)


@pytest.mark.parametrize(("way", "asked"), [("page", PAGES), ("ssh", WORDS)])
def test_what_people_read_comes_soon(year: Site, way: str, asked: list[tuple[str, str]]) -> None:
    with telling(told(year)):
        shown = answers(year, way, asked)
    assert shown > 100


MANY = 20_000


def test_one_person_takes_the_page_from_nobody(tmp_path: Path) -> None:
    """Somebody asks 20,000 times, by whatever way keeps it. What they may have open is theirs; the
    rest is refused, and everybody else's page is as quick as before."""
    site = Site(tmp_path)
    outbox = opened(site)
    outbox.base.execute("PRAGMA synchronous = off")
    outbox.number_past(0)
    kept, refused = list[Request](), set[str]()
    for number in range(MANY):
        try:
            wish = asked(timedelta(days=number % 80, seconds=number))
            kept.append(outbox.keep_request("ann", wish, stamp(END)).request)
        except ValueError as why:
            refused.add(str(why))
    outbox.base.execute("UPDATE messages SET state = 'acked'")
    print(f"{len(kept)} of {MANY} are kept, else: {refused}")
    others = outbox.keep_request("carol", asked(), stamp(END))
    outbox.answered(others.id, "acked")
    told = Told(site.folder / "desk.sock", [entry(it, []) for it in (*kept, others.request)])
    outbox.close()
    with telling(told):
        answers(site, "page", [("bob", "/"), ("dave", "/"), ("bob", "/history?all=1"), ("bob", "/")])
    assert len(kept) == outbox.share.open and len(refused) == 1
    # (what takes rights away is taken from whoever asked for too much)
    outbox = opened(site)
    for no in range(1, 2 * outbox.share.open):
        outbox.keep_verdict(Verdict("ann", "revoke", "ann", no, stamp(END)))
    outbox.close()


def test_what_an_older_relay_let_in_takes_the_page_from_nobody(tmp_path: Path) -> None:
    """5,000 open requests of one person are there already: their first are shown."""
    site = Site(tmp_path)
    outbox, rows, told = opened(site), [], []
    for number in range(1, MANY // 4 + 1):
        request = Request("ann", number, stamp(END), asked(timedelta(seconds=number)))
        rows.append((request.text(), number))
        told.append(entry(request, []))
    with outbox.writing():
        outbox.base.executemany(
            "INSERT INTO messages (body, by, kind, of, no, state)"
            " VALUES (?, 'ann', 'request', 'ann', ?, 'acked')",
            rows,
        )
        # (it is made anew, as for what an older relay kept)
        outbox.base.execute("DROP TABLE IF EXISTS on_hosts")
    outbox.close()
    outbox = opened(site)
    others = outbox.keep_request("carol", asked(), stamp(END))
    outbox.answered(others.id, "acked")
    outbox.close()
    with telling(Told(site.folder / "desk.sock", [*told, entry(others.request, [])])):
        answers(site, "page", [("bob", "/"), ("bob", "/")])
