"""A machine of the auditors': a desk or a door that was bought shows there, and a host that has
more than people signed."""

import base64
import hashlib
import json
import os
import socket
import threading
import time
from collections.abc import Callable, Iterator
from contextlib import closing, contextmanager, suppress
from datetime import timedelta
from pathlib import Path

import pytest

from door.tests.doors import SITE, Doored, exchanged, ran
from door.tests.test_answers import Signing, whole
from relays.tests.site import BASE
from steelnewt_client.desk import Desk
from steelnewt_client.messages import Request, Wish, canonical
from steelnewt_client.moments import now, stamp, stamp_of
from steelnewt_door import auditor_program, bringing
from steelnewt_door.auditing import differences
from steelnewt_door.bringing import BadCopy, Copy
from steelnewt_door.journal import files_of
from steelnewt_door.rows import line_of, read_row

PROGRAM = os.environ.get("DESK", str(Path(__file__).parents[2] / "build" / "desk"))


class Auditors:
    """The auditors' machine, and a front that lets them ask."""

    def __init__(self, signing: Signing) -> None:
        self.signing, self.doored = signing, signing.doored
        self.folder = self.doored.folder
        self.hosts = self.folder / "hosts"
        self.hosts.mkdir()
        self.lies: dict[str, Callable[[bytes], bytes]] = {}
        self.config = self.folder / "auditor.toml"

    def answer(self, target: str) -> bytes:
        """What the front passes to the door, or to the desk."""
        given = f"GET {target} HTTP/1.1\r\nHost: desk\r\n\r\n".encode()
        is_door = "/journal/" in target or "/signers/" in target
        raw = exchanged(self.folder / ("answers.sock" if is_door else "desk.sock"), given)
        head, _, body = raw.partition(b"\r\n\r\n")
        for part, lie in self.lies.items():
            body = lie(body) if part in target else body
        return whole((int(head.split(b" ")[1]), body))

    def look(self, status: int, **more: object) -> str:
        """One look: what is said."""
        with front_of(self.answer) as url:
            told: dict[str, object] = {
                "site": SITE, "desk": url, "roster": f"{self.folder}/site.roster",
                "base": str(BASE), "hosts": str(self.hosts), "lasts": 0,
                "keep": f"{self.folder}/auditor", "program": PROGRAM,
            } | more  # fmt: skip
            text = "".join(f"{name} = {json.dumps(value)}\n" for name, value in told.items())
            self.config.write_text(text)
            return ran(auditor_program.main, ["--config", str(self.config)], status)

    def host_file(self, after: str = "") -> bytes:
        return Desk(self.doored.site.url).get(f"/v1/hosts/db1/sudoers{after}").encode()

    def past_the_door(self, text: str) -> None:
        """A message that the desk's machine took without the door."""
        assert Desk(self.doored.site.url).post("chat", text.encode()).said == "ack"


@contextmanager
def front_of(answer: Callable[[str], bytes]) -> Iterator[str]:
    listener = socket.create_server(("127.0.0.1", 0))

    def serve() -> None:
        with suppress(OSError):
            while True:
                peer, _ = listener.accept()
                with peer:
                    peer.sendall(answer(peer.recv(65_536).split(b" ")[1].decode()))

    threading.Thread(target=serve, daemon=True).start()
    with closing(listener):
        yield f"http://127.0.0.1:{listener.getsockname()[1]}"


@pytest.fixture
def auditors(fresh: Doored) -> Iterator[Auditors]:
    signing = Signing(fresh)
    yield Auditors(signing)
    assert signing.stop() == 0


def granted(auditors: Auditors, no: int = 1) -> None:
    doored = auditors.doored
    request = doored.request(no=no)
    assert doored.post(doored.sign("ann", request)) == "ack"
    assert doored.post(doored.sign("bob", doored.verdict(no=no), request)) == "ack"
    (auditors.hosts / "db1").write_bytes(auditors.host_file())


def test_all_is_well_again_and_again(auditors: Auditors) -> None:
    said = auditors.look(0)
    assert said.startswith(f"DESK AUDITOR OK - {SITE}: 0 found | rows=")
    granted(auditors)
    said = auditors.look(0)
    assert "messages=2 signed=2 hosts=1 found=0" in said
    auditors.doored.new_key("erin")
    auditors.doored.add("erin")
    granted(auditors, 2)
    assert "messages=4 signed=4" in auditors.look(0)
    here = b"".join(Path(it).read_bytes() for _, it in files_of(f"{auditors.folder}/auditor/journal"))
    there = b"".join(Path(it).read_bytes() for _, it in files_of(f"{auditors.folder}/journal"))
    assert here == there


def test_a_desk_that_took_what_nobody_signed(auditors: Auditors) -> None:
    """And the host has a right by it: both are named."""
    doored = auditors.doored
    auditors.past_the_door(doored.request())
    auditors.past_the_door(doored.verdict())
    (auditors.hosts / "db1").write_bytes(auditors.host_file())
    said = auditors.look(2)
    assert said.count("desk-auditor: UNSIGNED: it came past the door: ") == 2
    assert "COUNTS UNSIGNED: its approver did not sign it" in said
    assert "HOST HAS MORE: db1: ann db1 = (root) " in said


def test_root_takes_away_and_gives_nothing(auditors: Auditors) -> None:
    granted(auditors)
    doored = auditors.doored
    assert doored.post(doored.verdict(by="carol", kind="revoke"), root=True) == "ack"
    said = auditors.look(2)
    assert "UNSIGNED: root's socket took it without a signature" in said
    assert "HOST HAS MORE: db1: ann db1 = (root) " in said
    (auditors.hosts / "db1").write_bytes(auditors.host_file())
    assert "HOST " not in auditors.look(2)
    line = said.split("desk-auditor: ")[1].split("\n")[0]
    assert "0 found" in auditors.look(0, known=[line])


def test_a_host_that_has_other_lines(auditors: Auditors) -> None:
    granted(auditors)
    path, text = auditors.hosts / "db1", auditors.host_file()
    path.write_bytes(text + b"bob ALL = (root) ALL\n")
    assert "HOST HAS MORE: db1: bob ALL = (root) ALL" in auditors.look(2)
    path.write_bytes(b"".join(text.splitlines(keepends=True)[:-1]))
    assert "HOST LACKS: db1: ann db1 = (root) " in auditors.look(2)
    path.write_bytes(text)
    os.utime(path, (1, 1))
    assert "OLD COPY: that of db1" in auditors.look(2)


def test_what_has_not_lasted_yet_alarms_nobody(auditors: Auditors) -> None:
    granted(auditors)
    (auditors.hosts / "db1").write_bytes(auditors.host_file() + b"bob ALL = (root) ALL\n")
    assert "0 found" in auditors.look(0, lasts=900)
    seen = auditors.folder / "auditor" / "found.json"
    told = json.loads(seen.read_text())
    seen.write_text(json.dumps({it: at - 901 for it, at in told.items()}))
    assert "HOST HAS MORE" in auditors.look(2, lasts=900)


def test_order_counts() -> None:
    """The last line that matches decides, so the same lines in another order are another file."""
    now = stamp_of(0)
    assert not list(differences("db1", ["a", "b"], ["a", "b"], now))
    assert "ANOTHER ORDER" in "".join(differences("db1", ["b", "a"], ["a", "b"], now))
    assert not list(differences("db1", ["a"], ["a", "x NOTAFTER=19690105090000Z y"], now))


def test_another_roster_than_the_auditors_have(auditors: Auditors) -> None:
    other = auditors.folder / "other.roster"
    other.write_text((auditors.folder / "site.roster").read_text() + "\n# another\n")
    assert "ANOTHER ROSTER: the desk serves " in auditors.look(2, roster=str(other))
    base = auditors.folder / "other.sudo"
    base.write_text("dba ALL = (root) /usr/bin/id\n")
    assert "ANOTHER BASE: the desk serves " in auditors.look(2, base=str(base))


def test_a_journal_that_is_written_anew(auditors: Auditors) -> None:
    """Whoever has the door's machine takes rows back, with the whole chain made anew: the auditors
    have what was there."""
    granted(auditors)
    auditors.look(0)
    path = Path(files_of(f"{auditors.folder}/journal")[0][1])
    rows = [read_row(it) for it in path.read_bytes().splitlines(keepends=True)]
    auditors.doored.stop_door()
    path.write_bytes(b"".join(map(line_of, rows[:3])))
    assert "TAKEN BACK: row 5 is here, and at the door it is not" in auditors.look(2)
    lines, before = list[bytes](), rows[0]["before"]
    for row in rows:
        told = row | {"before": before, "at": "20260105090000Z"}
        bare = canonical({name: value for name, value in told.items() if name != "chain"})
        before = hashlib.sha256(bare.encode()).hexdigest()
        lines.append(line_of(told | {"chain": before}))
    path.write_bytes(b"".join(lines))
    assert "TAKEN BACK: row 5 is here, and at the door it is not, or is another" in auditors.look(2)


def test_a_message_that_the_desk_dropped(auditors: Auditors) -> None:
    granted(auditors)
    auditors.lies["/v1/messages"] = lambda it: b"".join(it.splitlines(keepends=True)[1:])
    assert "NOT AT THE DESK: row " in auditors.look(2)


def test_a_history_that_was_cut(auditors: Auditors, monkeypatch: pytest.MonkeyPatch) -> None:
    """What a cut takes out is missed by nobody: verdicts on what had ended then. All else is, and
    so is all where the desk says that it was cut within a day."""
    doored, begins = auditors.doored, now() + timedelta(days=2)
    span = stamp(begins), stamp(begins + timedelta(hours=1))
    wish = Wish.of("db-care", ["db1"], "root", ["/usr/bin/id"], span)
    later = Request("ann", doored.block + 9, stamp(now()), wish).text()
    assert doored.post(doored.sign("ann", later)) == "ack"
    assert doored.post(doored.sign("bob", approval := doored.verdict(no=9), later)) == "ack"
    granted(auditors)
    assert "archived=0 messages=4 signed=4" in auditors.look(0)
    # three days go by, and the desk no longer holds the verdict on what has ended
    clock = time.time
    monkeypatch.setattr(time, "time", lambda: clock() + 3 * 86_400)
    cut_at(auditors, monkeypatch, stamp(now() + timedelta(days=1)))
    copy = auditors.hosts / "db1"
    copy.write_bytes(auditors.host_file(f"/{stamp(begins)}"))
    os.utime(copy, (time.time(), time.time()))
    ended = doored.verdict()[25:]
    gone = [ended]
    auditors.lies["/v1/messages"] = lambda it: without(it, gone)
    assert "archived=1 messages=3 signed=3" in auditors.look(0)
    for more in (approval[25:], later):
        gone[:] = [ended, more]
        assert auditors.look(2).count("desk-auditor: NOT AT THE DESK: row ") == 1, more
    gone[:] = [ended, f'"kind":"request","no":{doored.block + 1},']
    assert auditors.look(2).count("desk-auditor: NOT AT THE DESK: row ") == 2
    gone[:] = [ended]
    early = stamp_of(time.time() - 86_000)
    cut_at(auditors, monkeypatch, early)
    said = auditors.look(2)
    assert f"EARLY CUT: the desk says that its history was cut at {early}\n" in said
    assert said.count("desk-auditor: NOT AT THE DESK: row ") == 1, said


def cut_at(auditors: Auditors, monkeypatch: pytest.MonkeyPatch, moment: str) -> None:
    """The desk says that its history was cut there."""
    count, roster, base = Desk(auditors.doored.site.url).count()
    history = auditors.folder / "moments"
    history.write_text(f"{stamp(now())} cut {moment} {count} {roster} {base}\n")
    monkeypatch.setitem(os.environ, "DESK_HISTORY", str(history))
    auditors.doored.site.stop_desk()
    auditors.doored.site.start_desk()


def without(messages: bytes, parts: list[str]) -> bytes:
    """Messages but for those that have one of these parts."""
    lines = messages.splitlines(keepends=True)
    return b"".join(it for it in lines if not any(part.encode() in it for part in parts))


def test_what_is_no_answer(auditors: Auditors) -> None:
    """Nothing is known then, and what was kept stays."""
    granted(auditors)
    auditors.look(0)
    for part, lie in (
        ("/v1/requests", lambda it: b"<html>"),
        ("/v1/messages", lambda it: b"\xff\n"),
        ("/v1/count", lambda it: b""),
        ("/v1/signers", lambda it: b'{"at":"20990101000000Z","files":{"../x":""}}\n'),
        ("/v1/signers", lambda it: b'{"at":"../../x","files":{}}\n'),
    ):  # fmt: skip
        auditors.lies = {part: lie}
        assert "DESK AUDITOR UNKNOWN - " in auditors.look(3), part
    auditors.lies = {}
    assert "0 found" in auditors.look(0)


def test_pages_that_are_none(tmp_path: Path, monkeypatch: pytest.MonkeyPatch) -> None:
    copy = Copy(str(tmp_path))
    row = b'{"at":"x","no":%d,"row":"begun"}\n'
    copy.add(row % 1 + row % 2)
    for page, says in (
        (row % 2, "row 2 comes behind row 2"),
        (row % 1, "row 1 comes behind row 2"),
        (b'{"at":"x","no":3,', "the last row of a page has no end"),
    ):
        with pytest.raises(BadCopy, match=says):
            copy.add(page)
    with pytest.raises(BadCopy, match="have no end"):
        name = base64.b64encode(b"x").decode()
        moments = iter(range(10**9))

        def ask(_: str) -> bytes:
            at = f"2026{next(moments):010}Z"
            return json.dumps({"at": at, "files": {"change": name}}).encode() + b"\n"

        monkeypatch.setattr(bringing, "MOST_PAGES", 9)
        copy.bring_signers(ask)


def test_a_copy_that_was_killed(tmp_path: Path) -> None:
    copy = Copy(str(tmp_path))
    row = b'{"at":"x","no":%d,"row":"begun"}\n'
    copy.add(row % 1)
    path = files_of(copy.journal)[0][1]
    with open(path, "ab") as file:
        file.write(b'{"at":"x","no":2,')
    again = Copy(str(tmp_path))
    assert (again.last, again.line) == (1, row % 1)
    assert Path(path).read_bytes() == row % 1
