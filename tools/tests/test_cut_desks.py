"""desk-change-roster --cut over three desks, each behind a sshd of its own, while hosts fetch: all
are cut alike, and no host goes back. What was cut out and comes again changes no file."""

from __future__ import annotations

import contextlib
import io
import os
import re
import subprocess
import sys
from collections.abc import Callable, Iterator
from pathlib import Path
from unittest import mock

import pytest

from desk_tools import served
from conftest import ROOT
from running import Running
from steelnewt_client.messages import canonical
from steelnewt_host import answers, fetching, place
from steelnewt_host.asking import Reply
from steelnewt_host.faults import Fault
from steelnewt_host.settings import Settings
from test_change_desks import NAMES, Site, site
from test_change_roster import moment
from test_cut import AT, DAY, OLD, archives, counted, filled

__all__ = ["site"]  # (the fixture)
HOSTS = int(os.environ.get("HOSTS_THAT_FETCH", "2"))


def post_all(running: Running, messages: list[str]) -> None:
    for body in messages:
        assert running.ask("POST", "/v1/relays/chat/messages", body) == "ack\n", body


@pytest.fixture
def three(site: Site) -> list[Running]:
    """Three desks that hold the same."""
    found = [it.running for it in site.machines]
    filled(found[0])
    for it in found[1:]:
        post_all(it, found[0].messages())
    return found


def cut(site: Site, *more: str) -> subprocess.CompletedProcess[str]:
    return cut_at(site, AT, *more)


def cut_at(site: Site, at: str, *more: str) -> subprocess.CompletedProcess[str]:
    ssh = f"ssh -F {site.folder}/ssh_config -o BatchMode=yes"
    words = [f"{ROOT}/tools/desk-change-roster", "--cut", at, "--desks", *NAMES]
    return subprocess.run(
        [*words, "--ssh", ssh, *more], capture_output=True, text=True, timeout=900, check=False
    )


class Hosts:
    """Hosts that fetch their file of all desks, each with a state of its own."""

    def __init__(self, folder: Path, desks: list[Running]) -> None:
        self.desks, self.folder = desks, folder
        for number in range(HOSTS):
            (folder / str(number)).mkdir(parents=True)

    def ask(self, _: Settings, desk: str, route: str, *__: int) -> Reply:
        try:
            found = served.desk_at(self.desks[int(desk)].address).exchange("GET", route)
        except Exception as why:
            raise Fault(f"it is away: {why}") from None
        return Reply(found.status, found.body, "")

    def fetch(self, *desks: int) -> set[bytes]:
        """What the hosts have after each asked these desks, and took an answer."""
        found = set[bytes]()
        with contextlib.ExitStack() as stack:
            for what, name, answer in patches(self.ask):
                stack.enter_context(mock.patch.object(what, name, answer))
            stack.enter_context(contextlib.redirect_stderr(io.StringIO()))
            found.update(self.of_one(self.folder / str(it), desks) for it in range(HOSTS))
        return found

    def of_one(self, folder: Path, desks: tuple[int, ...]) -> bytes:
        file, state = str(folder / "sudoers"), str(folder / "state")
        named = tuple(map(str, desks))
        with contextlib.suppress(Fault):
            fetching.fetch(Settings(named, file=file, state=state, run=state), "db1")
        return Path(file).read_bytes()


def patches(ask: Callable[..., Reply]) -> list[tuple[object, str, object]]:
    """The fetch is the host's own, but for its questions, sudo and visudo."""
    return [
        (fetching, "fit_sudo", lambda: "1.9.13"),
        (place, "visudo", lambda *_: []),
        (answers, "ask", ask),
    ]


def test_all_are_cut_alike(site: Site, three: list[Running], tmp_path: Path) -> None:
    """Hosts fetch on before, between and behind; a revocation that one desk has is not lost."""
    hosts, old = Hosts(tmp_path / "hosts", three), counted(three[0])
    [first] = hosts.fetch(0, 1, 2)
    assert b"ann db1 = (root) NOTBEFORE=" in first
    a, b, c = site.machines
    (b.folder / "kill").write_text("before stop")
    ran = cut(site, "--yes")
    assert ran.returncode == 3 and "a is cut.\n" in ran.stdout, ran
    assert [len(it.messages()) < old for it in three] == [True, False, False]
    assert [counted(it) for it in three] == [old] * 3
    assert hosts.fetch(0, 1, 2) == hosts.fetch(0) == hosts.fetch(1) == {first}
    three[0].post(at=moment(-0.05), by="carol", kind="revoke", no=7, of="ann")
    [revoked] = hosts.fetch(0, 1)
    assert revoked != first
    assert hosts.fetch(1, 2) == {revoked}, "an uncut desk brings nothing back"
    for it in three[1:]:
        post_all(it, revocations(three[0]))
    ran = cut(site, "--yes")
    assert ran.returncode == 0 and ran.stdout.endswith("Each desk is cut there.\n"), ran
    assert [counted(it) for it in three] == [old + 1] * 3
    assert len({tuple(sorted(archives(it))) for it in three}) == 1
    assert hosts.fetch(0, 1, 2) == hosts.fetch(2) == {revoked}
    again = cut(site, "--yes")
    assert again.returncode == 0 and "a: The desk is cut there." in again.stdout, again


def revocations(running: Running) -> list[str]:
    return [it for it in running.messages() if '"kind":"revoke"' in it and '"no":7,' in it]


def test_desks_that_hold_other_messages(site: Site, three: list[Running]) -> None:
    """None begins where one would take out other messages."""
    post_all(three[1], [archived_late(three[1])])
    before = [it.messages() for it in three]
    ran = cut(site, "--yes")
    assert ran.returncode == 2 and "no desk was begun with" in ran.stderr, ran
    assert f"a {OLD + 2}, b {OLD + 3}, c {OLD + 2}" in ran.stderr, ran
    assert [it.messages() for it in three] == before and not archives(three[0])


def test_a_desk_that_was_cut_at_another_moment(site: Site, three: list[Running]) -> None:
    """Cut later than the others it is named, and nothing is begun; cut earlier it is cut on with
    them, and all are alike then."""
    early, later = moment(-20 * DAY), moment(-2 * DAY)
    texts = ended_long_ago()
    for it in three:
        post_all(it, texts)
    old, whole = counted(three[0]), set(three[0].messages())
    assert three[1].cut(early, "--yes").returncode == 0
    assert three[2].cut(later, "--yes").returncode == 0
    before = [(set(it.messages()), sorted(archives(it))) for it in three]
    ran = cut(site, "--yes")
    said = f"c: desk-change-roster: the store was cut at {later}, which is later: all is as before"
    assert ran.returncode == 2 and f"{said}; no desk was begun with" in ran.stderr, ran
    assert [(set(it.messages()), sorted(archives(it))) for it in three] == before
    assert not any((it.folder / "store" / "archives" / "under-way").exists() for it in three)
    ran = cut_at(site, later, "--yes")
    assert ran.returncode == 0 and ran.stdout.endswith("Each desk is cut there.\n"), ran
    assert len({tuple(sorted(archives(it))) for it in three}) == 1
    assert [counted(it) for it in three] == [old] * 3
    assert {frozenset([*it.messages(), *archives(it)]) for it in three} == {frozenset(whole)}


def ended_long_ago() -> list[str]:
    """A request of ann's that ended 25 days ago, with more verdicts than came today."""
    wish = {"cmnds": ["/usr/bin/id"], "hosts": ["db1"], "runas": "root", "ceiling": "db-care"}
    span = {"from": moment(-25 * DAY), "until": moment(-25 * DAY + 1)}
    about = {"at": moment(-26 * DAY), "by": "ann", "kind": "request", "no": 400}
    verdict = {"by": "bob", "kind": "approve", "no": 400, "of": "ann"}
    verdicts = [canonical(verdict | {"at": moment(-25.5 * DAY - it)}) for it in range(6)]
    return [canonical(about | wish | span), *verdicts]


def archived_late(running: Running) -> str:
    """One more verdict on a request that ended."""
    body = next(it for it in running.messages() if '"kind":"approve"' in it and '"no":100,' in it)
    return body.replace('"by":"bob"', '"by":"carol"')


def files(running: Running) -> list[str]:
    return [
        re.sub(r"\d{14}Z", "", running.ask("GET", f"/v1/hosts/{it}/sudoers/{AT}"))
        for it in ("db1", "db2", "web1")
    ]


@pytest.fixture
def pair(tmp_path: Path, desk: str) -> Iterator[tuple[Running, Running]]:
    """A desk that was cut, and one that was not."""
    rooms = [tmp_path / it for it in ("cut", "whole")]
    for it in rooms:
        it.mkdir()
    first, second = (Running(it, desk) for it in rooms)
    filled(first)
    post_all(second, first.messages())
    assert first.cut(AT, "--yes").returncode == 0
    yield first, second
    for running in (first, second):
        running.close()


def test_what_comes_again_changes_nothing(pair: tuple[Running, Running]) -> None:
    """desk-fill leaves out what an archive has; without it the texts come back, and no file
    changes, but the messages are held and counted again."""
    one, whole = pair
    before, held, count = files(one), one.messages(), counted(one)
    assert before == files(whole)
    [archive] = (one.folder / "store" / "archives").glob("*.messages")
    said = f"0 refused, {OLD + 2} archived"
    tried: list[tuple[list[str], str]] = [(["--archive", str(archive)], said), ([], " 0 refused")]
    for more, said in tried:
        ran = filled_with(one, whole.messages(), *more)
        assert ran.returncode == 0 and said in ran.stdout, ran
        assert files(one) == before
        assert (one.messages() == held) == bool(more)
    assert counted(one) == count + OLD + 2
    ran = filled_with(whole, held)
    assert ran.returncode == 0 and f"{len(held)} taken" in ran.stdout, ran
    assert files(whole) == before


def filled_with(
    running: Running, messages: list[str], *more: str
) -> subprocess.CompletedProcess[str]:
    words = [sys.executable, f"{ROOT}/broker/desk-fill", running.address, "chat", *more]
    given = "".join(f"{it}\n" for it in messages)
    return subprocess.run(words, input=given, capture_output=True, text=True, check=False)


def test_a_feed_leaves_archives_out(pair: tuple[Running, Running], tmp_path: Path) -> None:
    """feed-desk.sh beside the archives brings nothing of them back; what is new, it brings."""
    one, whole = pair
    held = one.messages()
    whole.post(at=moment(-0.05), by="carol", kind="revoke", no=7, of="ann")
    bin_ = tmp_path / "bin"
    bin_.mkdir()
    # (the first desk has no front here: curl asks its socket instead)
    (bin_ / "curl").write_text(
        "#!/bin/bash\nwords=()\nfor it; do [[ $it == --c* || $it == --key || $it == *.pem || "
        f"$it == *.key ]] || words+=(\"$it\"); done\ncase ${{words[-1]}} in https://*) words[-1]="
        f"http://desk/v1/messages; words+=(--unix-socket {whole.folder}/desk.sock) ;; esac\n"
        'exec /usr/bin/curl "${words[@]}"\n'
    )
    (bin_ / "curl").chmod(0o755)
    ran = subprocess.run(
        ["sh", f"{ROOT}/examples/feed-desk.sh", "https://whole.example", "chat"],
        cwd=one.folder / "store", capture_output=True, text=True, check=False,
        env=os.environ | {"PATH": f"{bin_}:{os.environ['PATH']}", "ADDR": one.address},
    )  # fmt: skip
    assert ran.returncode == 0 and "1 posted, 0 refused" in ran.stdout, ran
    assert set(one.messages()) - set(held) == set(revocations(whole))
