"""Relays and fetchers that were written by docs/HTTP.md and docs/MESSAGES.md alone, in shell, Perl
and JavaScript, and our own, each before a real desk and before examples/faulty-desk: they take and
keep what the tables of docs/HTTP.md say."""

import json
import os
import re
import shutil
import subprocess
from collections.abc import Callable, Iterator
from contextlib import contextmanager
from datetime import timedelta
from pathlib import Path
from typing import Any

import pytest

from relays.tests.site import ROOT, Site
from steelnewt_client.desk import Desk
from steelnewt_client.messages import Verdict, Wish, canonical
from steelnewt_client.moments import now, stamp
from steelnewt_relay.outbox import Outbox
from steelnewt_relay.posting import post_kept
from tests.common.ports import free_port

WRITTEN = Path(__file__).parent / "by_documents"
FAULTY = ROOT / "examples" / "faulty-desk"
VECTORS = ROOT / "scripts" / "vectors.py"
LANGUAGES = ("sh", "pl", "js")
PAGES = ROOT / "docs"


def rows(page: str, section: str) -> list[list[str]]:
    """The cells of each row of a section's first table, but for its head."""
    text = (PAGES / page).read_text(encoding="utf-8").partition(f"# {section}\n")[2]
    lines = text.partition("\n|---")[2].partition("\n\n")[0].splitlines()[1:]
    return [[it.strip() for it in re.split(r"(?<!\\)\|", line)[1:-1]] for line in lines]


def faults(section: str, *does: str) -> list[str]:
    """The faults behind which docs/HTTP.md has whoever asks do so."""
    found = [cells for cells in rows("HTTP.md", section) if cells[2].startswith(does)]
    return [it for cells in found for it in re.findall("`([^`]+)`", cells[1])]


# (a test of its own waits for what is late)
AGAIN = faults("What a relay owes", "post the same", "the same:", "the relay is", "**a front")
AGAIN.remove("late")
MENDED = faults("What a relay owes", "the relay is wrong")
FINAL = faults("What a relay owes", "the refusal is final")
KEEPS = faults("What a fetcher owes", "keep", "take it if")
KEEPS.remove("late")
COMMANDS = ["/usr/local/sbin/w", "/usr/bin/id"]
ASKS = {"by": "ann", "kind": "request", "ceiling": "db-care", "cmnds": COMMANDS}


@pytest.fixture(scope="module")
def served(tmp_path_factory: pytest.TempPathFactory) -> Iterator[Site]:
    """One desk for all: each test has numbers of its own."""
    found = Site(tmp_path_factory.mktemp("desk"))
    found.start_desk()
    yield found
    found.close()


class Faulty:
    """A faulty desk, and what it was asked."""

    def __init__(self, place: str, process: subprocess.Popen[str]) -> None:
        self.place, self.process = place, process

    def asked(self, count: int) -> list[str]:
        """The next lines of what it was asked: FAULT METHOD PATH BODY."""
        assert self.process.stdout
        return [self.process.stdout.readline().rstrip("\n") for _ in range(count)]


@contextmanager
def faulty(desk: Site, place: str, *faults: str) -> Iterator[Faulty]:
    words = [str(FAULTY), place, str(desk.folder / "desk.sock"), *faults]
    with subprocess.Popen(words, stdout=subprocess.PIPE, text=True) as process:
        try:
            assert process.stdout and process.stdout.readline() == f"listening {place}\n"
            yield Faulty(place, process)
        finally:
            process.terminate()


def run(name: str, *words: str, given: str = "") -> tuple[int, str]:
    ran = subprocess.run(
        [str(WRITTEN / name), *words], input=given, capture_output=True, text=True, timeout=120
    )
    return ran.returncode, ran.stdout + ran.stderr


def members(no: int) -> dict[str, Any]:
    """A request as data, its members and lists in no order."""
    at = now()
    window = {"from": stamp(at), "until": stamp(at + timedelta(hours=1))}
    return {"no": no, "hosts": ["db2", "db1"], "runas": "root", "at": stamp(at)} | window | ASKS


def text_of(request: dict[str, Any]) -> str:
    lists = {name: sorted(request[name]) for name in ("hosts", "cmnds")}
    return canonical(request | lists)


WISH = ("ceiling", "hosts", "runas", "cmnds")
# A relay, as the tests use it: what it says when it keeps and posts a request, and then when it
# posts what is kept.
Posts = Callable[[dict[str, Any] | None], str]


def in_language(end: str, folder: Path, place: str) -> Posts:
    folder = folder / end
    folder.mkdir()

    def posts(request: dict[str, Any] | None) -> str:
        given = f"{json.dumps(request)}\n" if request else ""
        status, said = run(f"relay.{end}", str(folder), place, "chat", given=given)
        assert status == 0, said
        return said.split()[0] if said else ""

    return posts


def our_own(folder: Path, place: str, patience: float = 60) -> Posts:
    """desk-relay's own classes."""
    desk = Desk(f"unix:{place}", "chat", patience=patience)
    outbox = Outbox(str(folder / "outbox.db"))
    became = {"acked": "done", "refused": "refused", "kept": "again"}

    def posts(request: dict[str, Any] | None) -> str:
        if request:
            ceiling, hosts, runas, commands = (request[it] for it in WISH)
            window = request["from"], request["until"]
            wish = Wish.of(ceiling, hosts, runas, commands, window)
            outbox.number_past(request["no"] - 1)
            outbox.keep_request(request["by"], wish, request["at"])
        said = [became[it.state] for it in post_kept(outbox, desk)]
        return said[0] if said else ""

    return posts


RELAYS: dict[str, Callable[[Path, str], Posts]] = {
    end: lambda folder, place, end=end: in_language(end, folder, place) for end in LANGUAGES
} | {"ours": our_own}  # fmt: skip


@pytest.mark.parametrize("name", RELAYS)
def test_a_relay_posts_the_same_bytes_until_it_has_an_answer(
    served: Site, tmp_path: Path, name: str
) -> None:
    place = str(tmp_path / "faulty.sock")
    no = 100 + list(RELAYS).index(name)
    posts, request = RELAYS[name](tmp_path, place), members(no)
    with faulty(served, place, *AGAIN) as desk:
        said = [posts(request), *(posts(None) for _ in AGAIN)]
        text = text_of(request)
        asked = [f"{it} POST /v1/relays/chat/messages {text}" for it in [*AGAIN, "right"]]
        assert desk.asked(len(asked)) == asked
        assert posts(None) == ""
    other = "again" if name == "ours" else "mend"
    assert said == [other if it in MENDED else "again" for it in AGAIN] + ["done"]
    assert text in served.ask("/v1/messages").splitlines()


@pytest.mark.parametrize("name", RELAYS)
def test_a_relay_takes_a_final_refusal(served: Site, tmp_path: Path, name: str) -> None:
    place = str(tmp_path / "faulty.sock")
    no = 200 + 10 * list(RELAYS).index(name)
    posts = RELAYS[name](tmp_path, place)
    with faulty(served, place, *FINAL) as desk:
        assert [posts(members(no + it)) for it in range(3)] == ["refused"] * 3
        assert posts(None) == ""
        assert [it.split()[0] for it in desk.asked(3)] == list(FINAL)


@pytest.mark.parametrize("end", LANGUAGES)
def test_a_relay_tells_the_desks_word(served: Site, tmp_path: Path, end: str) -> None:
    """And that it is not known, where something else answers."""
    place, no = str(tmp_path / "faulty.sock"), 300 + LANGUAGES.index(end)
    posts, at = in_language(end, tmp_path, place), stamp(now())
    with faulty(served, place, "right", "html", "cut", "K5", "page-502"):
        assert posts(members(no)) == "done"
        words = [f"relay.{end}", str(tmp_path / end), place, "chat", at]
        for _ in range(4):
            assert run(*words) == (3, "not known: the desk does not answer\n")
        status, said = run(*words)
        assert status == 0 and f"ann {no} waiting bob,carol\n" in said, said
        refusal = Verdict("bob", "refuse", "ann", no, at)
        Desk(served.url, "mail").post("mail", refusal.text().encode())
        assert f"ann {no} refused \n" in run(*words)[1]


def vectors() -> list[dict[str, Any]]:
    ran = subprocess.run([str(VECTORS)], capture_output=True, text=True, check=True)
    return [json.loads(it) for it in ran.stdout.splitlines()]


@pytest.mark.parametrize("end", LANGUAGES)
def test_a_relay_writes_each_message_as_the_vectors_have_it(tmp_path: Path, end: str) -> None:
    wanted = [it for it in vectors() if "members" in it][::4]
    assert len(wanted) > 20
    given = "".join(f"{json.dumps(it['members'])}\n" for it in wanted)
    run(f"relay.{end}", str(tmp_path), str(tmp_path / "nowhere"), "web", given=given)
    kept = {int(it.stem): it.read_text() for it in tmp_path.glob("*.kept")}
    assert [kept[number + 1] for number in range(len(wanted))] == [it["text"] for it in wanted]


# A fetcher: what it says.
Fetches = Callable[[], tuple[int, str]]


def fetcher(name: str, folder: Path, place: str) -> Fetches:
    file = str(folder / "etc" / "desk")
    if name != "ours":
        return lambda: run(f"fetch.{name}", place, "db1", file, str(folder / "state"))
    words = [str(ROOT / "packaging" / "desk-host"), "fetch", "--state", str(folder / "state")]
    words += [f"http://127.0.0.1:{place}", "db1", file]

    def fetches() -> tuple[int, str]:
        ran = subprocess.run(words, capture_output=True, text=True, timeout=120, cwd=folder)
        return ran.returncode, ran.stdout + ran.stderr

    return fetches


@pytest.mark.skipif(os.geteuid() != 0, reason="a host's file is root's")
@pytest.mark.parametrize("name", [*LANGUAGES, "ours"])
def test_a_fetcher_keeps_its_file(served: Site, tmp_path: Path, name: str) -> None:
    """Whatever comes that is no newer file of a desk's, whole."""
    place = str(free_port()) if name == "ours" else str(tmp_path / "faulty.sock")
    file, no = tmp_path / "etc" / "desk", 400 + ["ours", *LANGUAGES].index(name)
    file.parent.mkdir(mode=0o755)
    fetches = fetcher(name, tmp_path, place)
    with faulty(served, place):
        assert fetches()[0] == 0
    taken = file.read_bytes()
    assert taken and file.stat().st_mode & 0o777 == 0o440
    for fault in KEEPS:
        with faulty(served, place, *[fault] * 3):  # (some ask for the history, too)
            status, said = fetches()
        assert status == 1 and file.read_bytes() == taken, (fault, said)
    granted(served, no)
    with faulty(served, place):
        assert fetches()[0] == 0 and taken != file.read_bytes()
    assert "ann db1 = (root) NOTBEFORE=" in file.read_text()
    assert sorted(it.name for it in file.parent.iterdir()) == ["desk"]


def granted(site: Site, no: int) -> None:
    """Another grant in force."""
    request, desk = members(no), Desk(site.url, "chat")
    desk.post("chat", text_of(request).encode())
    desk.post("chat", Verdict("bob", "approve", "ann", no, stamp(now())).text().encode())


def test_a_late_answer_is_none(served: Site, tmp_path: Path) -> None:
    place = str(tmp_path / "faulty.sock")
    posts = our_own(tmp_path, place, 0.5)
    with faulty(served, place, "late"):
        assert posts(members(500)) == "again"
    with faulty(served, place) as desk:
        assert our_own(tmp_path, place)(None) == "done"
        assert [it.split()[0] for it in desk.asked(1)] == ["right"]


def test_the_tables_name_each_fault() -> None:
    """What these tests try is all that the faulty desk does."""
    ran = subprocess.run([str(FAULTY)], capture_output=True, text=True, check=False)
    said = set(re.findall(r"The faults: (.*)", ran.stderr)[0].split())
    assert said == {"right", "late", *AGAIN, *FINAL, *KEEPS} and len(said) > 25


# What runs a line of docs/MESSAGES.md, 'Canonical', over each message of its input; `m` is it.
RUNS = {
    "jq": ("jq", "-cS", "."),
    "Python": ("python3", "-c", "import json, sys\nfor line in sys.stdin:\n"
               "    m = json.loads(line)\n    print(CODE)"),
    "Perl": ("perl", "-MJSON::PP", "-ne",
             'my $m = JSON::PP->new->utf8->decode($_); print CODE, "\\n"'),
    "JavaScript": ("node", "-e", "for (const line of require('fs').readFileSync(0, 'utf8').split("
                   "'\\n').filter(Boolean)) { const m = JSON.parse(line); console.log(CODE) }"),
    "Ruby": ("ruby", "-rjson", "-ne", "m = JSON.parse($_); puts CODE"),
    "PHP": ("php", "-r", 'while ($line = fgets(STDIN)) { $m = json_decode($line, true); CODE '
            'echo "\\n"; }'),
}  # fmt: skip
# What people write first.
PLAIN = {"Python": "json.dumps(m)", "Perl": "JSON::PP->new->pretty->encode($m)",
         "JavaScript": "JSON.stringify(m)", "Ruby": "JSON.generate(m)",
         "PHP": "echo json_encode($m);"}  # fmt: skip


@pytest.mark.parametrize("language", [it for it in RUNS if shutil.which(RUNS[it][0])])
def test_what_each_language_writes(language: str) -> None:
    code = dict((cells[0], cells[1].split("`")[1]) for cells in rows("MESSAGES.md", "Canonical"))
    wanted = [it for it in vectors() if "members" in it]
    given = "".join(f"{json.dumps(it['members'])}\n" for it in wanted)

    def written(line: str) -> list[str]:
        words = [it.replace("CODE", line) for it in RUNS[language]]
        ran = subprocess.run(words, input=given, capture_output=True, text=True, check=True)
        return ran.stdout.splitlines()

    texts = [it["text"] for it in wanted]
    assert written(code[language]) == texts and len(texts) > 80
    if language in PLAIN:
        assert written(PLAIN[language]) != texts


def test_four_languages_are_here() -> None:
    here = {it for it in RUNS if shutil.which(RUNS[it][0])}
    assert here >= {"jq", "Python", "Perl", "JavaScript"}
