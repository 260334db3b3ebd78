"""The check that compares desks: what it says, and its status."""

from __future__ import annotations

import http.server
import json
import pathlib
import subprocess
import sys
import threading
from pathlib import Path

import pytest

COMPARE = pathlib.Path(__file__).resolve().parents[2] / "broker/desk-compare"


def compare(*words: str) -> tuple[int, str]:
    ran = subprocess.run([sys.executable, COMPARE, *words], capture_output=True, text=True)
    return ran.returncode, ran.stdout


class Answers(http.server.ThreadingHTTPServer):
    """A desk that answers from a table; its host h2 is behind so many times. Or a door, with these
    versions of the signers, two on a page."""

    def __init__(
        self, behind: int = 0, count: str = "3 r0 b0", signers: dict[str, str] | None = None
    ) -> None:
        super().__init__(("127.0.0.1", 0), Handler)
        self.behind, self.count, self.signers = behind, count, signers or {}
        self.asked: list[str] = []
        threading.Thread(target=self.serve_forever, args=(0.02,), daemon=True).start()

    @property
    def url(self) -> str:
        return f"http://127.0.0.1:{self.server_address[1]}"


class Handler(http.server.BaseHTTPRequestHandler):
    server: Answers

    def do_GET(self) -> None:
        self.server.asked.append(self.path)
        text = self.path.encode()
        if "h2" in self.path and self.server.behind > 0:
            self.server.behind -= 1
            text = b"old"
        if self.path == "/v1/count":
            text = self.server.count.encode()
        if self.path.startswith("/v1/signers/after/"):
            later = [it for it in sorted(self.server.signers) if it > self.path[-15:]]
            told = [{"at": it, "files": self.server.signers[it]} for it in later[:2]]
            text = "".join(json.dumps(it) + "\n" for it in told).encode()
        status = 404 if "nine" in self.path else 200
        self.send_response(status)
        self.send_header("Content-Length", str(len(text)))
        self.end_headers()
        self.wfile.write(text)

    def log_message(self, *_: object) -> None:
        pass


@pytest.fixture
def roster(tmp_path: Path) -> str:
    path = tmp_path / "roster.toml"
    path.write_text('hosts = ["h2", "h1"]\n')
    return str(path)


def test_desks_that_agree(roster: str) -> None:
    one, other = Answers(), Answers()
    status, said = compare("answers", roster, one.url, other.url, "--at", "20260105093000Z")
    assert (status, said.splitlines()[-1]) == (0, "they agree")
    assert sorted(one.asked) == [
        "/v1/count", "/v1/hosts/h1/sudoers", "/v1/hosts/h2/sudoers", "/v1/parked",
        "/v1/reviews/20260105093000Z",
    ]


def test_a_desk_that_lags_and_catches_up(roster: str) -> None:
    status, said = compare("answers", roster, Answers().url, Answers(behind=2).url)
    assert (status, said.splitlines()[-1]) == (0, "they agree")


def test_a_desk_that_differs_is_named_with_what_differs(roster: str) -> None:
    words = ["answers", roster, Answers().url, Answers(behind=99).url, "--patience", "0.3"]
    status, said = compare(*words)
    assert status == 1
    assert "differs: /v1/hosts/h2/sudoers: " in said
    assert said.splitlines()[-1] == "1 of 5 answers differ"


@pytest.mark.parametrize("count, what", [("3 r1 b0", "the roster"), ("4 r0 b1", "the base")])
def test_a_desk_with_another_roster_or_base(roster: str, count: str, what: str) -> None:
    words = ["answers", roster, Answers().url, Answers(count=count).url, "--patience", "0.3"]
    status, said = compare(*words)
    assert status == 1 and f"differs: {what}: {what[4]}0, {what[4]}1" in said


MOMENTS = [f"2026010509000{it}Z" for it in range(5)]


def test_doors_with_one_history_of_signers(roster: str) -> None:
    signers = dict.fromkeys(MOMENTS, "ann's key")
    doors = [Answers(signers=signers) for _ in range(3)]
    words = ["answers", roster, Answers().url, Answers().url, "--doors", *(it.url for it in doors)]
    status, said = compare(*words)
    assert status == 0 and said.count(": 5 versions of the signers, sha256 ") == 3
    assert said.splitlines()[-1] == "they agree"


@pytest.mark.parametrize(
    "change, what",
    [
        ({MOMENTS[4]: None}, f"the signers of {MOMENTS[4]}: "),  # one that lags
        ({MOMENTS[0]: "a thief's key"}, f"the signers of {MOMENTS[0]}: "),  # one written anew
        ({"20260105090009Z": "a thief's key"}, "the signers of 20260105090009Z: lacking, "),
    ],
)
def test_a_door_with_other_signers(
    roster: str, change: dict[str, str | None], what: str
) -> None:
    signers = dict.fromkeys(MOMENTS, "ann's key")
    other = {at: it for at, it in (signers | change).items() if it}
    doors = [Answers(signers=it).url for it in (signers, other)]
    desks = [Answers().url, Answers().url]
    status, said = compare("answers", roster, *desks, "--patience", "0.3", "--doors", *doors)
    assert status == 1 and f"differs: {what}" in said
    assert said.splitlines()[-1].endswith(" answers differ")


def test_a_door_that_does_not_answer(roster: str) -> None:
    one = Answers(signers={"20260105090000Z": "x"}).url
    words = ["answers", roster, one, one, "--doors", one, "http://127.0.0.1:1"]
    assert compare(*words)[0] == 2


def test_a_desk_that_does_not_answer(roster: str, tmp_path: Path) -> None:
    assert compare("answers", roster, Answers().url, "http://127.0.0.1:1")[0] == 2
    roster_of_nine = tmp_path / "nine.toml"
    roster_of_nine.write_text('hosts = ["nine"]\n')
    assert compare("answers", str(roster_of_nine), Answers().url, Answers().url)[0] == 2


NONE = [
    'hosts = ["h1"]\n[people]\nann = [{ duty = "a",\n  from = "20260101", until = "20260201" }]\n',
    "hosts = 7\n", "", "hosts = [\n", "\xff",
]


@pytest.mark.parametrize("text", NONE)
def test_a_roster_that_python_cannot_read(tmp_path: Path, text: str) -> None:
    """The first is TOML 1.1, which the desk takes."""
    path = tmp_path / "roster.toml"
    path.write_bytes(text.encode("latin-1"))
    status, said = compare("answers", str(path), "http://127.0.0.1:1", "http://127.0.0.1:1")
    assert (status, len(said.splitlines())) == (2, 1), said
    assert said.startswith(f"cannot read {path}: ") and "on one line" in said
    status, said = compare("answers", f"{path}.none", "http://127.0.0.1:1")
    assert (status, said) == (2, f"cannot read {path}.none: No such file or directory\n")


def listing(folder: Path, name: str, *bodies: str) -> str:
    (folder / name).write_text("".join(body + "\n" for body in bodies))
    return f"{name}={folder / name}"


def test_messages_that_a_desk_lacks(tmp_path: Path) -> None:
    a, b = listing(tmp_path, "a", "1", "2", "3"), listing(tmp_path, "b", "2")
    status, said = compare("messages", a, b)
    assert status == 1
    assert said.splitlines()[0].startswith("a: 3 messages, sha256 ")
    assert said.splitlines()[2:] == ["b lacks 2:", "    1", "    3", "they differ"]
    assert compare("messages", a, b, "--lacking", "b") == (0, "1\n3\n")
    assert compare("messages", a, b, "--lacking", "c")[0] == 2


def test_the_same_messages_in_another_order(tmp_path: Path) -> None:
    a, b = listing(tmp_path, "a", "1", "2"), listing(tmp_path, "b", "2", "1")
    assert compare("messages", a, b)[0] == 0


def test_what_is_on_its_way_is_not_lacking(tmp_path: Path) -> None:
    a, b = listing(tmp_path, "a", "1", "2", "3"), listing(tmp_path, "b", "1", "2")
    (tmp_path / "old").mkdir()
    old_a, old_b = listing(tmp_path / "old", "a", "1", "2"), listing(tmp_path / "old", "b", "1")
    assert compare("messages", a, b)[0] == 1
    assert compare("messages", a, b, "--since", old_a, old_b)[0] == 0
    lost = listing(tmp_path, "b", "1")
    assert compare("messages", a, lost, "--since", old_a, old_b)[0] == 1
