"""What auditors get of the door's own files, a page at a time, and that it is all of them."""

import base64
import json
import os
import socket
import time
from collections.abc import Iterator
from pathlib import Path

import pytest

from door.tests.doors import Doored
from door.tests.test_answers import SIGNED, Signing
from door.tests.test_verify import Kept, made
from steelnewt_door import shown
from steelnewt_door.journal import files_of
from steelnewt_door.rows import read_row
from steelnewt_door.shown import rows_after, versions_after


def journal_of(folder: Path) -> bytes:
    return b"".join(Path(path).read_bytes() for _, path in files_of(str(folder)))


def all_pages(folder: Path) -> tuple[bytes, int]:
    """What comes page by page, as an auditor asks, and in how many pages."""
    whole, no, count = b"", 0, 0
    while found := rows_after(str(folder), no):
        whole, count = whole + found, count + 1
        no = max(read_row(it)["no"] for it in found.splitlines(keepends=True))
    return whole, count


@pytest.fixture
def kept(tmp_path: Path) -> Kept:
    return made(tmp_path, 20)


@pytest.fixture
def signing(fresh: Doored) -> Iterator[Signing]:
    found = Signing(fresh)
    yield found
    assert found.stop() == 0


def test_pages_are_the_journal(kept: Kept, monkeypatch: pytest.MonkeyPatch) -> None:
    """However small a page is, and wherever a file of the journal ends."""
    folder = kept.folder / "journal"
    for most in (1, 2_000, 1 << 20):
        monkeypatch.setattr(shown, "MOST_PAGE", most)
        whole, count = all_pages(folder)
        assert whole == journal_of(folder)
        assert (count == 41) if most == 1 else (count == 1) if most > 9_999 else (count > 5)


def test_files_that_were_carried_away_and_those_that_go_on(fresh: Doored) -> None:
    fresh.stop_door()
    fresh.configure(more="file_bytes = 65536\n")
    fresh.start_door()
    for no in range(1, 90):
        assert fresh.post(fresh.sign("ann", fresh.request(no=no))) == "ack"
    folder = fresh.folder / "journal"
    files = files_of(str(folder))
    assert len(files) > 1
    assert all_pages(folder)[0] == journal_of(folder)
    begins = files[1][0]
    assert read_row(rows_after(str(folder), begins - 1).splitlines(keepends=True)[0])["no"] == begins
    os.unlink(files[0][1])
    assert all_pages(folder)[0] == journal_of(folder)


def test_a_row_that_somebody_changed_is_shown(kept: Kept) -> None:
    path = files_of(str(kept.folder / "journal"))[0][1]
    lines = Path(path).read_bytes().splitlines(keepends=True)
    lines[6] = b"no row at all\n"
    Path(path).write_bytes(b"".join(lines) + b"half a r")
    found = rows_after(str(kept.folder / "journal"), 0)
    assert found == b"".join(lines)


def test_what_is_being_written_is_not_shown_yet(kept: Kept) -> None:
    path = files_of(str(kept.folder / "journal"))[0][1]
    whole = Path(path).read_bytes()
    Path(path).write_bytes(whole[:-1])
    last = whole.splitlines(keepends=True)[-1]
    assert rows_after(str(kept.folder / "journal"), 0) == whole.removesuffix(last)


def test_all_versions_of_the_signers(fresh: Doored) -> None:
    fresh.new_key("erin")
    fresh.add("erin")
    folder = fresh.folder / "signers"
    lines = versions_after(str(folder), "19700101000000Z").splitlines()
    versions = sorted(it for it in os.listdir(folder) if it[0].isdigit())
    told = [json.loads(it) for it in lines]
    assert [it["at"] for it in told] == versions and len(versions) == 2
    for it in told:
        for name, text in it["files"].items():
            assert base64.b64decode(text) == (folder / it["at"] / name).read_bytes()
        assert {"allowed_signers", "revoked_keys", "change"} <= it["files"].keys()
    assert versions_after(str(folder), versions[0]).splitlines() == lines[1:]
    assert versions_after(str(folder), versions[1]) == b""
    assert versions_after(str(fresh.folder / "none"), "19700101000000Z") == b""


def test_auditors_ask_the_door(signing: Signing) -> None:
    doored = signing.doored
    assert doored.post(doored.sign("ann", doored.request())) == "ack"
    status, found = signing.ask("/v1/journal/after/0")
    assert (status, found) == (200, journal_of(doored.folder / "journal"))
    assert signing.ask("/v1/journal/after/999999999999") == (200, b"")
    assert signing.ask("/v1/journal/after/0", "HEAD") == (200, b"")
    assert signing.ask("/v1/journal/after/0", "POST") == (405, b"T4 BadMethod\n")
    status, found = signing.ask("/v1/signers/after/19700101000000Z")
    assert status == 200 and len(found.splitlines()) == 1
    for route in (
        "/v1/journal", "/v1/journal/after/", "/v1/journal/after/-1", "/v1/journal/after/0/",
        "/v1/journal/after/0x", "/v1/journal/after/1000000000000", "/v1/signers/after/0",
        "/v1/signers/now/allowed_signers", "/v1/signers", "/v1/signatures",
    ):  # fmt: skip
        assert signing.ask(route) == (404, b"T3 NoRoute\n"), route


def test_who_reads_no_page_keeps_no_host_waiting(signing: Signing) -> None:
    """Whoever may open the socket asks for pages and reads none of them: hosts get their files."""
    signing.doored.stop_door()
    path = files_of(str(signing.folder / "journal"))[0][1]
    with open(path, "ab") as file:
        row = b'{"at":"%s","no":%%d,"row":"x"}\n' % (b"x" * 900)
        file.writelines(row % no for no in range(2, 3_000))
    stalled = []
    try:
        for _ in range(40):
            peer = socket.socket(socket.AF_UNIX)
            peer.connect(str(signing.folder / "answers.sock"))
            peer.sendall(b"GET /v1/journal/after/0 HTTP/1.1\r\nHost: desk\r\n\r\n")
            stalled.append(peer)
        time.sleep(1)
        begun = time.monotonic()
        assert signing.ask(SIGNED)[0] == 200
        assert time.monotonic() - begun < 10
    finally:
        for peer in stalled:
            peer.close()
