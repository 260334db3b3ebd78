"""packaging/desk-history: what a desk was served with is there whole, or not at all."""

from __future__ import annotations

import hashlib
import os
import signal
import subprocess
import time
from collections.abc import Iterator
from pathlib import Path

import pytest

from conftest import ROOT
from desk_tools import history
from running import PATIENCE

SHOWN = Path(ROOT, "examples", "roster.toml").read_text()
KILLS = 10


class Kept:
    """A history in a folder, and what is written there."""

    def __init__(self, folder: Path, desk: str) -> None:
        self.folder, self.roster = folder / "history", folder / "roster.toml"
        self.base = os.path.join(ROOT, "examples", "site.sudo")
        self.program = os.path.join(ROOT, "packaging", "desk-history")
        self.environment = os.environ | {"DESK": desk}
        self.roster.write_text(SHOWN)

    def words(self, *words: str) -> list[str]:
        return [self.program, str(self.folder), str(self.roster), self.base, *words]

    def write(self, *words: str, **more: str) -> subprocess.CompletedProcess[str]:
        return subprocess.run(
            self.words(*words),
            env=self.environment | more,
            capture_output=True,
            text=True,
            timeout=PATIENCE,
            check=False,
        )

    def lines(self) -> list[history.Line]:
        """The lines, once each of them names a folder with just that roster."""
        found = history.lines(str(self.folder))
        for it in found:
            text = (self.folder / it.moment / "roster.toml").read_bytes()
            assert hashlib.sha256(text).hexdigest() == it.roster, it
            assert (self.folder / it.moment / "base.sudo").exists(), it
            assert (self.folder / it.moment / "change").exists(), it
        assert [it.moment for it in found] == sorted({it.moment for it in found})
        return found


@pytest.fixture
def kept(tmp_path: Path, desk: str) -> Kept:
    return Kept(tmp_path, desk)


def test_the_same_is_written_once(kept: Kept) -> None:
    ran = kept.write("by=ann", "why=to begin")
    assert ran.returncode == 0 and ran.stdout == f"{kept.folder / kept.lines()[0].moment}\n", ran
    assert kept.write("by=bob").stdout == ran.stdout and len(kept.lines()) == 1
    told = (kept.folder / kept.lines()[0].moment / "change").read_text()
    assert told == "by ann\nwhy to begin\n" and kept.folder.stat().st_mode & 0o077 == 0


def test_it_is_killed(kept: Kept) -> None:
    """At any moment: what is named is whole, and the next run goes on."""
    began = time.monotonic()
    assert kept.write().returncode == 0
    took = time.monotonic() - began
    for number in range(KILLS):
        kept.roster.write_text(f"{SHOWN}# {number}\n")
        before = len(kept.lines())
        with subprocess.Popen(
            kept.words(), env=kept.environment, stdout=subprocess.DEVNULL, start_new_session=True
        ) as call:
            time.sleep(took * (number + 1) / KILLS)
            os.killpg(call.pid, signal.SIGKILL)
        assert len(kept.lines()) in (before, before + 1)
        assert kept.write().returncode == 0 and len(kept.lines()) == before + 1
        assert kept.lines()[-1].roster == hashlib.sha256(kept.roster.read_bytes()).hexdigest()
        left = [it for it in os.listdir(kept.folder) if it.startswith(".") or it.endswith(".new")]
        assert left == [], left


def test_what_is_not_written(kept: Kept) -> None:
    """The fault is named, and nothing is there but what was."""
    ran = kept.write(WANTED="0" * 64)
    assert ran.returncode == 2 and "has changed since it was looked at" in ran.stderr, ran
    assert kept.write().returncode == 0
    before = kept.lines()
    kept.roster.unlink()
    ran = kept.write()
    assert ran.returncode == 2 and "cannot be read" in ran.stderr, ran
    kept.roster.write_text(f"{SHOWN}# later\n")
    kept.base = str(kept.roster)
    ran = kept.write()
    assert ran.returncode == 2 and "the desk refuses the base" in ran.stderr, ran
    assert kept.lines() == before


def test_a_clock_that_is_behind(kept: Kept) -> None:
    """A moment is later than the one before it, or nothing is written."""
    assert kept.write().returncode == 0
    (line,) = (kept.folder / "moments").read_text().splitlines()
    (kept.folder / "20991231000000Z").mkdir()
    (kept.folder / "moments").write_text(line.replace(line[:15], "20991231000000Z") + "\n")
    kept.roster.write_text(f"{SHOWN}# later\n")
    ran = kept.write()
    assert ran.returncode == 2 and "is ahead of the clock" in ran.stderr, ran


@pytest.fixture
def small(tmp_path: Path, desk: str) -> Iterator[Kept]:
    """A history on a disk of its own, which has room for little."""
    if os.geteuid() != 0:
        pytest.skip("a small disk needs root")
    (tmp_path / "history").mkdir()
    words = ["mount", "-t", "tmpfs", "-o", "size=64k,mode=700", "none", str(tmp_path / "history")]
    subprocess.run(words, check=True)
    yield Kept(tmp_path, desk)
    subprocess.run(["umount", "--lazy", tmp_path / "history"], check=True)


def test_a_disk_that_fills(small: Kept) -> None:
    """The one that finds no room leaves nothing behind; and there is room again, it goes on."""
    number = 0
    while (ran := small.write()).returncode == 0:
        number += 1
        assert number < 20, "the disk does not fill"
        small.roster.write_text(f"{SHOWN}# {number}\n")
    assert number > 1 and "No space left" in ran.stderr, ran
    assert len(small.lines()) == number
    (small.folder / small.lines()[0].moment / "base.sudo").unlink()
    for name in ("roster.toml", "change"):
        (small.folder / history.lines(str(small.folder))[0].moment / name).unlink()
    assert small.write().returncode == 0
