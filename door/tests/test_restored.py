"""A site that was lost behind its door, and is made again of a backup (desk-backup, desk-restore):
its signers, its journal and what the journal alone has come back, and the door goes on."""

import shutil
import subprocess
import sys
from pathlib import Path

import pytest

from door.tests.doors import IS_ROOT, SITE, TOP, Doored, ran
from relays.tests.site import BASE, DESK
from steelnewt_client.desk import Desk
from steelnewt_door import verify_program

pytestmark = pytest.mark.skipif(not IS_ROOT, reason="root alone makes a machine again")
PLACES = {
    "site.roster": "etc/desk/roster.toml",
    "desk.db": "var/lib/desk/desk.db",
    "desk.db-wal": "var/lib/desk/desk.db-wal",
    "signers": "etc/desk/signers",
    "journal": "var/lib/desk-door",
}


def tool(name: str, *words: str) -> str:
    """What a program of tools/ prints."""
    path = str(TOP.parent / "tools" / name)
    run = [sys.executable, path, *words]
    done = subprocess.run(run, capture_output=True, text=True, check=False)
    assert done.returncode == 0, done
    return done.stdout


def granted(doored: Doored, no: int) -> None:
    """ann asks, and bob approves, each with their key."""
    asked = doored.request(no=no)
    assert doored.post(doored.sign("ann", asked)) == "ack"
    assert doored.post(doored.sign("bob", doored.verdict(no=no), asked)) == "ack"


def copied(source: Path, target: Path) -> None:
    target.parent.mkdir(parents=True, exist_ok=True)
    if source.is_dir():
        shutil.copytree(source, target, symlinks=True)
    elif source.exists():
        shutil.copy2(source, target)


def tree(folder: Path) -> dict[str, bytes]:
    paths = [it for it in sorted(folder.rglob("*")) if it.is_file()]
    return {str(it.relative_to(folder)): it.read_bytes() for it in paths}


def lost(doored: Doored, older: Path, backups: Path) -> Path:
    """A backup of a machine whose store is older than its journal; and the machine is gone."""
    root = doored.folder / "machine"
    for name, place in PLACES.items():
        copied((older if name.startswith("desk.db") else doored.folder) / name, root / place)
    copied(BASE, root / "etc/desk/base.sudo")
    tool("desk-backup", str(backups), "--root", str(root))
    for name in PLACES:
        path = doored.folder / name
        if path.is_dir():
            shutil.rmtree(path)
        else:
            path.unlink(missing_ok=True)
    shutil.rmtree(root)
    root.mkdir()
    return root


def test_a_site_behind_its_door_comes_back(fresh: Doored) -> None:
    """What the door acknowledged after the store was copied is in its journal, and is filled in.
    Who signs is as it was, and nothing came past the door."""
    older = fresh.folder / "older"
    older.mkdir()
    granted(fresh, 1)
    fresh.site.stop_desk()
    for name in ("desk.db", "desk.db-wal"):
        copied(fresh.folder / name, older / name)
    fresh.site.start_desk()
    granted(fresh, 2)
    before, signers = fresh.all_held(), tree(fresh.folder / "signers")
    fresh.close()
    backups = fresh.folder / "backups"
    root = lost(fresh, older, backups)
    said = tool("desk-restore", str(backups), "--root", str(root), "--desk", DESK)
    assert said.count("FILLED IN from the door's journal: ") == 2, said
    for name, place in PLACES.items():
        copied(root / place, fresh.folder / name)
    assert tree(fresh.folder / "signers") == signers
    fresh.site.start_desk()
    assert fresh.run("begin") == "0 messages of 4 are from before the door\n"
    fresh.start_door()
    assert fresh.all_held() == before
    assert fresh.run("check").endswith("nothing is wrong with the door\n")
    ended = fresh.sign("bob", fresh.verdict(kind="revoke", no=2))
    assert fresh.post(ended) == "ack" and len(fresh.in_force()) == 1
    parts = ["--journal", str(fresh.folder / "journal"), "--signers", str(fresh.folder / "signers")]
    held = fresh.folder / "held"
    held.write_text(Desk(fresh.site.url).get("/v1/messages"))
    found = ran(verify_program.main, ["--site", SITE, *parts, "--messages", str(held)], 0)
    assert "5 messages at the desk, 5 signed by their authors" in found
