#!/usr/bin/env python3
"""desk-backup and desk-restore over a machine's state in a folder: what comes back is what was
there; what others still have is filled in, the rest is named; and each bad input is refused by
name, with nothing begun.

Over build/desk, or the program that DESK names. Needs root, sqlite3, and Debian's packages age and
gpg for what is sealed."""

from __future__ import annotations

import json
import os
import re
import shutil
import subprocess
import sys
import tempfile
import time
from collections.abc import Callable, Iterator

from steelnewt_backup.backup import expired
from steelnewt_relay.outbox import Outbox
from tests.backup import cuts, history
from tests.backup.room import BASE, DAY, HISTORY, OUTBOX, PATIENCE, PROGRAM, ROSTER, SECRETS
from tests.backup.room import STORE, Room, Row, made, said, tried, wish
from tests.common import desk


def round_trip(folder: str) -> Iterator[Row]:
    """What comes back is what was there, byte for byte, with its modes."""
    room = made(folder, "round")
    before, held = room.files(), room.held()
    yield "a backup", *said(room.backup(), 0, r"files, \d+ bytes new", "NOT SEALED", "sha256 ")
    yield "it is root's alone", os.stat(room.backups).st_mode & 0o777 == 0o700, ""
    yield "it is whole", *said(room.restore("--look"), 0, "is whole")
    room.lose()
    ran = room.restore()
    yield "a restore", *said(ran, 0, "numbers go on behind 11000", "ann asked up to ann 6")
    after = room.files()
    # (the outbox has one more row, of the numbers)
    other = {it for it in before.keys() | after.keys() if before.get(it) != after.get(it)}
    yield "what was there", other <= {OUTBOX, f"{OUTBOX}-wal", f"{STORE}-wal", STORE}, other
    yield "each message", room.held() == held and len(held) == 12, held
    outbox = Outbox(room.path(OUTBOX))
    at = desk.stamp(time.time() - 60)
    numbers = [outbox.keep_request(it, wish(1, time.time()), at) for it in ("ann", "eve")]
    outbox.close()
    yield "no number twice", [it.request.no for it in numbers] == [11001, 11001], numbers
    unfinished = room.path("/var/lib/desk-restore/unfinished")
    yield "nothing is unfinished", not os.path.exists(unfinished), ""
    left = [it for it in room.files() if it.endswith("zz-restoring.conf")]
    yield "every unit may start", not left, left


def grows(folder: str) -> Iterator[Row]:
    """What did not change is not written again; each backup is whole by itself."""
    room = made(folder, "grows")
    first = room.backup()
    again = room.backup()
    yield "nothing new", *said(again, 0, " 0 bytes new")
    room.write("/etc/desk/bells", "ann ann@site\n")
    yield "what grew", *said(room.backup(), 0, " 13 bytes new")
    moments = room.moments()
    shutil.rmtree(os.path.join(room.backups, moments[0]))
    yield "the first is gone", *said(room.restore("--look"), 0, "is whole")
    piece = next(os.scandir(os.path.join(room.backups, moments[1], "pieces"))).path
    with open(piece, "ab") as file:
        file.write(b"!")
    yield "a piece that changed is not taken over", *said(room.backup(), 0, r" [1-9]\d* bytes new")
    yield "and the new one is whole", *said(room.restore("--look"), 0, "is whole")
    yield "the other is not", *said(room.restore("--look", "--at", moments[1]), 2, "cut or altered")
    yield "what the first one said", first.returncode == 0, first


def unmounted(folder: str) -> Iterator[Row]:
    """The disk of the backups is away: nothing is put where it was."""
    room = made(folder, "away", 2)
    room.backup()
    os.rename(room.backups, f"{room.backups}.away")
    os.mkdir(room.backups, 0o700)
    yield "an empty folder", *said(room.backup(), 2, "is empty: is its disk mounted")
    yield "nothing is there", os.listdir(room.backups) == [], os.listdir(room.backups)


def bounded() -> Iterator[Row]:
    """Which backups go."""
    moments = [f"202601{day:02}{hour:02}0000Z" for day in range(1, 31) for hour in (1, 13)]
    gone = expired(moments, 7)
    kept = [it for it in moments if it not in gone]
    last = ["20260124130000Z", "20260125130000Z", "20260126130000Z", "20260127130000Z"]
    yield "the last of each day", kept[:4] == last, kept
    yield "all of two days", kept[-4:] == moments[-4:] and len(kept) == 9, kept
    yield "none of few", expired(moments[:3], 30) == [], ""


def sealed(folder: str) -> Iterator[Row]:
    """Secrets are sealed to age's and to gpg's recipients, and nothing of them stands elsewhere."""
    room, key = made(folder, "sealed"), os.path.join(folder, "age.key")
    tried(["age-keygen", "-o", key])
    to = re.search("age1[a-z0-9]+", desk.read(key))
    made_of = room.backup("--recipient", to[0] if to else "")
    yield "a backup", *said(made_of, 0, "sealed to age1")
    whole = b"".join(
        open(it.path, "rb").read()
        for it in os.scandir(os.path.join(room.backups, room.moments()[-1], "pieces"))
    )
    yield "no secret in it", not any(room.read(it) in whole for it in SECRETS), ""
    yield "and what is plain", room.read(ROSTER) in whole, ""
    looked = room.restore("--look")
    yield "without its key it says what it did not see", *said(looked, 0, "by age was not")
    again = room.backup("--recipient", to[0] if to else "")
    yield "again, nothing new", *said(again, 0, " 0 bytes new")
    before = {it: room.read(it) for it in SECRETS}
    room.lose()
    yield "no key, no restore", *said(room.restore(), 2, "ca.key: it is sealed: name the file")
    yield "nothing was begun", room.files() == {}, room.files()
    other = os.path.join(folder, "other.key")
    tried(["age-keygen", "-o", other])
    yield "another key", *said(room.restore("--identity", other), 2, "ca.key: age: ")
    yield "with its key", *said(room.restore("--identity", key), 0, "none is given twice")
    yield "the secrets", {it: room.read(it) for it in SECRETS} == before, ""
    wrong = room.backup("--recipient", "nobody")
    yield "a recipient that is none", *said(wrong, 2, "age: ", "no backup was made")
    yield from by_gpg(folder)


def by_gpg(folder: str) -> Iterator[Row]:
    room, home = made(folder, "gpg"), os.path.join(folder, "ring")
    os.mkdir(home, 0o700)
    os.environ["GNUPGHOME"] = home
    words = ["gpg", "--batch", "--passphrase", "", "--quick-gen-key", "site <site@desk.example>"]
    tried(words)
    listed = tried(["gpg", "--list-keys", "--with-colons"]).stdout
    print_of = re.search(r"^fpr:+([0-9A-F]{40}):", listed, re.MULTILINE)
    to = f"gpg:{print_of[1] if print_of else ''}"
    yield "gpg", *said(room.backup("--recipient", to, "--seal", "all"), 0, "sealed to gpg:")
    room.lose()
    yield "from gpg", *said(room.restore(), 0, "none is given twice")
    tried(["gpgconf", "--kill", "all"])
    del os.environ["GNUPGHOME"]


def filled(folder: str) -> Iterator[Row]:
    """What the outbox, the journal and a second desk have comes back; each is named."""
    room = made(folder, "filled")
    room.backup()
    in_outbox = room.ask(range(7, 9), posts=False)
    room.write("/tmp/box", b"")
    room.backup()
    # (the store of the backup has not what the outbox has: it was taken before it)
    room.note(in_journal := room.ask(range(20, 22), posts=False, keeps=False))
    room.backup()
    second = room.ask(range(30, 32), posts=False, keeps=False)
    listed = desk.write(folder, "second", "".join(f"{it}\n" for it in second))
    signed = desk.write(folder, "signed", f"{room.ask([40], posts=False, keeps=False)[0]}\tssh:x\n")
    before = room.held()
    room.lose()
    ran = room.restore("--messages", listed, "--messages", signed)
    yield "all is there", *said(ran, 0, "numbers go on behind 11000")
    lost = {*in_outbox, *in_journal, *second} - room.held()
    yield "0 are lost that somebody has", not lost and before < room.held(), lost
    named = re.findall(r"^FILLED IN from (.*?): (\{.*\})$", ran.stdout, re.MULTILINE)
    wanted = {*in_outbox, *in_journal, *second}
    yield "each is named", {it for _, it in named} > wanted and len(named) == len(wanted) + 1, named
    ways = {what for what, _ in named}
    yield "and where it was", ways == {"the outbox", "the door's journal", listed, signed}, ways
    again = re.findall(r"^CAME AGAIN, and may give a right: (\{.*\})$", ran.stdout, re.MULTILINE)
    approvals = {it for it in wanted if '"kind":"approve"' in it}
    yield "approvals that came again are told", set(again) == approvals, again


def followed(folder: str) -> Iterator[Row]:
    """What is said behind the last backup is written beside it, and comes back."""
    room = made(folder, "followed", 2)
    room.backup()
    words = [sys.executable, "-I", os.path.join(desk.ROOT, "tools", "desk-backup"), room.backups]
    with subprocess.Popen([*words, "--root", room.root, "--follow"]) as follows:
        said_now = room.ask(range(3, 5))
        until = time.monotonic() + PATIENCE
        while not all(it in written(room) for it in said_now) and time.monotonic() < until:
            time.sleep(0.2)
        follows.terminate()
        yield "it ends when it is told to", follows.wait() == 0, ""
    yield "each message is written", all(it in written(room) for it in said_now), written(room)
    with open(path_of_said(room), "a", encoding="utf-8") as file:
        file.write('9 {"cut')
    room.lose()
    ran = room.restore()
    yield "nothing is lost", *said(ran, 0, "FILLED IN from what was said since: ")
    yield "all is there", set(said_now) < room.held(), room.held()
    yield "seal = all", *said(room.backup("--follow", "--seal", "all"), 2, "as it is")


def path_of_said(room: Room) -> str:
    names = [it for it in os.listdir(room.backups) if it.startswith("said-")]
    return os.path.join(room.backups, max(names, default="said-00000000"))


def written(room: Room) -> str:
    path = path_of_said(room)
    return desk.read(path) if os.path.exists(path) else ""


def not_admitted(folder: str) -> Iterator[Row]:
    """What today's roster does not admit is named, and nothing starts."""
    room = made(folder, "admitted")
    room.backup()
    stranger = desk.request(50, by="zed", at=desk.stamp(time.time()))
    listed = desk.write(folder, "strangers", f"{stranger}\n")
    room.lose()
    ran = room.restore("--messages", listed)
    named = r"NOT TAKEN \(A1 UnknownPerson\), of .*zed"
    yield "a stranger's", *said(ran, 1, named, "Nothing was started")


def heard(folder: str) -> Iterator[Row]:
    """A host that has heard of more messages is believed."""
    room = made(folder, "heard")
    room.backup()
    roster = desk.run(["sha256sum", room.path(ROSTER)]).stdout.split()[0]
    now = time.time()
    revoked = desk.approval(1, at=desk.stamp(now), kind="revoke", by="bob")
    room.deliver([*room.ask([9], posts=False, keeps=False), revoked])
    words = [PROGRAM, "print", *(room.path(it) for it in (ROSTER, BASE, STORE)), "db1"]
    lines, count = desk.run(words).stdout, len(room.held())
    brought = os.path.join(folder, "brought")
    os.mkdir(brought)
    desk.write(brought, "db1.sudoers", lines)
    told = {"installed": [[count, roster, "0" * 64]]}
    desk.write(brought, "db1.json", json.dumps(told))
    room.lose()
    ran = room.restore("--heard", brought)
    yield "what is lost", *said(ran, 1, "db1 has heard of 15 messages, and 12 came back: 3 ")
    given = re.findall(r"^LOST: granted, and nobody knows by which .*: (.*)$", ran.stdout, re.M)
    yield "a grant that a host has", len(given) == 1 and "/usr/bin/id" in given[0], ran
    form = r"^OPEN: db1 has it no more, so it was revoked: (.*?): ann db1"
    open_ = re.findall(form, ran.stdout, re.M)
    yield "a revocation that a host has", open_ == ["ann 1"], ran
    yield "nothing starts", "Nothing was started" in ran.stdout, ran
    earlier = {"installed": [[count, "e" * 64, "0" * 64]]}
    with open(room.path(f"{HISTORY}/moments"), "r+", encoding="ascii") as file:
        rows = file.read()
        file.seek(0)
        file.write(f"20251231000000Z {'e' * 64} {'0' * 64}\n{rows}")
    desk.write(brought, "db1.json", json.dumps(earlier))
    ran = room.restore("--settle", "--heard", brought)
    yield "a roster of before is none of later", "had a roster of" not in ran.stdout, ran
    yield "and what it heard counts", *said(ran, 1, "db1 has heard of 15 messages, and 12 came")
    newer = {"installed": [[count, roster, "0" * 64], [3, "f" * 64, "0" * 64]]}
    desk.write(brought, "db1.json", json.dumps(newer))
    other = room.restore("--settle", "--heard", brought)
    yield "a roster of later", *said(other, 1, "OPEN: db1 had a roster of sha256 ffffffffffffffff")
    desk.write(brought, "db1.json", json.dumps(told))
    early = room.restore("--settle", "--heard", brought)
    yield "it stays open", *said(early, 1, "OPEN: db1 has it no more")
    ran = room.restore("--settle", "--heard", brought, "--revoke-as", "bob")
    yield "revoked", *said(ran, 1, "FILLED IN from what hosts no longer have: .*\"no\":1,")
    now_there = {it for it in desk.run(words).stdout.splitlines() if is_live(it)}
    gone = now_there - set(lines.splitlines())
    yield "the desk gives nothing that the host has not", not gone, gone
    yield "and nothing is open", "OPEN" not in ran.stdout, ran


def is_live(line: str) -> bool:
    """Whether a dated line of a host's file is not over."""
    found = re.search("NOTAFTER=([0-9]{14}Z)", line)
    return found is not None and found[1] >= desk.stamp(time.time())


def bad_backups(folder: str) -> Iterator[Row]:
    """A backup that was cut, altered, is another's, or a newer version's."""
    room = made(folder, "bad", 2)
    room.backup()
    room.lose()
    whole = room.backups
    for name, spoil, says in SPOILT:
        room.backups = os.path.join(folder, name)
        shutil.copytree(whole, room.backups)
        spoil(os.path.join(room.backups, room.moments()[-1]))
        ran = room.restore()
        yield name, *said(ran, 2, says)
        yield f"{name}: nothing was begun", room.files() == {}, room.files()


def piece_of(at: str) -> str:
    """The first piece of the store."""
    with open(os.path.join(at, "manifest.json"), encoding="utf-8") as file:
        entries = json.load(file)["entries"]
    [store] = [it for it in entries if it["path"] == STORE]
    return os.path.join(at, "pieces", store["pieces"][0]["sha256"])


def rewritten(folder: str, **members: object) -> None:
    path = os.path.join(folder, "manifest.json")
    told = json.loads(desk.read(path)) | members
    desk.write(folder, "manifest.json", json.dumps(told))


def cut(path: str) -> None:
    os.truncate(path, os.path.getsize(path) // 2)


def altered(path: str) -> None:
    with open(path, "r+b") as file:
        file.seek(4_096)
        file.write(b"XX")


def with_entry(at: str, **members: object) -> None:
    path = os.path.join(at, "manifest.json")
    told = json.loads(desk.read(path))
    told["entries"].append(told["entries"][-1] | members)
    desk.write(at, "manifest.json", json.dumps(told))


SPOILT: tuple[tuple[str, Callable[[str], object], str], ...] = (
    ("a piece is gone", lambda at: os.unlink(piece_of(at)), "desk.db: a piece is not there"),
    ("a piece is cut", lambda at: cut(piece_of(at)), "desk.db: a piece was cut or altered"),
    ("a piece is altered", lambda at: altered(piece_of(at)), "desk.db: a piece was cut or altered"),
    ("the list is cut", lambda at: cut(f"{at}/manifest.json"), "manifest.json was cut or altered"),
    ("the list is gone", lambda at: os.unlink(f"{at}/manifest.json"), "has no whole backup"),
    ("a newer version", lambda at: rewritten(at, format=2), "a newer version made this"),
    ("newer packages", lambda at: rewritten(at, packages={"steelnewt": "99"}), "install 99"),
    ("another machine", lambda at: rewritten(at, host="web7"), "is the backup of web7, and this"),
    ("another moment", lambda at: rewritten(at, at="20260101000000Z"), "says that it is 2026"),
    ("another place", lambda at: with_entry(at, path="/etc/shadow"), "shadow: the list has no"),
    ("a way out", lambda at: with_entry(at, path="/etc/desk/../shadow"), "is no entry"),
    ("no account", lambda at: with_entry(at, path="/etc/desk/x", owner="zed"), "no account zed"),
)


def bad_machines(folder: str) -> Iterator[Row]:
    """A machine that has state, twice at once, twice in a row, a digest, a full disk."""
    room = made(folder, "there", 2)
    first = room.backup()
    room.ask([5])
    ran = room.restore()
    yield "state that is there", *said(ran, 2, "desk.db is there, and is another: move it away")
    room.lose()
    wrong = room.restore("--sha256", "0" * 64)
    yield "another digest", *said(wrong, 2, "has the digest")
    sha = re.search("sha256 ([0-9a-f]{64})", first.stdout)
    yield "its digest", *said(room.restore("--sha256", sha[1] if sha else ""), 0, "given twice")
    room.lose()
    room.write("/etc/machine-id", "another\n")
    yield "twice", *said(room.restore(), 2, "was made of these backups at .*: --again")
    yield "again", *said(room.restore("--again"), 0, "given twice")
    yield from full(folder)
    yield from at_once(folder)


def at_once(folder: str) -> Iterator[Row]:
    room = made(folder, "once", 2)
    room.backup()
    room.lose()
    os.makedirs(room.path("/var/lib/desk-restore"))
    # (-o: the lock goes with flock itself)
    own = room.path("/var/lib/desk-restore")
    with subprocess.Popen(["flock", "-o", own, "sleep", "30"]) as other:
        time.sleep(0.5)
        yield "two restores at once", *said(room.restore(), 2, "another restore runs")
        other.kill()
    room.restore()
    with subprocess.Popen(["flock", "-o", room.backups, "sleep", "30"]) as other:
        time.sleep(0.5)
        yield "two backups at once", *said(room.backup(), 2, "another program works on")
        other.kill()
    lock = "/var/lib/dpkg/lock-frontend"
    held = f"import fcntl,time; f=open({lock!r},'a'); fcntl.lockf(f,fcntl.LOCK_EX);"
    held += " print(flush=True); time.sleep(5)"
    with subprocess.Popen([sys.executable, "-c", held], stdout=subprocess.PIPE) as other:
        assert other.stdout
        other.stdout.readline()
        begun = time.monotonic()
        ran = room.backup()
        yield "an upgrade is waited for", ran.returncode == 0 and time.monotonic() - begun > 4, ran
    moment = room.moments()[-1]
    room.write("/nothing", "")
    with open(os.path.join(room.backups, "machine"), "w", encoding="utf-8") as file:
        file.write("web7\n")
    yield "another machine's folder", *said(room.backup(), 2, "has the backups of web7, and this")
    os.chmod(room.backups, 0o755)
    yield "a folder that others read", *said(room.backup(), 2, "alone: chmod 700")
    yield "what was there stays", room.moments()[-1] == moment, ""


def upgraded(folder: str) -> Iterator[Row]:
    """Packages that are others at the end than at the beginning: what was taken belongs to none."""
    room, stand_in = made(folder, "upgraded", 2), os.path.join(folder, "bin")
    os.mkdir(stand_in)
    counts = f"echo >> {folder}/asked; echo installed steelnewt 1.$(wc -l < {folder}/asked)"
    os.chmod(desk.write(stand_in, "dpkg-query", f"#!/bin/sh\n{counts}\n"), 0o755)
    ran = room.backup(before=("env", f"PATH={stand_in}:{os.environ['PATH']}"))
    yield "an upgrade meanwhile", *said(ran, 2, "packages were installed meanwhile", "no backup")
    left = [it for it in os.listdir(room.backups) if it != "machine"]
    yield "nothing is left of it", not left, left


def full(folder: str) -> Iterator[Row]:
    """A disk that fills: all is as before."""
    room = made(folder, "full", 2)
    small = os.path.join(folder, "small")
    os.mkdir(small)
    tried(["mount", "-t", "tmpfs", "-o", "size=64k,mode=700", "none", small])
    try:
        room.backups = small
        ran = room.backup()
        yield "the backup's disk is full", *said(ran, 2, "No space left", "no backup was made")
        yield "nothing is left", sorted(os.listdir(small)) in ([], ["machine"]), os.listdir(small)
        room.backups = os.path.join(room.folder, "backups")
        room.backup()
        room.lose()
        room.root = small
        yield "the machine's disk", *said(room.restore(), 2, "has no room for")
    finally:
        tried(["umount", small])


def drills(folder: str) -> Iterator[Row]:
    """The drill says that the backup would serve, and what is other at the live desk."""
    room = made(folder, "drill")
    room.backup()
    live = f"unix:{folder}/live.sock"
    more = ("--drill", "--live", live, "--room", os.path.join(folder, "drills"))
    files = [room.path(it) for it in (ROSTER, BASE, STORE)]
    with subprocess.Popen([PROGRAM, "serve", *files, live], stderr=subprocess.DEVNULL) as served:
        for _ in range(200):
            if os.path.exists(f"{folder}/live.sock"):
                break
            time.sleep(0.1)
        ran = room.restore(*more)
        yield "as it is", *said(ran, 0, "would serve: 12 messages", "taken 0 since; 0 ")
        revoke = desk.approval(1, at=desk.stamp(time.time()), kind="revoke", by="bob")
        words = ["curl", "-s", "--unix-socket", f"{folder}/live.sock", "--data-binary", revoke]
        tried([*words, "http://desk/v1/relays/chat/messages"])
        ran = room.restore(*more)
        yield "a revocation since", *said(ran, 0, "taken 1 since", "only the backup's: ann db1")
        served.terminate()
    yield "the live desk is down", *said(room.restore(*more), 0, "the live desk was not asked")
    altered(piece_of(os.path.join(room.backups, room.moments()[-1])))
    yield "a backup that was altered", *said(room.restore(*more), 2, "WRONG: .*desk.db")
    check = [sys.executable, os.path.join(desk.EXAMPLES, "monitoring", "check_desk.py")]
    ran = desk.run([*check, "--backup", room.backups])
    yield "check_desk", *said(ran, 2, "CRITICAL - the backup .* would not serve: .*/desk.db")
    yield "nothing is left", os.listdir(os.path.join(folder, "drills")) == [], ""
    still = tried(["pgrep", "-f", f"serve {folder}/drills/"]).stdout
    yield "no desk goes on", not still, still


def checked(folder: str) -> Iterator[Row]:
    """check_desk --backup: none, one that was never tried, one that is old."""
    room = made(folder, "checked", 2)
    os.mkdir(room.backups, 0o700)
    check = [sys.executable, os.path.join(desk.EXAMPLES, "monitoring", "check_desk.py")]
    words = [*check, "--backup", room.backups]
    yield "none", *said(desk.run(words), 2, "it has no whole backup")
    room.backup()
    yield "never tried", *said(desk.run(words), 1, "was ever tried", "desk_backup_age_seconds=")
    old = desk.stamp(time.time() - 2 * DAY)
    os.rename(os.path.join(room.backups, room.moments()[-1]), os.path.join(room.backups, old))
    yield "old", *said(desk.run(words), 2, "is 48 hours old")


PARTS: tuple[Callable[[str], Iterator[Row]], ...] = (
    round_trip, grows, history.changes_meanwhile, history.at_its_most, unmounted,
    lambda _: bounded(), sealed, filled, followed, not_admitted, heard, bad_backups, bad_machines,
    upgraded, drills, checked, cuts.cut_out,
)  # fmt: skip


def main() -> int:
    names = sys.argv[1:]
    count = wrong = 0
    for part in PARTS:
        if names and getattr(part, "__name__", "") not in names:
            continue
        with tempfile.TemporaryDirectory(prefix="b", dir="/tmp") as folder:
            for what, is_right, found in part(folder):
                count += 1
                if not is_right:
                    wrong += 1
                    print(f"{part.__name__}, {what}: otherwise. {str(found)[-900:]}", flush=True)
    print(f"backups of a folder: {count} checks, {wrong} wrong")
    return 1 if wrong or not count else 0


if __name__ == "__main__":
    sys.exit(main())
