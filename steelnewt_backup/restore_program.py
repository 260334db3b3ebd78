"""The program `desk-restore`."""

from __future__ import annotations

import argparse
import os
import signal
import sys

from steelnewt_backup import settings
from steelnewt_backup.drill import SHOWN, drill, kept
from steelnewt_backup.faults import Failed, Refused
from steelnewt_backup.lost import Told
from steelnewt_backup.put import Backup, faults
from steelnewt_backup.restore import Wanted, last_of, read_backup, restore, settle, start
from steelnewt_backup.site import DEFAULTS

DONE, OPEN, REFUSED = 0, 1, 2


def parser() -> argparse.ArgumentParser:
    found = argparse.ArgumentParser(
        "desk-restore",
        description="Makes this machine again of a backup, and says what is lost.",
        epilog="Exit status: 0 all is there, 1 something is lost or waits for a person, 2 it is"
        " refused and nothing was begun.",
    )
    said = f"where the backups are (dir of {settings.CONF})"
    found.add_argument("folder", metavar="DIR", nargs="?", help=said)
    found.add_argument("--conf", metavar="FILE", help="the settings of desk-backup")
    found.add_argument("--at", default="", metavar="MOMENT", help="the backup (the newest)")
    said = "the digest that desk-backup printed: another backup is refused"
    found.add_argument("--sha256", default="", metavar="DIGEST", help=said)
    found.add_argument("--identity", default="", metavar="FILE", help="age's key of what is sealed")
    found.add_argument("--of", default="", metavar="HOST", help="it may be this machine's backup")
    said = "these backups were restored on another machine, which is gone"
    found.add_argument("--again", action="store_true", help=said)
    said = "messages of a second desk, or of somebody's mydesk (may be given again)"
    found.add_argument("--messages", action="append", default=[], metavar="FILE", help=said)
    said = "a folder with HOST.json and HOST.sudoers of each host"
    found.add_argument("--heard", default="", metavar="FOLDER", help=said)
    said = "revoke in this person's name what hosts no longer have"
    found.add_argument("--revoke-as", default="", metavar="NAME", help=said)
    jobs = found.add_mutually_exclusive_group()
    said = "look whether the backup is whole, and end"
    jobs.add_argument("--look", action="store_true", help=said)
    said = "restore it beside the desk that serves, compare, and end"
    jobs.add_argument("--drill", action="store_true", help=said)
    said = "of a machine that was restored and not started: fill in and compare once more"
    jobs.add_argument("--settle", action="store_true", help=said)
    said = "start what ran as the backup was taken, and end"
    jobs.add_argument("--start", action="store_true", help=said)
    for name in ("--root", "--desk"):
        found.add_argument(name, default="", help=argparse.SUPPRESS)
    found.add_argument("--live", default=DEFAULTS["ADDR"], help=argparse.SUPPRESS)
    found.add_argument("--room", default="/var/lib/desk-backup", help=argparse.SUPPRESS)
    return found


def folder_of(said: argparse.Namespace) -> str:
    if said.folder:
        return os.path.abspath(str(said.folder))
    conf = said.conf or said.root + settings.CONF
    found = settings.read_settings(conf, must_be=said.conf is not None).folder
    if not found:
        raise Failed(f"name the folder DIR, or write dir = into {conf}")
    return found


def look(backup: Backup) -> int:
    """Says whether a backup is as it was taken."""
    without_sealed = bool(backup.manifest.sealed) and not backup.identity
    found = list(faults(backup, without_sealed))
    print("\n".join(found) or f"the backup {backup.manifest.at} of {backup.manifest.host} is whole")
    if without_sealed:
        print(f"(what is sealed by {backup.manifest.sealed} was not looked at: --identity)")
    return REFUSED if found else DONE


def drilled(said: argparse.Namespace, folder: str, backup: Backup) -> int:
    found = drill(backup, said.live, said.desk, said.room)
    kept(folder, found)
    if found.wrong:
        print(*(f"WRONG: {it}" for it in found.wrong), sep="\n")
        return REFUSED
    print(f"the backup of {found.at} would serve: {found.messages} messages")
    print(f"the live desk has taken {found.since} since; {len(found.other)} lines are others")
    print(*found.other[:SHOWN], sep="\n", end="\n" if found.other else "")
    return DONE


def report(told: Told, at: str, known: dict[str, int], floor: int) -> None:
    """All that a person has to know, each message by itself."""
    for line in told.notes:
        print(f"NOTE: {line}")
    for source, message in told.filled:
        print(f"FILLED IN from {source}: {message}")
    for message in told.again:
        print(f"CAME AGAIN, and may give a right: {message}")
    for source, answer in told.refused:
        print(f"NOT TAKEN ({answer.said}), of {source}: {answer.message}")
    for line in told.lost:
        print(f"LOST: {line}")
    for line in told.open:
        print(f"OPEN: {line}")
    print(f"What was acknowledged from {at} on, and stands above nowhere, is gone.")
    for who, no in sorted(known.items()):
        last = f" (to {floor} at most)" if floor else ""
        print(f"{who} asked up to {who} {no}: what {who} asked behind that is gone{last}")
    if floor:
        print(f"The relay's numbers go on behind {floor}: none is given twice.")


def wanted_of(said: argparse.Namespace) -> Wanted:
    return Wanted(
        said.root, said.of, said.again, tuple(said.messages), said.heard, said.revoke_as, said.desk
    )


def ended(said: argparse.Namespace, told: Told) -> int:
    """Starts what ran, where nothing waits for a person."""
    if told.open or told.refused:
        print("Nothing was started. Look at what is OPEN or NOT TAKEN; then desk-restore --settle")
        print("once more, or desk-restore --start")
        return OPEN
    if not said.root:
        print(*(f"started {it}" for it in start(said.root)), sep="\n")
    return OPEN if told.lost else DONE


def run(said: argparse.Namespace) -> int:
    if said.start:
        print(*(f"started {it}" for it in start(said.root)), sep="\n")
        return DONE
    if said.settle:
        told, known, floor = settle(wanted_of(said))
        report(told, last_of(said.root)["at"], known, floor)
        return ended(said, told)
    folder = folder_of(said)
    backup = read_backup(folder, said.at, said.identity)
    if said.sha256 and said.sha256 != backup.digest:
        raise Failed(f"the backup {backup.manifest.at} has the digest {backup.digest}")
    if said.look:
        return look(backup)
    if said.drill:
        return drilled(said, folder, backup)
    told, known, floor = restore(backup, wanted_of(said))
    report(told, backup.manifest.at, known, floor)
    return ended(said, told)


def end(*_: object) -> None:
    raise Failed("it was told to end: run it again")


def main(words: list[str] | None = None) -> int:
    said = parser().parse_args(words)
    os.umask(0o022)
    signal.signal(signal.SIGTERM, end)
    try:
        return run(said)
    except Refused as fault:
        why = fault.reasons
    except Failed as fault:
        why = [str(fault)]
    except OSError as fault:
        why = [f"{fault.filename or 'the disk'}: {fault.strerror}: mend it, and run it again"]
    except KeyboardInterrupt:
        why = ["it was told to end: run it again"]
    print(*(f"desk-restore: {it}" for it in why), sep="\n", file=sys.stderr)
    return REFUSED
