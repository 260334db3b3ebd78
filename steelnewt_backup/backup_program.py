"""The program `desk-backup`."""

from __future__ import annotations

import argparse
import os
import signal
import sys
from dataclasses import replace

from steelnewt_backup import settings
from steelnewt_backup.backup import backup
from steelnewt_backup.faults import Failed
from steelnewt_backup.follow import follow
from steelnewt_backup.listed import items_of, site_part, the_list
from steelnewt_backup.settings import Settings
from steelnewt_backup.site import Site

DONE, FAILED = 0, 2


def parser() -> argparse.ArgumentParser:
    found = argparse.ArgumentParser(
        "desk-backup",
        description="Takes all state of this machine while it serves, into a folder of its own.",
        epilog="Exit status: 0 the backup is whole, 2 nothing was taken.",
    )
    said = "where the backups are: another disk, root's alone"
    found.add_argument("folder", metavar="DIR", nargs="?", help=said)
    found.add_argument("--conf", metavar="FILE", help=f"the settings ({settings.CONF})")
    said = "seal what is secret to this recipient of age, or gpg:FINGERPRINT (may be given again)"
    found.add_argument("--recipient", action="append", metavar="WHO", help=said)
    found.add_argument("--seal", choices=["secret", "all"], help="what is sealed (secret)")
    found.add_argument("--keep", type=int, metavar="DAYS", help="days whose backups stay (30)")
    jobs = found.add_mutually_exclusive_group()
    jobs.add_argument("--list", action="store_true", help="print what would be taken, and end")
    said = "write each message of the outbox beside the backups, until SIGTERM"
    jobs.add_argument("--follow", action="store_true", help=said)
    found.add_argument("--root", default="", help=argparse.SUPPRESS)
    return found


def settings_of(said: argparse.Namespace) -> Settings:
    conf = said.conf or said.root + settings.CONF
    found = settings.read_settings(conf, must_be=said.conf is not None)
    if said.folder:
        found = replace(found, folder=os.path.abspath(said.folder))
    if said.recipient:
        found = replace(found, recipients=tuple(said.recipient))
    found = replace(found, seal=said.seal or found.seal)
    if said.keep is not None:
        found = replace(found, keep=said.keep)
    if not found.folder and not said.list:
        raise Failed(f"name the folder DIR, or write dir = into {conf}")
    return settings.checked(conf, found)


def show(found: Settings, root: str) -> None:
    """Prints each file that would be taken, and what stays."""
    taken, left = the_list()
    for part in (*taken, *([site_part(list(found.also))] if found.also else [])):
        for item in items_of(part, root):
            if not os.path.isdir(root + item.path):
                how = "secret" if item.is_secret else "store" if item.is_store else "plain"
                print(f"{how:6} {item.path}")
    for stays in left:
        print(f"stays  {' '.join(stays.paths)}: {stays.why}")


def run(said: argparse.Namespace) -> None:
    found = settings_of(said)
    if said.list:
        show(found, said.root)
        return
    if said.follow:
        follow(Site(said.root), found)
        return
    made = backup(found, said.root)
    sealed = f"sealed to {', '.join(found.recipients)}" if found.recipients else "NOT SEALED"
    print(f"{os.path.join(found.folder, made.at)}: {made.files} files, {made.written} bytes new;")
    print(f"what is secret is {sealed}")
    print(f"sha256 {made.digest}")
    for moment in made.removed:
        print(f"removed {moment}")


class Told(Exception):
    """Told to end, while it only follows."""


def end(*_: object) -> None:
    """Told to end: what was begun is removed."""
    if "--follow" in sys.argv:
        raise Told
    raise Failed("it was told to end")


def main(words: list[str] | None = None) -> int:
    said = parser().parse_args(words)
    os.umask(0o077)
    signal.signal(signal.SIGTERM, end)
    try:
        run(said)
        return DONE
    except Told:
        return DONE
    except Failed as fault:
        why = str(fault)
    except OSError as fault:
        why = f"{fault.filename or 'the disk'}: {fault.strerror}"
    except KeyboardInterrupt:
        why = "it was told to end"
    print(f"desk-backup: {why}: no backup was made", file=sys.stderr)
    return FAILED
