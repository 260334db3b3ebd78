"""The program `desk-roster`."""

from __future__ import annotations

import argparse
import difflib
import os
import sys
import time

from desk_tools import change, change_program, people, people_settings, served
from desk_tools.change_program import visible_lines
from desk_tools.directory import Unsure, unseen
from desk_tools.found import Parser, visible
from desk_tools.judge import NoDesk
from desk_tools.putting import write
from desk_tools.roster_faults import is_day
from desk_tools.roster_text import CannotEdit
from desk_tools.schema import NoJsonschema
from desk_tools.served import Failed
from steelnewt_client.moments import stamp_of

DONE, DIFFERS, REFUSED = 0, 1, 2
SETTINGS = "/etc/desk/people.toml"


def parser() -> argparse.ArgumentParser:
    found = Parser(
        "desk-roster",
        description="Brings a roster's people up to date, by groups and calendars.",
        epilog="Exit status: 0 nothing differs, or it is written; 1 it would change; 2 refused.",
    )
    found.add_argument("roster", metavar="ROSTER", help="the roster, a copy of the served one")
    found.add_argument("--write", action="store_true", help="write it; else only a diff is shown")
    said = f"which duties come from where ({SETTINGS})"
    found.add_argument("--people", default=SETTINGS, metavar="FILE", help=said)
    said = "also where more than half of the people of a duty lose it"
    found.add_argument("--many", action="store_true", help=said)
    found.add_argument("--on", metavar="DAY", help="as on this day, yyyymmdd, in UTC (today)")
    said = "the settings of the desk whose grants are compared"
    found.add_argument("--conf", default=served.CONF, metavar="FILE", help=said)
    found.add_argument("--desk", metavar="PROGRAM", help="the program desk (the one on the path)")
    return found


def differing(name: str, old: str, new: str) -> str:
    lines = difflib.unified_diff(
        old.splitlines(), new.splitlines(), name, f"{name} (new)", lineterm="", n=1
    )
    return "".join(f"{visible(line)}\n" for line in lines)


def grants(said: argparse.Namespace, new: bytes) -> None:
    """Which grants change, where the desk's store is on this machine."""
    settings = served.settings(said.conf)
    if settings.store == served.NO_STORE:
        print("(the desk has no store: no grant outlasts a restart)")
        return
    if not os.path.exists(settings.store):
        print(f"(there is no store {settings.store} here: which grants change is not known)")
        return
    said.service = ""
    found = change.compare(change_program.desk_of(said), new, stamp_of(int(time.time())))
    change_program.show(found, new)


def is_served(said: argparse.Namespace) -> bool:
    """Whether the file is the one that the service reads."""
    roster = served.settings(said.conf).roster
    return os.path.exists(roster) and os.path.samefile(roster, said.roster)


def followed(said: argparse.Namespace) -> int:
    with open(said.roster, "rb") as file:
        data = file.read()
    today = said.on or time.strftime("%Y%m%d", time.gmtime())
    if said.write and is_served(said):
        raise Failed("the desk is served with this file: write a copy, and desk-change-roster it")
    settings = people_settings.settings(said.people)
    groups = {it["getent"] for it in settings.get("duties", {}).values() if "getent" in it}
    for told in filter(None, map(unseen, sorted(groups))):
        print(visible(told), file=sys.stderr)
    found = people.People(data, today, settings, said.many)
    new = found.look()
    for remark in found.remarks:
        print(f"desk-roster: {visible(remark)}", file=sys.stderr)
    if new.encode() == data:
        print("The roster has these people already.")
        return DONE
    sys.stdout.write(differing(said.roster, data.decode(), new))
    moved = "".join(f"{it.person} has {it.duty} {it.said}\n" for it in found.moved)
    sys.stdout.write(visible_lines(moved))
    grants(said, new.encode())
    if not said.write:
        print("Nothing is written without --write.")
        return DIFFERS
    write(os.path.realpath(said.roster), new.encode(), said.roster)
    print(f"{visible(said.roster)} is written. Give it to the desk: desk-change-roster")
    return DONE


def main(words: list[str] | None = None) -> int:
    found = parser()
    said = found.parse_args(words)
    if said.on and not is_day(said.on):
        found.error("--on: a day is yyyymmdd")
    try:
        return followed(said)
    except (Unsure, CannotEdit, Failed, NoDesk) as fault:
        why = str(fault)
    except NoJsonschema:
        why = "it needs Debian's package python3-jsonschema"
    except (ValueError, KeyError, TypeError) as fault:
        why = f"something else is there than is expected: {fault}"
    except OSError as fault:
        why = f"{fault.filename}: {fault.strerror}"
    print(f"desk-roster: {visible(why)}: nothing is changed", file=sys.stderr)
    return REFUSED
