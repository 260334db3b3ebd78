"""The program `desk-standing`."""

import argparse
import csv
import io
import json
import os
import sys
import tempfile
from collections.abc import Iterator
from datetime import datetime, timezone
from typing import Any

from desk_tools.decisions import Desk
from desk_tools.found import Parser, visible
from desk_tools.judge import NoDesk, program
from desk_tools.kept import Kept
from desk_tools.made import Made, lines_of, made
from desk_tools.rights import Base, Place, Right, Standing
from desk_tools.served import Failed, file_digest
from desk_tools.times import spread
from desk_tools.toml_text import read as read_toml
from desk_tools.written_out import BadText
from steelnewt_client.moments import BadMoment, of_stamp, stamp

TOLD, FAILED = 0, 2
COLUMNS = """user host target right without password since since_time or_before until runs_others
 rules made""".split()


def parser() -> argparse.ArgumentParser:
    found = Parser(
        "desk-standing",
        description="Says who may do what by a base policy alone, for each user, host and target.",
        epilog="Exit status: 0 it is told, 2 nothing is.",
    )
    found.add_argument("base", metavar="BASE", help="a base, or the desk's history")
    found.add_argument("--at", metavar="AT", help="at this moment, yyyymmddhhmmssZ (now)")
    for name, said in (("user", "of this user"), ("host", "on this host"), ("runas", "as this")):
        found.add_argument(f"--{name}", default="", metavar=name[0].upper(), help=f"{said} alone")
    said = "a roster: its people and hosts are known too"
    found.add_argument("--roster", metavar="ROSTER", help=said)
    forms = found.add_mutually_exclusive_group()
    forms.add_argument("--json", action="store_true", help="print JSON")
    forms.add_argument("--csv", action="store_true", help="print a table, a line for each right")
    found.add_argument("--desk", metavar="PROGRAM", help="the program desk (the one on the path)")
    return found


def bases_of(path: str, at: str, desk: Desk) -> list[Base]:
    """The base of a moment, behind those that were served before it."""
    if not os.path.isdir(path):
        return [Base("", at, path, is_dated=False)]
    return Kept(path, desk, desk.folder).bases(at)


def known(said: argparse.Namespace, standing: Standing) -> None:
    """Refuses a name that neither the base nor the roster has: it is misspelt."""
    roster: dict[str, Any] = {}
    if said.roster:
        with open(said.roster, "rb") as file:
            document = read_toml(file.read())
        if document.faults:
            raise Failed(f"{said.roster}:{document.faults[0].line}: {document.faults[0].said}")
        roster = document.value
    targets = {it for ceiling in roster.get("ceilings", {}).values() for it in ceiling["runas"]}
    for kind, word, more in (
        ("User", said.user, {*roster.get("people", {})}),
        ("Host", said.host, {*roster.get("hosts", [])}),
        ("Runas", said.runas, {"root", *targets}),
    ):
        if word and word not in {*standing.written.names(kind), *more}:
            what = {"User": "person", "Host": "host", "Runas": "target"}[kind]
            if said.roster:
                raise Failed(f"unknown {what} {word}: neither the base nor the roster names it")
            raise Failed(f"unknown {what} {word}: the base names none such (--roster ROSTER)")


# ---- what is told


def data_of(it: Right) -> dict[str, Any]:
    found: dict[str, Any] = {
        "user": it.place.user,
        "host": it.place.host,
        "target": it.place.target,
        "right": it.command,
        "without": list(it.without),
        "password": it.password,
        "rules": list(it.rules),
    }
    if it.more:
        return {**found, "more": it.more, "said": it.more_said}
    if it.since:
        found |= {"since": it.since, "or_before": it.is_before}
    if it.until:
        found["until"] = it.until
    return found | ({"runs_others": it.why} if it.why else {})


def row_of(it: Right, by: str) -> dict[str, str]:
    right = it.more_said if it.more else it.command
    values = (
        *it.place,
        right,
        ", ".join(it.without),
        it.password,
        it.since,
        spread(it.since),
        "yes" if it.since and it.is_before else "",
        it.until,
        it.why,
        "; ".join(it.rules),
        by,
    )
    return dict(zip(COLUMNS, values, strict=True))


def csv_of(rights: list[Right], head: Made) -> str:
    text = io.StringIO()
    table = csv.DictWriter(text, COLUMNS, lineterminator="\n")
    table.writeheader()
    by = "; ".join(lines_of(head))
    table.writerows(row_of(it, by) for it in rights)
    return text.getvalue()


PASSWORDS = {"no": "without a password", "yes": "with a password", "some": "some with a password"}


def said_of(it: Right) -> str:
    """A right in words."""
    if it.more:
        return it.more_said
    what = it.command + (f" but {', '.join(it.without)}" if it.without else "")
    parts = [what, PASSWORDS[it.password]]
    if it.since:
        parts.append(f"since {it.since}" + (" or before" if it.is_before else ""))
    if it.until:
        parts.append(f"until {it.until}")
    if it.why:
        parts.append(f"({it.why})")
    return "  ".join(parts)


def text_of(rights: list[Right], head: Made) -> Iterator[str]:
    """The rights, with the hosts on which somebody has the same in one line."""
    by_place: dict[Place, list[Right]] = {}
    for it in rights:
        by_place.setdefault(it.place, []).append(it)
    groups: dict[tuple[str, str, tuple[tuple[str, tuple[str, ...]], ...]], list[str]] = {}
    for (user, host, target), found in by_place.items():
        said = tuple((said_of(it).replace(f" {host} ", " .. "), it.rules) for it in found)
        groups.setdefault((user, target, said), []).append(host)
    yield "STANDING"
    for (user, target, lines), hosts in groups.items():
        yield f"{user} as {target} on {' '.join(hosts)}"
        for line, rules in lines:
            yield f"  {line}"
            yield from (f"    by  {rule}" for rule in rules)
    yield "MADE"
    yield from lines_of(head)


def standing(said: argparse.Namespace) -> int:
    at = said.at or stamp(datetime.now(timezone.utc))
    of_stamp(at)
    with tempfile.TemporaryDirectory() as folder:
        desk = Desk(program(said.desk), folder)
        bases = bases_of(said.base, at, desk)
        found = Standing(desk, bases, at)
        known(said, found)
        rights = list(found.all(said.user, said.host, said.runas))
        read = [(f"base {it.since}".rstrip(), file_digest(it.path)) for it in bases]
        if said.roster:
            read.append(("roster", file_digest(said.roster)))
        unknown = sorted(found.asked.unknown)
        head = made("desk-standing", desk.run("--version").stdout, read, at=at)
    if said.json:
        rows = ",\n".join(json.dumps(data_of(it)) for it in rights)
        body = f"[\n{rows}\n]" if rights else "[]"
        print(f'{{"made": {json.dumps(head)},\n"standing": {body},')
        print(f'"unknown": {json.dumps(unknown)}}}')
    elif said.csv:
        sys.stdout.write(csv_of(rights, head))
    else:
        print("\n".join(visible(it) for it in text_of(rights, head)))
    return TOLD


def main(words: list[str] | None = None) -> int:
    said = parser().parse_args(words)
    try:
        return standing(said)
    except (Failed, NoDesk, BadText, BadMoment) as fault:
        why = str(fault)
    except OSError as fault:
        why = f"{fault.filename}: {fault.strerror}"
    print(f"desk-standing: {visible(why)}", file=sys.stderr)
    return FAILED
