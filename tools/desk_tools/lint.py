"""The program `desk-lint`."""

import argparse
import json
import sys
from datetime import datetime, timezone
from typing import Any

from desk_tools import admission, explain, message_faults, near, roster_faults
from desk_tools.base_faults import Base, warnings_of
from desk_tools.found import Fault, Parser, Warning, coded, first_code, visible
from desk_tools.judge import NoDesk, program
from desk_tools.outlasting import Grants
from desk_tools.schema import NoJsonschema
from desk_tools.site import Site
from desk_tools.warnings import Warnings

CLEAN, WARNED, FAULTY = 0, 1, 2


class Looked:
    """A file, and what was found in it: for a roster the code that the desk answers, and for messages that of each line."""

    def __init__(self, name: str, kind: str) -> None:
        self.name, self.kind = name, kind
        self.faults: list[Fault] = []
        self.warnings: list[Warning] = []
        self.answers: dict[int, str] = {}
        self.answer: str | None = None
        self.is_cut = False
        self.count = 1

    def as_data(self) -> dict[str, Any]:
        found = {
            "file": self.name,
            "kind": self.kind,
            "faults": [dict(fault._asdict(), name=coded(fault.code)) for fault in self.faults],
            "warnings": [warning._asdict() for warning in self.warnings],
        }
        if self.kind != "messages":
            return found | {"answer": self.answer}
        return found | {"messages": self.count, "answers": {str(line): coded(code) for line, code in self.answers.items()}}

    def as_text(self) -> str:
        lines = [f"{self.name}:{it.line}: {coded(it.code)}: {value_of(it.key, it.value)}{it.expected}" for it in self.faults]
        lines += [f"{self.name}:{it.line}: {'note' if it.is_note else 'warning'}: {it.key}: {it.said}" for it in self.warnings]
        if self.is_cut:
            lines.append(f"{self.name}: there are more faults; correct these, and run it again")
        if self.answer:
            lines.append(f"{self.name}: refused; of these faults the desk names {self.answer}")
        elif self.kind == "messages" and self.answers:
            lines.append(f"{self.name}: {len(self.answers)} of {self.count} {'line is' if self.count == 1 else 'lines are'} refused")
        return "".join(f"{visible(line)}\n" for line in lines)


def value_of(key: str, value: str) -> str:
    where = f"{key} = {value}" if key and value else key or value
    return f"{where}: " if where else ""


def kind_of(name: str, data: bytes) -> str:
    """A roster, a base or messages: by the name, else by the first byte."""
    if name.endswith(".sudo"):
        return "base"
    if name.endswith(".toml"):
        return "roster"
    if name.endswith((".json", ".jsonl", ".messages")):
        return "messages"
    return "messages" if data.lstrip().startswith(b"{") else "roster"


def look_at_roster(name: str, data: bytes, today: str, percent: int | None = None) -> Looked:
    looked, roster = Looked(name, "roster"), roster_faults.Roster(data)
    looked.faults = roster.look()
    code = first_code(looked.faults)
    looked.answer = coded(code) if code else None
    if not looked.faults:
        looked.warnings = Warnings(roster.document, today).look()
    if not looked.faults and percent is not None:
        used = near.of_roster(roster.document, len(data))
        looked.warnings += near.warnings_of(used, percent, roster.document)
    return looked


def look_at_base(name: str, data: bytes, desk: str, percent: int | None = None) -> Looked:
    looked, base = Looked(name, "base"), Base(desk, data)
    looked.faults = base.look()
    looked.answer, looked.is_cut = base.answer, base.is_cut
    if not looked.faults:
        looked.warnings = warnings_of(data)
    if not looked.faults and percent is not None:
        used = near.of_base(near.canonical_of(desk, data))
        looked.warnings += near.warnings_of(used, percent, None)
    return looked


def look_at_messages(name: str, data: bytes, grants: Grants | None) -> Looked:
    looked = Looked(name, "messages")
    lines = message_faults.lines_of(data)
    looked.count = len(lines)
    if len(lines) > 1 and (folded := message_faults.folded(data)) is not None:
        looked.faults = folded
        looked.answers = dict.fromkeys(range(1, len(lines) + 1), "M2")
        return looked
    for line, body in enumerate(lines, 1):
        message = message_faults.Message(body, line)
        faults = message.look()
        if grants is not None and not faults:
            faults = admission.Admission(grants.site, message.value, line).look()
        if grants is not None and not faults:
            grants.add(name, line, message.value)
        code = first_code(faults)
        if code is not None:
            looked.answers[line] = code
        looked.faults += sorted(faults)
    return looked


class Unread(Exception):
    """A file that cannot be read, or a roster that has faults where messages are to be admitted by it."""


def read(name: str) -> bytes:
    try:
        if name == "-":
            return sys.stdin.buffer.read()
        with open(name, "rb") as file:
            return file.read()
    except OSError as fault:
        raise Unread(f"{name}: {fault.strerror}") from None


def site_of(name: str) -> Site:
    roster = roster_faults.Roster(read(name))
    if roster.look():
        raise Unread(f"{name}: the roster has faults, so no message can be admitted by it: desk-lint {name}")
    return Site(roster.document.value)


def percent_word(said: str) -> int:
    """A share of a limit. (A file behind the word is none of it.)"""
    if not said.isdecimal() or not 1 <= int(said) <= 100:
        raise argparse.ArgumentTypeError("say how many percent, from 1 to 100, or put --near behind the files")
    return int(said)


def parser() -> argparse.ArgumentParser:
    found = Parser(
        "desk-lint",
        description="Looks through rosters, base policies and messages of a privileged access desk.",
        epilog="Exit status: 0 nothing is wrong, 1 there are warnings and --strict was given, 2 the desk would refuse something.",
    )
    found.add_argument("--json", action="store_true", help="print what is found as JSON")
    found.add_argument("--strict", action="store_true", help="warnings end with status 1")
    found.add_argument("--roster", metavar="ROSTER", help="whether this roster admits the messages, and which grants outlast their asker")
    found.add_argument("--base", action="store_true", help="each FILE is a base policy, whatever its name")
    found.add_argument("--desk", metavar="PROGRAM", help="the program desk, which judges bases (the one on the path)")
    found.add_argument("--on", metavar="DAY", help="warn as on this day, yyyymmdd, in UTC (today)")
    told = "warn of each limit of which so many percent are used (90)"
    found.add_argument("--near", nargs="?", type=percent_word, const=near.NEAR, metavar="PERCENT", help=told)
    found.add_argument("--explain", metavar="CODE", help="print what a code means and what to do, and nothing else")
    found.add_argument("files", metavar="FILE", nargs="*", help="a roster (*.toml), a base (*.sudo), or messages, one a line (*.messages, *.json); - is the input")
    return found


def status(looked: list[Looked], is_strict: bool) -> int:
    if any(it.faults for it in looked):
        return FAULTY
    warned = any(not warning.is_note for it in looked for warning in it.warnings)
    return WARNED if is_strict and warned else CLEAN


def lint(said: argparse.Namespace) -> int:
    today = said.on or datetime.now(timezone.utc).strftime("%Y%m%d")
    # (one for all files: a grant's request and its verdicts may stand in several)
    grants = Grants(site_of(said.roster), today) if said.roster else None
    looked = []
    for name in said.files:
        data = read(name)
        kind = "base" if said.base else kind_of(name, data)
        if kind == "base":
            looked.append(look_at_base(name, data, program(said.desk), said.near))
        elif kind == "roster":
            looked.append(look_at_roster(name, data, today, said.near))
        else:
            looked.append(look_at_messages(name, data, grants))
    for it in looked:
        if grants is not None and it.kind == "messages":
            it.warnings = grants.warnings(it.name)
    if said.json:
        told = json.dumps({"files": [it.as_data() for it in looked]}, indent=2)
        # (JSON may have this one byte as it stands)
        print(told.replace("\x7f", "\\u007f"))
    else:
        sys.stdout.write("".join(it.as_text() for it in looked))
    return status(looked, said.strict)


def main(words: list[str] | None = None) -> int:
    found = parser()
    said = found.parse_args(words)
    if said.explain:
        told = explain.explain(said.explain)
        if told is None:
            print(f"desk-lint: there is no code {visible(said.explain)}: desk-codes(7) has them all", file=sys.stderr)
            return FAULTY
        sys.stdout.write(told)
        return CLEAN
    if not said.files:
        found.error("name a file")
    if said.on and not roster_faults.is_day(said.on):
        found.error("--on: a day is yyyymmdd")
    try:
        return lint(said)
    except (Unread, NoDesk) as fault:
        print(f"desk-lint: {visible(str(fault))}", file=sys.stderr)
    except NoJsonschema:
        print("desk-lint: it needs Debian's package python3-jsonschema", file=sys.stderr)
    return FAULTY
