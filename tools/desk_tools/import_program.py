"""The program `desk-import`."""

import argparse
import os
import subprocess
import sys
import tempfile
from dataclasses import dataclass

from desk_tools import comparing, rest, verdicts
from desk_tools.cvtsudoers import BadSudoers
from desk_tools.entries import Entry
from desk_tools.found import Parser, visible
from desk_tools.hosts_meant import Hosts
from desk_tools.judge import NoDesk, program
from desk_tools.machine import Copy, Host, Machine, hosts_of
from desk_tools.schema import has_form
from desk_tools.site_base import Base
from desk_tools.staying import settle
from desk_tools.sudoers import Sudoers, read
from desk_tools.translating import Translator

KEPT, LOST, FAILED = 0, 1, 2
# what a desk's base has at most (K6)
MOST_ENTRIES, MOST_WEIGHT, MOST_BYTES = 4096, 65536, 1 << 20
RULES, LISTS = "write aliases and directories in place of many rules", "make lists shorter"
# what `desk check` says of a text over the limits of any policy
TOO_LARGE = "S10 "
WHICH = (
    "{place}: ALL as host: say which host's file it is (--host NAME=FILE), or that ALL is every "
    "host of the desk (--all-hosts)"
)


class Failed(Exception):
    """Why there is no base."""


@dataclass
class Source:
    """A sudoers file, and the host whose own it is, or none."""

    host: str | None
    path: str

    def read(self) -> tuple[Sudoers, Machine]:
        """The file, and whom its host knows: a folder is a copy of that host's /etc."""
        if os.path.isdir(self.path):
            return read(os.path.join(self.path, "sudoers"), self.path), Copy(self.path)
        return read(self.path), Machine()


def parser() -> argparse.ArgumentParser:
    found = Parser(
        "desk-import",
        description="Makes a base policy for a privileged access desk of sudoers files, on the "
        "standard output, and says what became of each rule. `desk-import compare HOST` asks sudo "
        "about both.",
        epilog="Exit status: 0 nothing is lost, 1 a rule is in no file, 2 there is no base.",
    )
    found.add_argument(
        "--host",
        metavar="NAME=FILE",
        action="append",
        default=[],
        help="a host's own sudoers file, or a copy of its /etc: ALL is that host",
    )
    found.add_argument("--all-hosts", action="store_true", help="ALL is every host of the desk")
    found.add_argument(
        "--rest",
        metavar="FILE",
        help="write there what stays on the host, as sudoers (of several hosts: a folder)",
    )
    found.add_argument(
        "--prefix",
        metavar="WORD",
        default="DESK_",
        help="what the base's aliases begin with (DESK_)",
    )
    found.add_argument(
        "--without-target-groups",
        action="store_true",
        help="take (ALL:ALL) for (ALL): nobody may use sudo -g",
    )
    found.add_argument(
        "--host-list",
        metavar="FILE",
        help="hosts as /etc/hosts has them, for addresses, networks and whole names",
    )
    found.add_argument("--report", metavar="FILE", help="write what became of each rule there, too")
    found.add_argument("--desk", metavar="PROGRAM", help="the program desk (the one on the path)")
    found.add_argument("sudoers", metavar="SUDOERS", nargs="?", help="a sudoers file")
    return found


def sources(said: argparse.Namespace) -> list[Source]:
    found: list[Source] = []
    for pair in said.host:
        host, equals, path = pair.partition("=")
        if not equals or not path or not has_form(host, "host"):
            raise Failed(f"--host {pair}: write it as NAME=FILE, with a short name in lower case")
        if any(it.host == host for it in found):
            raise Failed(f"--host {host}: it is named twice")
        found.append(Source(host, path))
    if bool(found) == bool(said.sudoers) or found and said.all_hosts:
        raise Failed("name one file, SUDOERS, or each host's with --host NAME=FILE")
    return found or [Source(None, said.sudoers)]


def checked(desk: str, text: str) -> str:
    """The canonical text, by `desk check`."""
    with tempfile.NamedTemporaryFile("w", encoding="ascii") as file:
        file.write(text)
        file.flush()
        ran = subprocess.run(
            [desk, "check", file.name], capture_output=True, text=True, check=False
        )
    if ran.stderr.startswith(TOO_LARGE):
        raise Failed(
            "what was made is over the limits of a policy (S10): make fewer rules and shorter lists"
        )
    if ran.returncode:
        raise Failed(
            f"the desk does not read what was made ({ran.stderr.strip()}): report this: {text}"
        )
    return ran.stdout


def counted(count: int, thing: str, things: str) -> str:
    return f"{count:,} {thing if count == 1 else things}"


def too_large(text: str, weight: int) -> list[str]:
    """What a desk's base has at most and this one exceeds."""
    sizes = (
        (text.count("\n"), MOST_ENTRIES, "entries", RULES),
        (weight, MOST_WEIGHT, "words in its rules with each alias written out", LISTS),
        (len(text), MOST_BYTES, "bytes", RULES),
    )
    return [
        f"the base has {size:,} {what}, and a desk's has up to {most:,} (K6): {advice}"
        for size, most, what, advice in sizes
        if size > most
    ]


class Import:
    """The base of some files, and what is said of each rule."""

    def __init__(self, said: argparse.Namespace, known: list[Host]) -> None:
        self.said, self.known = said, known
        self.sources = sources(said)
        self.base = Base(said.prefix)
        self.lines: list[str] = []
        self.rests: dict[str | None, str] = {}
        self.is_lost = False

    def run(self) -> None:
        for source in self.sources:
            self.file(source)

    def file(self, source: Source) -> None:
        sudoers, machine = source.read()
        hosts = Hosts(source.host, self.known)
        translator = Translator(sudoers, machine, hosts, self.said.without_target_groups)
        entries = translator.entries()
        settle(entries, sudoers)
        if source.host is None:
            self.asked(translator, entries)
        self.base.add(source.host, translator, entries)
        found = verdicts.Verdicts(sudoers, entries, bool(self.said.rest))
        if len(self.sources) > 1:
            self.lines.append(f"{source.host}:")
        self.lines += found.lines(translator.notes)
        self.lines.append(summary(found))
        self.is_lost = self.is_lost or found.has_lost()
        self.rests[source.host] = rest.text_of(sudoers, entries)

    def asked(self, translator: Translator, entries: list[Entry]) -> None:
        """Refuses a rule whose host is ALL, unless --all-hosts says that every host is meant."""
        for entry in entries:
            if entry.hosts is not None and entry.hosts.named() is None:
                if not self.said.all_hosts:
                    raise Failed(WHICH.format(place=entry.place))
                if entry.is_kept():
                    translator.note(entry.place, "it is for every host of the desk")

    def report(self, text: str) -> str:
        hosts = [it.host for it in self.sources if it.host]
        lines = [
            *self.lines,
            *verdicts.differences(self.base, hosts),
            *verdicts.standing_root(self.base),
            *too_large(text, sum(it.weight() for it in self.base.kept)),
            f"the base has {counted(text.count(chr(10)), 'entry', 'entries')}",
        ]
        return "".join(f"{visible(line)}\n" for line in lines)

    def write_rests(self) -> None:
        path = self.said.rest
        if path and len(self.sources) > 1:
            os.makedirs(path, exist_ok=True)
        for host, text in self.rests.items():
            if path:
                write(os.path.join(path, str(host)) if len(self.sources) > 1 else path, text)


def summary(found: verdicts.Verdicts) -> str:
    said = [f"{count} {verdict}" for verdict, count in found.count.items()]
    return f"rules: {', '.join(said) or 'none'}"


def write(path: str, text: str) -> None:
    with open(path, "w", encoding="utf-8", errors="surrogateescape") as file:
        file.write(text)
    os.chmod(path, 0o440)


def imported(said: argparse.Namespace) -> int:
    known = []
    if said.host_list:
        with open(said.host_list, encoding="utf-8") as file:
            known = hosts_of(file.read())
    desk = program(said.desk)
    job = Import(said, known)
    job.run()
    text = checked(desk, job.base.text())
    report = job.report(text)
    job.write_rests()
    if said.report:
        with open(said.report, "w", encoding="utf-8") as file:
            file.write(report)
    sys.stderr.write(report)
    sys.stdout.write(text)
    return LOST if job.is_lost else KEPT


def main(words: list[str] | None = None) -> int:
    given = sys.argv[1:] if words is None else words
    try:
        if given[:1] == ["compare"]:
            return comparing.main(given[1:])
        return imported(parser().parse_args(given))
    except (BadSudoers, Failed, NoDesk) as fault:
        why = str(fault)
    except UnicodeError:
        why = "the list of hosts is no UTF-8"
    except OSError as fault:
        why = f"{fault.filename}: {fault.strerror}"
    print(f"desk-import: {visible(why)}", file=sys.stderr)
    return FAILED
