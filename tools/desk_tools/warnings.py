"""What is lawful in a roster and surely not meant."""

import os
import tomllib
from collections.abc import Iterator
from functools import cache
from typing import Any

from desk_tools.found import Warning, dotted
from desk_tools.held import Held, Span, day, joined
from desk_tools.site import (
    LAST,
    LINKED,
    Command,
    Site,
    command,
    seems_directory,
    without_slash,
)
from desk_tools.toml_text import Document, Path

MOST_DAYS = 4
MOST_OTHERS = 8
MANY_HOSTS = 5
TABLE = os.path.join(os.path.dirname(os.path.abspath(__file__)), "runs_others.toml")


@cache
def table() -> dict[str, dict[str, Any]]:
    """The programs that run others, and the directories that hold them, by name."""
    with open(TABLE, "rb") as file:
        read = tomllib.load(file)
    return {kind: {name: row for row in read[kind] for name in row["names"]} for kind in ("program", "directory")}


def real_path(text: str) -> str | None:
    """Why a command allows more than its path says, where directories are links into /usr."""
    found = LINKED.match(text)
    if found is None:
        return None
    return (
        f"{found[0]}/ is a link to /usr{found[0]}/ on today's hosts, and sudo compares the file and its "
        f"last name: it also allows /usr{text.split(' ')[0]}, which is the path to write"
    )


def risk(read: Command) -> str | None:
    """Why whoever may run the command may run others; None where no row of the table says so."""
    if read.kind == "dir":
        row = table()["directory"].get(read.path)
        return row["why"] if row else None
    row = table()["program"].get(read.path.rpartition("/")[2])
    if row is None or read.rule not in row["rules"] or row.get("unless") in read.args:
        return None
    return str(row["why"])


class Warnings:
    """Looks through a roster that is read, as it stands from a day on."""

    def __init__(self, document: Document, today: str) -> None:
        self.document, self.today = document, today
        self.site = Site(document.value)
        self.found: list[Warning] = []
        self.held = Held(self.site, today)

    def add(self, path: Path, kind: str, said: str, is_note: bool = False) -> None:
        self.found.append(Warning(self.document.line(path), kind, dotted(path), said, is_note))

    def look(self) -> list[Warning]:
        for label in self.site.ceilings:
            self.approvals(label)
            self.commands(label)
        self.approvers()
        self.hosts()
        self.duties()
        self.needless()
        self.people()
        return sorted(self.found)

    def said_days(self, spans: list[Span]) -> str:
        """Which days some spans have, for a sentence; no more than four are named."""
        found = joined([(span.first, span.last) for span in spans])
        said = [days_of(day(first), day(last), self.today) for first, last in found[: MOST_DAYS]]
        return " and ".join(said) + (" .." if len(found) > MOST_DAYS else "")

    def approvals(self, label: str) -> None:
        """A ceiling that too few people can approve, of whoever may ask, on some day from today on:
        each such fault once, with all its days."""
        ceiling = self.site.ceilings[label]
        ask, needs = ceiling["ask"], ceiling["needs"]
        found: dict[str, list[Span]] = {}
        for span in self.held.spans(ask, ceiling["approve"]):
            approvals, count = plural(needs, "approval"), len(span.approvers)
            left_out = sorted(span.asking_approvers) if count == needs else []
            if not span.is_asked:
                what = f"nobody holds {ask}, so nobody may ask under it"
            elif count < needs or (left_out and span.is_all):
                what = f"nobody can get {needs} {approvals}"
            elif left_out:
                what = f"{', '.join(left_out)} cannot get {needs} {approvals}"
            else:
                continue
            found.setdefault(what, []).append(span)
        for what, spans in found.items():
            days = self.said_days(spans)
            first = " on the first of these days" if len({it.approvers for it in spans}) > 1 else ""
            if spans[0].is_asked:
                what += f": {named(spans[0].approvers)} may approve{first}, and the asker's own approval does not count"
            self.add(("ceilings", label), "approvers", f"{days}: {what}" if days else what)

    def commands(self, label: str) -> None:
        ceiling = self.site.ceilings[label]
        for place, text in enumerate(ceiling["commands"]):
            if command(text).kind == "all" and ceiling["needs"] == 1:
                self.everything(label, place)
            path, why = ("ceilings", label, "commands", place), risk(command(text))
            if why is not None:
                self.add(path, "runs-others", f"{text}: {why}")
            if (link := real_path(text)) is not None:
                self.add(path, "real-path", f"{text}: {link}")
            if seems_directory(text):
                self.add(path, "directory", f"{text}: {without_slash(text)}")

    def everything(self, label: str, place: int) -> None:
        """All commands on many hosts, for one approval."""
        ceiling = self.site.ceilings[label]
        count = len({*ceiling["hosts"]})
        if count >= MANY_HOSTS:
            who = " and ".join(sorted({*ceiling["runas"]})[:MOST_OTHERS])
            said = f"ALL as {who} on {count} hosts for one approval: one approver's key, with any asker's, is {who} on all of them; let two approve, or name hosts or commands"
            self.add(("ceilings", label, "commands", place), "wide", said)

    def approvers(self) -> None:
        """Somebody whose approval counts on none of the days on which the duty is held."""
        never: dict[str, list[str]] = {}
        for duty in sorted({ceiling["approve"] for ceiling in self.site.ceilings.values()}):
            for person in self.held.holders.get(duty, []):
                if self.held.days[person][duty] and not self.held.counts(person, duty):
                    never.setdefault(person, []).append(duty)
        for person, duties in never.items():
            for duty in duties[:MOST_OTHERS]:
                self.never(person, duty, self.held.others(person, duty))
            if more := duties[MOST_OTHERS:]:
                said = f"nor does one as {', '.join(more[:MOST_OTHERS])}{' ..' if len(more) > MOST_OTHERS else ''}"
                self.add(("people", person), "conflict", said)

    def never(self, person: str, duty: str, others: list[str]) -> None:
        shown = ", ".join(others[:MOST_OTHERS]) + (" .." if len(others) > MOST_OTHERS else "")
        verb = "conflicts" if len(others) == 1 else "conflict"
        said = f"an approval as {duty} never counts: {shown} {verb} with it on each of its days"
        self.add(("people", person), "conflict", said)

    def hosts(self) -> None:
        used = {host for ceiling in self.site.ceilings.values() for host in ceiling["hosts"]}
        for place, host in enumerate(self.site.hosts):
            if host not in used:
                self.add(("hosts", place), "host", f"no ceiling has {host}: nobody can ask for anything there")

    def needless(self) -> None:
        """Days that change nothing, since the person holds the duty on all of them by another entry: it does not end with them."""
        for person, held in self.site.people.items():
            always: dict[str, int] = {}
            dated: dict[str, list[tuple[int, str, str]]] = {}
            for place, entry in enumerate(held):
                if isinstance(entry, str):
                    always.setdefault(entry, place)
                else:
                    spans = dated.setdefault(entry["duty"], [])
                    spans.append((place, entry["from"], entry["until"]))
            for duty, spans in dated.items():
                for span in spans:
                    self.needless_one(person, duty, span, spans, always.get(duty))

    def needless_one(
        self,
        person: str,
        duty: str,
        span: tuple[int, str, str],
        spans: list[tuple[int, str, str]],
        always: int | None,
    ) -> None:
        place, first, last = span
        covering = (
            (other, begin, end)
            for other, begin, end in spans
            if begin <= first and last <= end and other != place
            if other < place or begin < first or last < end
        )
        found = next(covering, None)
        if always is not None and (found is None or always < found[0]):
            why = f"item {always + 1} gives {duty} without days, so it is always held"
        elif found is not None:
            why = f"item {found[0] + 1} gives {duty} from {found[1]} to {found[2]}"
        else:
            return
        self.add(("people", person, place), "days", f"these days change nothing: {why}")

    def duties(self) -> None:
        """A duty that nobody holds from today on, and entries that have ended."""
        held = {entry["duty"] for _, _, entry in self.entries() if entry["until"] >= self.today}
        held |= {entry for entries in self.site.people.values() for entry in entries if isinstance(entry, str)}
        for place, duty in enumerate(self.site.duties):
            if duty not in held:
                self.add(("duties", place), "duty", f"nobody holds {duty}")
        for person, place, entry in self.entries():
            if entry["until"] < self.today:
                said = f"{entry['duty']} ended on {entry['until']}; leave the entry: without it, what was asked or approved by it would count no more"
                self.add(("people", person, place), "ended", said, is_note=True)

    def entries(self) -> Iterator[tuple[str, int, dict[str, str]]]:
        """The entries with days."""
        for person, entries in self.site.people.items():
            yield from ((person, place, entry) for place, entry in enumerate(entries) if isinstance(entry, dict))

    def people(self) -> None:
        """Somebody to whom no ceiling and no conflict gives a part."""
        parts = {ceiling[key] for ceiling in self.site.ceilings.values() for key in ("ask", "approve")}
        parts |= {duty for duty in self.site.against}
        for person in self.site.people:
            duties = self.held.days[person].keys()
            if not duties & parts:
                what = f"{person} may neither ask nor approve under any ceiling" + (", and holds no duty" if not duties else "")
                self.add(("people", person), "person", what)


def named(people: frozenset[str]) -> str:
    return f"only {' and '.join(sorted(people))}" if people else "nobody"


def plural(count: int, word: str) -> str:
    return word if count == 1 else f"{word}s"


def days_of(first: str, last: str, today: str) -> str:
    """Days for a sentence; nothing where they are all from today on."""
    if first == today:
        return "" if last == LAST else f"up to {last}"
    return f"from {first} on" if last == LAST else f"from {first} to {last}"
