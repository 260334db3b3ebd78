"""The people of a roster's text are changed, and all the rest of it stays as it is."""

from __future__ import annotations

import re
from collections.abc import Iterator
from datetime import date, timedelta
from typing import NamedTuple

from desk_tools.site import FIRST, LAST
from desk_tools.toml_text import Document, Node, Reader

ONE_DAY = timedelta(days=1)
BARE = re.compile(r"[A-Za-z0-9_-]+")


class CannotEdit(Exception):
    """Why a text is not changed."""


class Days(NamedTuple):
    """The first and the last day, as a roster writes them."""

    first: str
    last: str


def day_after(day: str, count: int) -> str:
    moved = date(int(day[:4]), int(day[4:6]), int(day[6:])) + count * ONE_DAY
    return moved.strftime("%Y%m%d")


def merged(spans: list[Days]) -> list[Days]:
    """The same days, in spans that neither meet nor touch."""
    found: list[Days] = []
    for span in sorted(spans):
        if found and (found[-1].last == LAST or span.first <= day_after(found[-1].last, 1)):
            found[-1] = Days(found[-1].first, max(found[-1].last, span.last))
        else:
            found.append(span)
    return found


def cut(spans: list[Days], first: str, last: str) -> list[Days]:
    """What of the days is between these two."""
    kept = [Days(max(it.first, first), min(it.last, last)) for it in spans]
    return merged([it for it in kept if it.first <= it.last])


def without(spans: list[Days], taken: list[Days]) -> list[Days]:
    """The days that are not among those that are taken."""
    left = spans
    for it in taken:
        before = cut(left, FIRST, day_after(it.first, -1)) if it.first > FIRST else []
        behind = cut(left, day_after(it.last, 1), LAST) if it.last < LAST else []
        left = [*before, *behind]
    return left


class Edit(NamedTuple):
    """A part of the text, and what stands in its place."""

    start: int
    end: int
    text: str


class Entry(NamedTuple):
    """A person's entry of a duty: its days, and where it stands."""

    node: Node
    days: Days


def held_by(value: list[object], duty: str) -> list[Days]:
    """The days on which a person with these entries holds a duty."""
    spans = []
    for it in value:
        if it == duty:
            spans.append(Days(FIRST, LAST))
        elif isinstance(it, dict) and it["duty"] == duty:
            spans.append(Days(it["from"], it["until"]))
    return merged(spans)


def written(duty: str, days: Days) -> str:
    return f'{{ duty = "{duty}", from = "{days.first}", until = "{days.last}" }}'


class RosterText:
    """A valid roster's text, and the edits that are made in it."""

    def __init__(self, text: str) -> None:
        self.text = text
        self.tree = Reader(text).tree(Document())
        self.edits: list[Edit] = []
        self.fresh: dict[str, list[str]] = {}
        self.gone: dict[str, list[Node]] = {}
        people = self.tree["people"]
        if people.origin != "header":
            raise CannotEdit("its people do not stand below a line [people]")
        self.people: dict[str, Node] = people.held
        self.header = people.at

    def entries(self, person: str, duty: str) -> list[Entry]:
        found = []
        for node in self.people[person].held if person in self.people else []:
            if node.held == duty:
                found.append(Entry(node, Days(FIRST, LAST)))
            elif isinstance(node.held, dict) and node.held["duty"].held == duty:
                days = Days(node.held["from"].held, node.held["until"].held)
                found.append(Entry(node, days))
        return found

    def hold(self, person: str, duty: str, today: str, wanted: list[Days]) -> None:
        """From today on the person holds the duty on the wanted days alone; what was before stays.

        Whoever holds it today holds it to the end of today."""
        entries = self.entries(person, duty)
        current = cut([it.days for it in entries], today, LAST)
        if current and current[0].first == today:
            wanted = [*wanted, Days(today, today)]
        wanted = merged(wanted)
        if current == wanted:
            return
        kept = []
        for entry in entries:
            last = self.last_day(entry, today, wanted)
            if last is None:
                self.gone.setdefault(person, []).append(entry.node)
                continue
            self.until(entry, duty, last)
            kept.append(Days(entry.days.first, last))
        missing = without(wanted, kept)
        for days in missing:
            self.fresh.setdefault(person, []).append(written(duty, days))

    def last_day(self, entry: Entry, today: str, wanted: list[Days]) -> str | None:
        """The last day that an entry has from now on; None where none of it is left."""
        if entry.days.last < today:
            return entry.days.last
        first = max(entry.days.first, today)
        for span in wanted:
            if span.first <= first <= span.last:
                return span.last
        return None

    def until(self, entry: Entry, duty: str, last: str) -> None:
        if last == entry.days.last:
            return
        if isinstance(entry.node.held, dict):
            node = entry.node.held["until"]
            self.edits.append(Edit(node.start, node.end, f'"{last}"'))
        else:
            text = written(duty, Days(entry.days.first, last))
            self.edits.append(Edit(entry.node.start, entry.node.end, text))

    def removed(self, array: Node, node: Node) -> Edit:
        """An item without its comma, and without its line where nothing else is on that."""
        start, end = node.start, node.end
        comma = re.compile(r"[ \t\r\n]*,[ \t]*").match(self.text, end)
        if comma:
            end = comma.end()
        before = self.text.rfind("\n", 0, start) + 1
        newline = re.compile(r"\r?\n").match(self.text, end)
        if newline and not self.text[before:start].strip() and before > array.start:
            start, end = before, newline.end()
        return Edit(start, end, "")

    # ---- what is new

    def appended(self, array: Node, entries: list[str]) -> Iterator[Edit]:
        """New entries of a person who is there already, behind the others."""
        text = self.text[array.start : array.end]
        close = array.end - 1
        line = self.text.rfind("\n", 0, close) + 1
        last = array.held[-1] if array.held else None
        if "\n" in text and not self.text[line:close].strip() and last is not None:
            indent = " " * (last.start - self.text.rfind("\n", 0, last.start) - 1)
            has_comma = re.compile(r"(?:\s|#[^\n]*)*,").match(self.text, last.end)
            if not has_comma:
                yield Edit(last.end, last.end, ",")
            yield Edit(line, line, "".join(f"{indent}{it},\n" for it in entries))
        elif last is None:
            yield Edit(close, close, ", ".join(entries))
        else:
            yield Edit(last.end, last.end, "".join(f", {it}" for it in entries))

    def joined(self) -> Iterator[Edit]:
        """The lines of new people, behind the last of those who are there."""
        last = max((it.end for it in self.people.values()), default=self.header)
        line = self.text.find("\n", last)
        at = len(self.text) if line < 0 else line + 1
        new = {name: it for name, it in self.fresh.items() if name not in self.people}
        begin = "\n" if line < 0 else ""
        lines = []
        for name, entries in new.items():
            key = name if BARE.fullmatch(name) else f'"{name}"'
            lines.append(f"{key} = [{', '.join(entries)}]\n")
        # (one edit for all: of several at one place the last would come first)
        if lines:
            yield Edit(at, at, begin + "".join(lines))

    def changed(self) -> str:
        """The text with all edits."""
        edits = [*self.edits, *self.joined()]
        for person, array in self.people.items():
            fresh, gone = self.fresh.get(person, []), self.gone.get(person, [])
            # (an entry that is new stands where one that is gone stood)
            both = min(len(fresh), len(gone))
            edits += [Edit(it.start, it.end, new) for it, new in zip(gone, fresh)]
            edits += [self.removed(array, it) for it in gone[both:]]
            if fresh[both:]:
                edits += self.appended(array, fresh[both:])
        text = self.text
        for edit in sorted(edits, key=lambda it: it.start, reverse=True):
            text = text[: edit.start] + edit.text + text[edit.end :]
        return text
