"""The entries of a page: what a table says whose rows no terminal could show.

    - **Title**: a text, which may be left out
      - Field: what it says
"""

import re
from collections.abc import Iterator
from typing import NamedTuple

import repository

HEADING = re.compile(r"##+ (.*)")
TITLE = re.compile(r"\*\*(.*?)\*\*(?:: (.*))?")


class Entry(NamedTuple):
    """An entry, and the heading that it stands under."""

    heading: str
    title: str
    text: str
    fields: dict[str, str]


def items(lines: list[str]) -> Iterator[str]:
    """Each item of a list, and of the lists in it, on one line; and each heading."""
    held = ""
    for line in lines:
        if re.match(r"- \*\*|  - |#|$", line):
            if held:
                yield held
            held = ""
        if line and (held or re.match(r"- \*\*|  - |#", line)):
            held = f"{held} {line.strip()}" if held else line
    if held:
        yield held


def entries(page: str) -> list[Entry]:
    """All entries of a page: what stands above its first part has none."""
    found: list[Entry] = []
    heading = ""
    for item in items(repository.read(page).splitlines()):
        if above := HEADING.fullmatch(item):
            heading = above[1]
        elif heading and (title := TITLE.fullmatch(item.removeprefix("- "))):
            found.append(Entry(heading, title[1], title[2] or "", {}))
        elif item.startswith("  - ") and found:
            name, _, said = item.strip(" -").partition(": ")
            found[-1].fields[name] = said
    return found
