"""A narrower ceiling, as text for the roster: it has what its grants used, and no more. Beside it
stand the warnings of desk-lint, and each person's use."""

import json
from collections.abc import Iterable
from typing import Any, NamedTuple

from desk_tools.decisions import PATH
from desk_tools.toml_text import read as read_toml
from desk_tools.use import Grant
from desk_tools.warnings import Warnings
from steelnewt_client.messages import BadWord, command_of
from steelnewt_client.moments import stamp_of

# a folder or ALL of which more than these were run, as commands or as files, stays as it is
MOST = 16
# a command as it was run: the file and its arguments
Words = tuple[str, ...]


class Person(NamedTuple):
    """What one person had under a ceiling, and what of it they used."""

    by: str
    grants: int
    commands: list[str]
    hosts: list[str]
    used_commands: list[str]
    used_hosts: list[str]


class Narrower(NamedTuple):
    ceiling: str
    grants: int
    unused: int
    unlogged: int
    text: str  # empty where there is nothing to take away
    warnings: list[str]
    persons: list[Person]


def as_granted(words: Words) -> str | None:
    """A command as a roster writes it, with just these arguments; None if no roster can."""
    try:
        return command_of(words if len(words) > 1 else (*words, ""))
    except BadWord:
        return None


def narrowed(command: str, seen: Iterable[Words]) -> list[str]:
    """What was run by a command that is ALL or a folder: the commands with the arguments that were
    seen, or else the files."""
    if command != "ALL" and not command.endswith("/"):
        return [command]
    every = sorted(set(seen))
    exact = sorted({it for it in map(as_granted, every) if it})
    if len(exact) == len(every) <= MOST:
        return exact
    paths = sorted({it[0] for it in every})
    is_short = len(paths) <= MOST and all(map(PATH.fullmatch, paths))
    return paths if is_short and "/sudoedit" not in "".join(paths) else [command]


def used_of(grants: Iterable[Grant]) -> list[str]:
    """The commands that were used, each as narrow as it was run."""
    seen: dict[str, set[Words]] = {}
    for it in grants:
        for command, words in it.seen.items():
            seen.setdefault(command, set()).update(words)
    return sorted({text for it, words in seen.items() for text in narrowed(it, words)})


def kept(grants: list[Grant]) -> dict[str, list[str]]:
    """The hosts, targets and commands that were used; all of a grant's where there is no log."""
    held = [it for it in grants if it.used or not it.is_logged]
    commands = {it for grant in grants if not grant.is_logged for it in grant.commands}
    commands.update(used_of(it for it in grants if it.is_logged))
    return {
        "hosts": sorted({it.host for it in held}),
        "runas": sorted({it.runas for it in held}),
        "commands": sorted(commands),
    }


def proposal(label: str, ceiling: dict[str, Any], grants: list[Grant]) -> str:
    found = kept(grants)
    if not found["hosts"]:
        return f"# No grant of {label} was used: leave the ceiling out.\n"
    if all(set(found[key]) == set(ceiling[key]) for key in found):
        return ""
    lost = {key: [it for it in ceiling[key] if it not in found[key]] for key in found}
    said = "; ".join(f"{key} {', '.join(lost[key])}" for key in found if lost[key])
    lines = [f"# Without what nobody used: {said}.", f"[ceilings.{label}]"]
    for key, value in (ceiling | found).items():
        lines.append(f"{key} = {json.dumps(value)}")
    return "".join(f"{line}\n" for line in lines)


def linted(roster: dict[str, Any], label: str, text: str, today: str) -> list[str]:
    """What desk-lint says of a proposal's commands, in the ceiling's place."""
    document = read_toml(text.encode())
    if label not in document.value.get("ceilings", {}):
        return []
    proposed = document.value["ceilings"]
    document.value.update({**roster, "ceilings": proposed})
    warnings = Warnings(document, today)
    warnings.commands(label)
    return [it.said for it in sorted(warnings.found)]


def person_of(by: str, grants: list[Grant]) -> Person:
    return Person(
        by,
        len(grants),
        sorted({it for grant in grants for it in grant.commands}),
        sorted({it.host for it in grants}),
        used_of(grants),
        sorted({it.host for it in grants if it.used}),
    )


def persons(grants: list[Grant]) -> list[Person]:
    """What each person used, by the grants whose hosts have a log."""
    by: dict[str, list[Grant]] = {}
    for it in grants:
        if it.is_logged:
            by.setdefault(it.by, []).append(it)
    return [person_of(person, found) for person, found in sorted(by.items())]


def proposals(roster: dict[str, Any], grants: list[Grant], until: int) -> list[Narrower]:
    """For each ceiling of the roster, by the grants under it that ended."""
    found = []
    for label, ceiling in roster.get("ceilings", {}).items():
        under = [it for it in grants if it.ceiling == label and it.last <= until]
        if not under:
            continue
        logged = [it for it in under if it.is_logged]
        text = proposal(label, ceiling, under)
        unused = sum(not it.used for it in logged)
        counts = len(under), unused, len(under) - len(logged)
        warned = linted(roster, label, text, stamp_of(until)[:8])
        found.append(Narrower(label, *counts, text, warned, persons(under)))
    return found
