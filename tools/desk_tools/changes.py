"""Which grants another roster begins, ends, makes longer or shorter from a moment on."""

from __future__ import annotations

from collections.abc import Iterator
from typing import Any, NamedTuple

Audit = dict[str, Any]
Entry = dict[str, Any]

# each kind of change, in the order in which they are shown, and its sentence
KINDS = {
    "given back": "GIVEN BACK: what was revoked, refused or no longer admitted is in force again",
    "begins": "BEGINS",
    "grows": "GROWS",
    "moves": "MOVES",
    "shrinks": "SHRINKS",
    "ends": "ENDS",
    "lapses": "LAPSES: it waits for approval, and the new roster does not admit it",
}


class Span(NamedTuple):
    """The first and the last moment of a grant."""

    first: str
    last: str


class Change(NamedTuple):
    """What becomes of a request: its kind, its name, and the lines that are shown."""

    kind: str
    who: str
    no: int
    lines: tuple[str, ...]


def span_of(entry: Entry, now: str) -> Span | None:
    """When a grant is in force, from now on."""
    window = entry.get("window")
    if window is None or window["until"] < now:
        return None
    return Span(max(window["from"], now), window["until"])


def kind_of(before: Span | None, after: Span | None) -> str | None:
    if before == after:
        return None
    if before is None:
        return "begins"
    if after is None:
        return "ends"
    if after.first <= before.first and before.last <= after.last:
        return "grows"
    if before.first <= after.first and after.last <= before.last:
        return "shrinks"
    return "moves"


def weighed(entry: Entry) -> dict[tuple[str, str, str], tuple[bool, str]]:
    """Each verdict with whether it counts, and why not."""
    found = {}
    for it in entry["verdicts"]:
        verdict = it["verdict"]
        key = (verdict["at"], verdict["kind"], verdict["by"])
        found[key] = (it["counts"], it.get("why", ""))
    return found


def verdict_lines(old: Entry, new: Entry, people: set[str]) -> Iterator[str]:
    """The verdicts that count under one roster and not under the other."""
    after = weighed(new)
    for key, (counted, why_not) in weighed(old).items():
        counts, why = after[key]
        if counted == counts:
            continue
        at, kind, by = key
        said = f"counts now, and did not ({why_not})" if counts else f"counts no more ({why})"
        gone = "" if by in people else f": {by} is not among the new roster's people"
        yield f"{kind:<9} {at} {by} {said}{gone}"


def reasons(old: Entry, new: Entry, people: set[str]) -> Iterator[str]:
    """Why a request comes to something else."""
    if old["status"] != new["status"]:
        yield f"status    {told_status(old)}, then {told_status(new)}"
    yield from verdict_lines(old, new, people)


def told_status(entry: Entry) -> str:
    return f"{entry['status']} ({entry['denial']})" if "denial" in entry else str(entry["status"])


def is_given_back(old: Entry, new: Entry) -> bool:
    """Whether a right comes back that a verdict or an earlier roster took away."""
    after = weighed(new)
    taken = any(
        counted and not after[key][0]
        for key, (counted, _) in weighed(old).items()
        if key[1] in ("revoke", "refuse")
    )
    return taken or old["status"] == "lapsed"


def shown_span(span: Span | None) -> str:
    return f"{span.first} to {span.last}" if span else "not in force"


def change_of(old: Entry, new: Entry, now: str, people: set[str]) -> Change | None:
    """What the new roster makes of one name; None where it is as before."""
    before, after = span_of(old, now), span_of(new, now)
    kind = kind_of(before, after)
    if kind in ("begins", "grows", "moves") and is_given_back(old, new):
        kind = "given back"
    asked = (new["requests"] or old["requests"] or [{}])[0]
    if kind is None:
        waited = old["status"] in ("waiting", "disputed") and asked["until"] >= now
        if not waited or new["status"] != "lapsed":
            return None
        kind = "lapses"
    lines = [f"as {asked['runas']} on {' '.join(asked['hosts'])}, ceiling {asked['ceiling']}"]
    lines += [f"command   {it}" for it in asked["cmnds"]]
    if kind != "lapses":
        lines += [f"before    {shown_span(before)}", f"after     {shown_span(after)}"]
    return Change(kind, old["by"], old["no"], (*lines, *reasons(old, new, people)))


def compare(before: Audit, after: Audit, now: str, people: set[str]) -> list[Change]:
    """What changes from now on, between two answers of desk-audit over the same messages."""
    names = {(it["by"], it["no"]): it for it in after["names"]}
    found = []
    for old in before["names"]:
        change = change_of(old, names[old["by"], old["no"]], now, people)
        if change is not None:
            found.append(change)
    order = [*KINDS]
    return sorted(found, key=lambda it: (order.index(it.kind), it.who, it.no))


def is_back(found: list[Change]) -> bool:
    return any(it.kind == "given back" for it in found)


def text(found: list[Change]) -> str:
    """The changes, for a terminal."""
    if not found:
        return "No grant changes from now on.\n"
    lines, last = [], ""
    for it in found:
        if it.kind != last:
            lines.append(KINDS[it.kind])
            last = it.kind
        lines.append(f"{it.who} {it.no}  {it.lines[0]}")
        lines += [f"  {line}" for line in it.lines[1:]]
    return "".join(f"{line}\n" for line in lines)
