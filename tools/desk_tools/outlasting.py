"""Grants among messages that outlast the duty by which they were asked.

The desk looks at the asker's duty on the day of the request alone, and at nobody's afterwards: a
right goes on after its holder's last day, until its own end or a revocation (docs/ROSTER.md).
"""

from __future__ import annotations

from typing import Any

from desk_tools.found import Warning
from desk_tools.held import day, joined, number
from desk_tools.message_faults import seconds
from desk_tools.site import LAST, Site
from steelnewt_client.messages import canonical
from steelnewt_client.moments import stamp_of

Value = dict[str, Any]


def before(moment: str) -> str:
    """The second before a moment."""
    at = seconds(moment)
    assert at is not None
    return stamp_of(at - 1)


class Grants:
    """The requests and verdicts that a roster admits, in whatever files and order they come."""

    def __init__(self, site: Site, today: str) -> None:
        self.site, self.today = site, today
        self.requests: dict[tuple[str, int], tuple[str, int, Value]] = {}
        self.disputed: set[tuple[str, int]] = set()
        self.verdicts: dict[tuple[str, int], list[Value]] = {}

    def add(self, file: str, line: int, value: Value) -> None:
        if value["kind"] != "request":
            self.verdicts.setdefault((value["of"], value["no"]), []).append(value)
            return
        name = value["by"], value["no"]
        if name not in self.requests:
            self.requests[name] = file, line, value
        elif canonical(self.requests[name][2]) != canonical(value):
            self.disputed.add(name)

    def warnings(self, file: str) -> list[Warning]:
        """Warnings about the requests that stand in a file, by the verdicts of all files."""
        found = []
        for name, (where, line, value) in self.requests.items():
            said = None if name in self.disputed or where != file else self.outlasts(value)
            if said:
                found.append(Warning(line, "outlasts", f"{value['by']} {value['no']}", said))
        return sorted(found)

    def outlasts(self, value: Value) -> str | None:
        """What is said of a grant that goes on after its asker's last day with the duty."""
        begins, ends = self.window(value)
        duty = self.site.ceilings[value["ceiling"]]["ask"]
        last = self.last_day(value["by"], duty, value["at"][:8])
        if begins is None or begins > ends or last >= ends[:8] or ends[:8] < self.today:
            return None
        return (
            f"it is granted until {ends}, and {value['by']} holds {duty} up to {last}: "
            "the right does not end with the duty, so revoke it then"
        )

    def last_day(self, person: str, duty: str, asked: str) -> str:
        """The last day on which the person holds the duty without a break since it was asked."""
        if duty in self.site.people[person]:
            return LAST
        dated = (it for it in self.site.people[person] if isinstance(it, dict))
        spans = [(number(it["from"]), number(it["until"])) for it in dated if it["duty"] == duty]
        return next((day(last) for _, last in joined(spans) if day(last) >= asked), asked)

    def window(self, value: Value) -> tuple[str | None, str]:
        """When it begins, None where it is not granted, and when it ends."""
        ceiling, asker = self.site.ceilings[value["ceiling"]], value["by"]
        said = self.verdicts.get((asker, value["no"]), [])
        revoked = [it for it in said if it["kind"] == "revoke"]
        revoked = [it for it in revoked if self.may_revoke(it, asker, ceiling["approve"])]
        ends = min([value["until"], *(before(it["at"]) for it in revoked)])
        counting = [it for it in said if self.is_eligible(it, asker, ceiling["approve"])]
        firsts: dict[str, str] = {}
        for it in sorted(counting, key=lambda each: str(each["at"])):
            if it["kind"] == "approve":
                firsts.setdefault(it["by"], it["at"])
        moments = sorted(firsts.values())
        if len(moments) < ceiling["needs"]:
            return None, ends
        complete = moments[ceiling["needs"] - 1]
        is_refused = any(it["kind"] == "refuse" and it["at"] <= complete for it in counting)
        return None if is_refused else max(value["from"], complete), ends

    def may_revoke(self, verdict: Value, asker: str, duty: str) -> bool:
        return verdict["by"] == asker or duty in self.site.held(verdict["by"], verdict["at"][:8])

    def is_eligible(self, verdict: Value, asker: str, duty: str) -> bool:
        held = self.site.held(verdict["by"], verdict["at"][:8])
        return verdict["by"] != asker and duty in held and not held & self.site.conflicts_with(duty)
