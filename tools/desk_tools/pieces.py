"""The pieces of grants: when each was in force on each host, in the part of the time in which a
roster was served, and how each piece ended. A table of them is made for a spreadsheet."""

import csv
import io
from collections.abc import Iterable
from typing import Any, NamedTuple

from desk_tools.times import spread
from steelnewt_client.moments import seconds, stamp_of

COLUMNS = """roster who no target host commands from until approvers used from_time until_time
 ended why ticket""".split()
# of a grant on a host, by the logs
Statuses = dict[tuple[str, int, str], str]
Name = tuple[str, int]
Reasons = dict[Name, dict[str, Any]]


class Piece(NamedTuple):
    """A part of a grant on a host, by one roster."""

    roster: str
    by: str
    no: int
    host: str
    asked: dict[str, Any]
    first: str
    last: str
    window_last: str  # the window's end by this roster, also where another one cuts it
    approvers: str
    used: str

    @property
    def key(self) -> tuple[str, int, str]:
        return self.by, self.no, self.host


def approvers(name: dict[str, Any]) -> list[str]:
    counted = [it["verdict"] for it in name["verdicts"] if it["counts"]]
    return sorted({it["by"] for it in counted if it["kind"] == "approve"})


def pieces_of(
    roster: str, first: str, last: str, told: dict[str, Any], used: Statuses
) -> list[Piece]:
    """What an audit tells of the windows that touch a part of the time."""
    names = {(name["by"], name["no"]): name for name in told["names"]}
    found = []
    for it in told["windows"]:
        by, no, host, until = it["by"], it["no"], it["host"], it["until"]
        begin, end = max(it["from"], first), min(until, last)
        if begin <= end:
            name = names[by, no]
            said = " ".join(approvers(name)), used.get((by, no, host), "")
            row = roster, by, no, host, name["requests"][0], begin, end, until
            found.append(Piece(*row, *said))
    return found


def ends(pieces: list[Piece], lasts: dict[str, str]) -> list[str]:
    """How each piece ended; the last moment of each roster's part of the time is known."""
    begins = {(it.key, it.first) for it in pieces}
    names = list(lasts)
    found = []
    for it in pieces:
        is_last = it.roster == names[-1]
        if it.window_last == it.last:
            found.append("until" if it.last == it.asked["until"] else "revoked")
        elif is_last or (it.key, stamp_of(seconds(it.last) + 1)) in begins:
            found.append("goes on")
        else:
            found.append(f"by the roster of {names[names.index(it.roster) + 1]}")
    return found


def table_of(pieces: list[Piece], lasts: dict[str, str], reasons: Reasons) -> str:
    """The pieces as CSV."""
    text = io.StringIO()
    table = csv.writer(text, lineterminator="\n")
    table.writerow(COLUMNS)
    for it, end in zip(pieces, ends(pieces, lasts), strict=True):
        asked, reason = it.asked, reasons.get((it.by, it.no), {})
        row = [it.roster, it.by, it.no, asked["runas"], it.host, ", ".join(asked["cmnds"])]
        row += [it.first, it.last, it.approvers, it.used, spread(it.first), spread(it.last), end]
        table.writerow([*row, reason.get("why") or "", reason.get("ticket") or ""])
    return text.getvalue()


SAMPLED = """who no status roster asked asked_time ceiling target hosts commands from from_time
 until until_time approved_by in_force ended why ticket""".split()


def sampled_rows(
    names: Iterable[tuple[Name, dict[str, Any], str]],
    pieces: list[Piece],
    lasts: dict[str, str],
    reasons: Reasons,
) -> list[dict[str, str]]:
    """A row for each request of the sample: what was asked, and when it was in force."""
    spans: dict[Name, dict[tuple[str, str], str]] = {}
    for it, end in zip(pieces, ends(pieces, lasts), strict=True):
        spans.setdefault((it.by, it.no), {})[it.first, it.last] = end
    found = []
    for name, entry, roster in names:
        asked, reason, held = entry["requests"][0], reasons.get(name, {}), spans.get(name, {})
        values = [name[0], str(name[1]), entry["status"], roster, asked["at"], spread(asked["at"])]
        values += [asked["ceiling"], asked["runas"], " ".join(asked["hosts"])]
        values.append(", ".join(asked["cmnds"]))
        for at in (asked["from"], asked["until"]):
            values += [at, spread(at)]
        values.append(" ".join(approvers(entry)))
        values.append("; ".join(f"{spread(a)} to {spread(b)}" for a, b in sorted(held)))
        values.append("; ".join(held[it] for it in sorted(held)))
        values += [reason.get("why") or "", reason.get("ticket") or ""]
        found.append(dict(zip(SAMPLED, values, strict=True)))
    return found


def sample_csv(rows: list[dict[str, str]]) -> str:
    text = io.StringIO()
    table = csv.DictWriter(text, SAMPLED, lineterminator="\n")
    table.writeheader()
    table.writerows(rows)
    return text.getvalue()
