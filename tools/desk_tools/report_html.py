"""The page that an auditor hands on: the tables of a summary for a person who knows no sudoers. It
has no script and asks for no other file, and prints on paper."""

import re
from collections.abc import Iterable, Iterator
from html import escape
from typing import Any, NamedTuple

from desk_tools.found import visible
from desk_tools.summary import WHY_NOT, title_of
from desk_tools.times import spread

Data = dict[str, Any]
Row = tuple[object, ...]
MOST_ROWS, SHORT = 200, 24
MOMENT = re.compile(r"\b(?:19[7-9]|20\d)\d{11}Z\b")
STYLE = """\
@page{size:A4;margin:14mm}
body{font:13px/1.4 sans-serif;max-width:1000px;margin:1.5em auto;padding:0 1em;color:#111}
table{border-collapse:collapse;margin:.5em 0;width:100%}
thead{display:table-header-group}tr{break-inside:avoid}
td,th{border:1px solid #999;padding:2px 6px;text-align:left;vertical-align:top;font-size:11px}
td{overflow-wrap:anywhere}th,.short{white-space:nowrap}
th{background:#e4eef0}h2{margin-top:1.4em;border-bottom:2px solid #0b5560;break-after:avoid}
h3{break-after:avoid}.why{color:#333}
@media print{td,th{font-size:9px}td.short{white-space:normal;overflow-wrap:normal}}
"""
USE = {"ask": "never asked", "approve": "never approved or refused"}


class Table(NamedTuple):
    head: str  # its words, with | between them
    rows: list[Row]
    none: str = "None."


def readable(text: str) -> str:
    """What is visible of a text, with its moments as people read them."""
    return MOMENT.sub(lambda it: spread(it[0]), visible(text))


def cell_html(cell: object) -> str:
    """A cell; a short one is never broken."""
    text = readable(str(cell))
    return f"<td{' class=short' if len(text) <= SHORT else ''}>{escape(text)}</td>"


def table_html(it: Table) -> Iterator[str]:
    if not it.rows:
        yield f"<p>{escape(it.none)}</p>"
        return
    heads = "".join(f"<th>{escape(word)}</th>" for word in it.head.split("|"))
    yield f"<table><thead><tr>{heads}</tr></thead><tbody>"
    for row in it.rows[:MOST_ROWS]:
        yield f"<tr>{''.join(map(cell_html, row))}</tr>"
    yield "</tbody></table>"
    if len(it.rows) > MOST_ROWS:
        yield f"<p>and {len(it.rows) - MOST_ROWS:,} more, which summary.json has.</p>"


def section(title: str, why: str, *tables: Table) -> str:
    parts = [f"<h2>{escape(title)}</h2>", f'<p class="why">{escape(why)}</p>']
    parts += [line for it in tables for line in table_html(it)]
    return "\n".join(parts)


# ---- the sections


def became(told: Data) -> str:
    rows: list[Row] = [(it["status"], it["requests"]) for it in told["became"]]
    return section(
        "What became of each request",
        f"The {told['requests']:,} requests that were asked in this time, each by the roster under "
        "which it was asked. grants.csv has when each was in force, roster by roster.",
        Table("What became of it|Requests", rows),
    )


def whole(told: Data) -> str:
    differs = told["second_reading"]["differs_by"]
    said = (
        f"A SECOND READING DIFFERS for the rosters of {', '.join(differs)}: see comparison there."
        if differs
        else "A second reading, which uses nothing of the desk, came to the same for each roster."
    )
    gaps: list[Row] = [(it["by"], span(it["first"], it["last"])) for it in told["gaps"]]
    gaps += [(it["by"], f"begins at {it['no']}") for it in told["begins"]]
    left: list[Row] = [
        (spread(it["message"]["at"]), it["code"], it["message"]["kind"], it["message"]["by"])
        for it in told["left_out"]
    ]
    return section(
        "Is it whole?",
        f"{said} A number that is missing was refused by the desk, or is kept from this page; "
        "a message that the roster of its own time does not admit is left out.",
        Table("Asker|Numbers that no message has", gaps, "No number of an asker is missing."),
        Table("When|Why left out|What|Who", left, "No message was left out."),
    )


def signed(told: Data) -> str:
    if "signatures" not in told:
        return section("Who signed it?", "No door's journal was given: nothing is said.")
    found, others = told["signatures"]["found"], told["signatures"]["of_other_times"]
    messages: list[Row] = [
        (it["kind"], spread(said["at"]), said["kind"], said["by"], said["of"], said["no"], it["why"])
        for it in found
        if (said := it.get("message"))
    ]
    rows: list[Row] = [(it["kind"], it["why"]) for it in found if "message" not in it]
    more = f" Of other times there are {others:,} more: the file `verified` has them."
    return section(
        "Who signed it?",
        "What desk-verify found in the door's journal, its signers and the messages: messages that "
        f"nobody signed, and rows that are missing or were changed.{more if others else ''}",
        Table("What|When|Kind|By|Of|No|Why", messages, "Each message of this time was signed."),
        Table("What|Why", rows, "The journal is whole."),
        Table("It counted", [(it,) for it in told["signatures"]["counts"]]),
    )


def span(first: int, last: int) -> str:
    return f"{first}" if first == last else f"{first} to {last}"


def not_accepted(told: Data) -> str:
    rows: list[Row] = [
        (it["by"], it["no"], it["approver"], spread(it["at"]), WHY_NOT[it["why"]])
        for it in told["not_accepted"]
    ]
    return section(
        "Approvals that did not count",
        "Somebody approved who may not, by the roster of that moment.",
        Table("Asked by|No|Approved by|When|Why it did not count", rows),
    )


def careful(told: Data) -> str:
    quick: list[Row] = [
        (it["approver"], it["approvals"], it["quick"]) for it in told["quick"]["approvers"]
    ]
    pairs: list[Row] = [
        (it["asker"], it["approver"], it["approvals"], f"{it['percent']} %", it["other_way"])
        for it in told["pairs"]
    ]
    most = told["quick"]["seconds"]
    return section(
        "How carefully was it approved?",
        f"Approvals within {most} seconds of the request, and who approves whom most. A small "
        "number is usual; a large one asks for a talk.",
        Table(f"Approver|Approvals|Within {most} seconds", quick),
        Table("Asker|Approver|Approvals|Of all that the asker got|The other way", pairs),
    )


def without(told: Data, has_logs: bool) -> str:
    rows: list[Row] = [
        (it["host"], it["by"], it["runas"], it["command"], spread(it["first"]), it["runs"])
        for it in told["without_grant"]
    ]
    late: list[Row] = [
        (it["host"], f"{it['by']} {it['no']}", it["command"], spread(it["first"]))
        for it in told["after_revocation"]
    ]
    if not has_logs:
        return section("Root without a grant", "No log of sudo's was given: nothing is said.")
    return section(
        "Root without a grant",
        "What ran on a host, by sudo's logs, by no right that the desk knows; and what ran by a "
        "grant after it was revoked.",
        Table("Host|Who|As|What|First|Times", rows),
        Table("Host|Grant|What, after its revocation|First", late, "None after a revocation."),
    )


def use(told: Data, has_logs: bool) -> str:
    rows: list[Row] = [(it["by"], it["used"], it["unused"], it["no_log"]) for it in told["use"]]
    if not has_logs:
        return section("Was it needed?", "No log of sudo's was given: nothing is said.")
    return section(
        "Was it needed?",
        "Each person's grants, counted on each host: whether anything was run by them.",
        Table("Who|Used|Unused|No log of the host", rows),
    )


def changes(told: Data) -> str:
    parts = [
        section(
            "What changed meanwhile",
            "Each change of the roster or of the base, why it was made and by whom, as its history "
            "has it, and each request whose fate it altered from then on.",
        )
    ]
    for it in told["changes"]:
        parts.append(f"<h3>{escape(spread(it['at']))}</h3><ul>")
        words = [f"{row['word']}: {row['text']}" for row in it["said"]] + it["words"]
        parts += [f"<li>{escape(readable(word))}</li>" for word in words]
        parts.append("</ul>")
        rows: list[Row] = [
            (f"{row['by']} {row['no']}", title_of(row["kind"]), "; ".join(row["lines"]))
            for row in it["altered"]
        ]
        parts += table_html(Table("Request|What became of it|How", rows, "It altered no request."))
    return "\n".join(parts if told["changes"] else [*parts, "<p>Nothing.</p>"])


def idle(told: Data) -> str:
    rows: list[Row] = [
        (it["person"], it["duty"], f"{USE[it['never']]} under {', '.join(it['ceilings'])}")
        for it in told["idle"]
    ]
    return section(
        "Duties that were never used",
        "What somebody may do at the end of this time, and did not do in it.",
        Table("Who|Duty|Not used", rows),
    )


def right_words(it: Data) -> str:
    if "more" in it:
        return str(it["said"])
    without = f" but {', '.join(it['without'])}" if it["without"] else ""
    why = f" ({it['runs_others']})" if "runs_others" in it else ""
    return f"{it['right']}{without}{why}"


def standing(told: Data) -> str:
    # (hosts on which somebody has the same stand in one row)
    hosts: dict[Row, list[str]] = {}
    for it in told["standing"]:
        since = spread(it.get("since", "")) + (" or before" if it.get("or_before") else "")
        password = {"no": "no", "yes": "yes", "some": "for some"}.get(it["password"], "")
        row = (it["user"], it["target"], right_words(it), password, since)
        hosts.setdefault(row, []).extend(it["hosts"])
    rows: list[Row] = [(*row, " ".join(held)) for row, held in hosts.items()]
    return section(
        "Who needs no request",
        told["standing_unknown"]
        or "The standing rights at the end of this time, by the base. * is whatever the base does "
        "not name.",
        Table("Who|As|What|Password|Since|Hosts", rows),
    )


def reasons(told: Data) -> str:
    if "without_reason" not in told:
        return section("Why was it asked?", "No relay's reasons were given: nothing is said.")
    names = told["without_reason"]
    lacking: list[Row] = [(len(names), ", ".join(names))] if names else []
    tried: list[Row] = [
        (it["who"], it["no"], spread(it["at"]), it.get("ceiling", ""), it.get("answer", ""))
        for it in told["attempts"]
    ]
    return section(
        "Why was it asked?",
        "Requests without a reason and a ticket, and requests that the desk refused: the relay "
        "keeps both, and vouches for them.",
        Table("Without a reason|Requests", lacking),
        Table("Who|No|When|Ceiling|Refused with", tried, "The relay has no refused request."),
    )


def sampled(told: Data, rows: Iterable[dict[str, str]]) -> str:
    keys = ("who", "no", "status", "asked_time", "ceiling", "hosts", "commands", "approved_by")
    shown: list[Row] = [tuple(row[key] for key in (*keys, "ticket")) for row in rows]
    it = told["sample"]
    return section(
        f"A sample of {len(shown)} of {told['requests']:,}",
        f"The requests with the smallest SHA-256 of '{it['seed']} WHO NO': anybody draws the same. "
        "sample.csv has more of each.",
        Table("Who|No|Status|Asked|Ceiling|Hosts|Commands|Approved by|Ticket", shown),
    )


def cannot(told: Data) -> str:
    items = "".join(f"<li>{escape(it)}</li>" for it in told["cannot_tell"])
    head = section("What this page cannot tell", "Read it before you rely on it.")
    return f"{head}<ul>{items}</ul>"


def page(told: Data, rows: list[dict[str, str]], made: Iterable[str], has_logs: bool) -> str:
    """The page as one text."""
    title = f"Privileged access, {spread(told['from'])} to {spread(told['until'])} (UTC)"
    parts = [became(told), whole(told), signed(told), not_accepted(told), careful(told)]
    parts += [without(told, has_logs), use(told, has_logs), changes(told), idle(told)]
    parts += [standing(told), reasons(told)]
    if "sample" in told:
        parts.append(sampled(told, rows))
    parts.append(cannot(told))
    lines = "<br>".join(escape(visible(it)) for it in made)
    parts.append(section("What made this page", "The same inputs give the same bytes."))
    parts.append(f"<p><code>{lines}</code></p>")
    body = "\n".join(parts)
    return (
        '<!doctype html>\n<html lang="en"><head><meta charset="utf-8">'
        f"<title>{escape(title)}</title><style>{STYLE}</style></head><body>"
        f"<h1>{escape(title)}</h1>\n{body}\n</body></html>\n"
    )
