"""What `desk-used` tells, as JSON and as text."""

import json
from collections.abc import Iterable, Iterator
from typing import Any

from desk_tools.found import visible
from desk_tools.made import lines_of as made_lines
from desk_tools.sudo_logs import Logs
from desk_tools.use import Grant, Row, Use, escaped
from steelnewt_client.moments import stamp_of

Told = dict[str, Any]
MOST_PATHS = 16


def times(moments: list[int]) -> Told:
    """How often, first and last."""
    if not moments:
        return {"runs": 0}
    return {"runs": len(moments), "first": stamp_of(min(moments)), "last": stamp_of(max(moments))}


def grant_of(grant: Grant) -> Told:
    moments = grant.moments
    return {
        "by": grant.by,
        "no": grant.no,
        "host": grant.host,
        "runas": grant.runas,
        "from": stamp_of(grant.first),
        "until": stamp_of(grant.last),
        "status": "used" if moments else "unused" if grant.is_logged else "no log",
        **times(moments),
        "commands": [
            {"command": it, **times(grant.used[it]), "ran": sorted(map(escaped, grant.ran[it]))}
            for it in grant.commands
            if it in grant.used
        ],
        "never": [it for it in grant.commands if it not in grant.used] if grant.is_logged else [],
    }


def row_of(row: Row) -> Told:
    told: Told = {
        "host": escaped(row.done.host),
        "by": escaped(row.done.user),
        "runas": escaped(row.done.target),
        "command": row.done.shown,
        **times(row.moments),
        "ground": row.ground,
    }
    if row.grants:
        told["grants"] = [{"by": it.by, "no": it.no} for it in row.grants]
    return told | ({"why": row.why} if row.why else {})


def logs_of(logs: Logs) -> Told:
    return {
        "files": logs.files,
        "lines": logs.lines,
        "refused": [
            {"host": escaped(host), "by": escaped(user), "count": len(moments)}
            for (host, user), moments in sorted(logs.refused.items())
        ],
        "hosts": [
            {"host": escaped(host), "first": stamp_of(first), "last": stamp_of(last)}
            for host, (first, last) in sorted(logs.spans().items())
        ],
        "unread": logs.count_unread,
        "unread_lines": [
            {"file": visible(it.file), "line": it.line, "why": escaped(it.why)}
            for it in logs.unread
        ],
    }


def told_of(logs: Logs, use: Use) -> Told:
    """What is told whatever the options are."""
    return {
        "logs": logs_of(logs),
        "grants": [grant_of(it) for it in use.grants],
        "runs": [row_of(it) for it in use.rows],
        "after_revocation": [
            {
                "by": it.grant.by,
                "no": it.grant.no,
                "host": it.grant.host,
                "status": it.grant.status,
                "until": stamp_of(it.grant.at - 1),
                "command": it.done.shown,
                **times(it.moments),
            }
            for it in use.late
        ],
    }


def json_of(told: Told) -> str:
    """JSON with a line for each thing that is told."""
    parts = []
    for key, value in told.items():
        text = json.dumps(value)
        if isinstance(value, list) and value:
            text = "[\n" + ",\n".join(map(json.dumps, value)) + "\n]"
        parts.append(f"{json.dumps(key)}: {text}")
    return "{\n" + ",\n".join(parts) + "\n}\n"


# ---- text


def span(it: Told) -> str:
    return str(it["first"]) if it["first"] == it["last"] else f"{it['first']} to {it['last']}"


def times_said(count: int) -> str:
    return {1: "once", 2: "twice"}.get(count, f"{count:,} times")


def of_grants(told: Told) -> Iterator[str]:
    for it in told["grants"]:
        said = f"used {times_said(it['runs'])}" if it["runs"] else it["status"]
        window = f"{it['from']} to {it['until']}"
        yield f"{it['by']} {it['no']}  {it['host']} as {it['runas']}  {window}  {said}"
        for command in it["commands"]:
            yield f"  ran     {command['command']}  {times_said(command['runs'])}, {span(command)}"
            ran = command["ran"]
            if ran != [command["command"].partition(" ")[0]]:
                more = f" and {len(ran) - MOST_PATHS} more" if len(ran) > MOST_PATHS else ""
                yield f"          {' '.join(ran[:MOST_PATHS])}{more}"
        for command in it["never"]:
            yield f"  never   {command}"


def of_runs(rows: Iterable[Told]) -> Iterator[str]:
    for it in rows:
        why = f"  ({it['why']})" if it.get("why") else ""
        yield f"{it['host']} {it['by']} as {it['runas']}  {times_said(it['runs'])}, {span(it)}{why}"
        yield f"  {it['command']}"


def of_logs(told: Told) -> Iterator[str]:
    for it in told["refused"]:
        yield f"{it['host']} {it['by']}  {times_said(it['count'])}"
    yield "UNREAD"
    for it in told["unread_lines"]:
        yield f"{it['file']}:{it['line']}: {it['why']}"
    if told["unread"] > len(told["unread_lines"]):
        yield f"and {told['unread'] - len(told['unread_lines']):,} more lines"


def lines_of(told: Told) -> Iterator[str]:
    yield "GRANTS"
    yield from of_grants(told)
    for heading, ground in (("NEITHER", "neither"), ("BASE", "base"), ("ROOT", "root")):
        yield heading
        yield from of_runs(it for it in told["runs"] if it["ground"] == ground)
    yield "AFTER REVOCATION"
    for it in told["after_revocation"]:
        was = f"in force until {it['until']}"
        if it["status"] == "void":
            was = f"not yet in force at {it['until']}"
        grant = f"{it['by']} {it['no']} on {it['host']}, {was}"
        yield f"{grant}: {times_said(it['runs'])}, {span(it)}"
        yield f"  {it['command']}"
    if "unlogged" in told:
        yield "NO LINE"
        for it in told["unlogged"]:
            yield f"{it['host'] or 'a host'} {it['by']} as {it['runas']}  started at {it['at']}"
            yield f"  {it['command']}"
        yield from told["starts_lost"]
    if "unused_rules" in told:
        yield f"UNUSED RULES since {told['unused_since']}"
        for it in told["unused_rules"]:
            yield f"{it['rule']}  {it.get('last', 'never')}"
    if "beyond" in told:
        yield "BEYOND"
        for it in told["beyond"]:
            yield f"{it['user']}  {it.get('witness') or it.get('code', 'none')}"
    if "ceilings" in told:
        yield "CEILINGS"
        yield from of_ceilings(told["ceilings"])
    yield "REFUSED"
    yield from of_logs(told["logs"])
    yield "MADE"
    yield from made_lines(told["made"])


def of_ceilings(ceilings: list[Told]) -> Iterator[str]:
    """The proposals, as text for the roster."""
    for it in ceilings:
        counts = f"{it['grants']} ended, {it['unused']} unused, {it['no_log']} without a log"
        yield f"# {it['ceiling']}: {counts}"
        yield from (f"# {person['by']}: {of_person(person)}" for person in it["persons"])
        yield from (f"# warning: {warning}" for warning in it["warnings"])
        yield from it["proposal"].splitlines()


def of_person(it: Told) -> str:
    """What a person had under a ceiling, and used of it."""
    had = f"{', '.join(it['commands'])} on {' '.join(it['hosts'])}"
    if not it["used_hosts"]:
        return f"{had}, used nothing"
    return f"{had}, used {', '.join(it['used_commands'])} on {' '.join(it['used_hosts'])}"


def text_of(told: Told) -> str:
    return "".join(f"{line}\n" for line in lines_of(told))
