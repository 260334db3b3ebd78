#!/usr/bin/env python3
"""Compares `desk-audit --json` with a second reading of the rules (docs/AUDITING.md,
docs/MESSAGES.md) on random rosters and messages, and its text with what its JSON says.

Each set is asked about whole, and once more with random options. Which messages a desk holds is
what `desk deliver` acknowledges; all else is made here. The statuses are compared with those of
examples/second-reading.jq as well, and some sets stand in a store that was rebuilt with another
roster. The same sets each time. `python3 -m tests.cases.random_audits DESK AUDIT` takes other
programs than build/desk and build/desk-audit. It needs jq and Debian's python3-jsonschema.
"""

import itertools
import json
import os
import random
import sqlite3
import sys
import tempfile
import tomllib
from collections.abc import Iterable, Iterator, Mapping
from typing import Any

import jsonschema

from tests.cases.random_reports import (
    HOSTS,
    MIDNIGHT,
    PEOPLE,
    Folder,
    Message,
    Roster,
    message,
    window,
)
from tests.common import desk

SETS = 200
# how many sets are asked about under another roster than the one that admitted them
REBUILT = 20
READING = os.path.join(desk.EXAMPLES, "second-reading.jq")
DESK, AUDIT = desk.named_both()

# What is said of a name, or of all.
Entry = dict[str, Any]
# The options: their names, and the words behind them.
Pick = Mapping[str, str]


def complete(
    roster: Roster, request: Message, verdicts: list[Message]
) -> tuple[str | None, dict[str, str]]:
    """The moment at which enough people have approved, or None; and when each of them first did."""
    first: dict[str, str] = {}
    for verdict in sorted(verdicts, key=lambda verdict: verdict["at"]):
        if verdict["kind"] == "approve" and bar(roster, request, verdict) is None:
            first.setdefault(verdict["by"], verdict["at"])
    needs = roster.needs[request["ceiling"]]
    moments = sorted(first.values())
    return (moments[needs - 1] if len(moments) >= needs else None), first


def bar(roster: Roster, request: Message, verdict: Message) -> str | None:
    """Why the author may not approve or refuse at the verdict's moment, or None."""
    return roster.bar(verdict["by"], request["by"], verdict["at"])


def status_of(
    roster: Roster, request: Message, verdicts: list[Message]
) -> tuple[str, tuple[int, int] | None]:
    """The status of the only request of its name, and its window."""
    whole, _ = complete(roster, request, verdicts)
    refusals = [
        verdict["at"]
        for verdict in verdicts
        if verdict["kind"] == "refuse" and bar(roster, request, verdict) is None
    ]
    if any(whole is None or at <= whole for at in refusals):
        return "refused", None
    if whole is None:
        return "waiting", None
    held = window(roster, request, verdicts)
    return ("granted", held) if held else ("void", None)


def weight(
    roster: Roster, request: Message, verdicts: list[Message], verdict: Message
) -> str | None:
    """Why a verdict does not count, or None."""
    if verdict["kind"] == "revoke":
        may = roster.may_revoke(verdict["by"], request["by"], verdict["at"])
        return None if may else "duty"
    why = bar(roster, request, verdict)
    whole, _ = complete(roster, request, verdicts)
    is_refusal = why is None and verdict["kind"] == "refuse"
    return "late" if is_refusal and whole is not None and verdict["at"] > whole else why


def weighed(verdict: Message, why: str | None) -> Entry:
    if why is None:
        return {"verdict": verdict, "counts": True}
    return {"verdict": verdict, "counts": False, "why": why}


def entry(
    roster: Roster,
    name: tuple[str, int],
    asked: list[Message],
    verdicts: list[Message],
    until: str | None,
) -> Entry:
    """What is said of a name."""
    said: Entry = {"by": name[0], "no": name[1]}
    if len(asked) != 1:
        word = "disputed" if asked else "parked"
        told = [weighed(verdict, word) for verdict in verdicts]
        return said | {"status": word, "requests": asked, "verdicts": told}
    [request] = asked
    word, held = status_of(roster, request, verdicts)
    said["status"] = word
    if held:
        said["window"] = {"from": desk.stamp(held[0]), "until": desk.stamp(held[1])}
    said["requests"] = asked
    said["verdicts"] = [
        weighed(verdict, weight(roster, request, verdicts, verdict)) for verdict in verdicts
    ]
    if word == "waiting":
        _, first = complete(roster, request, verdicts)
        at = until or request["at"]
        people = [
            person
            for person in sorted(PEOPLE)
            if person not in first and roster.bar(person, request["by"], at) is None
        ]
        said["lacks"] = roster.needs[request["ceiling"]] - len(first)
        said["may_approve"] = {"at": at, "people": people}
    return said


def spans(said: Entry) -> list[tuple[str, str]]:
    """The spans of an entry that --from and --until look at."""
    if "window" in said:
        return [(said["window"]["from"], said["window"]["until"])]
    if said["requests"]:
        return [(request["from"], request["until"]) for request in said["requests"]]
    return [(each["verdict"]["at"],) * 2 for each in said["verdicts"]]


def is_picked(said: Entry, pick: Pick) -> bool:
    start, end = pick.get("from", "0"), pick.get("until", "9")
    touches = any(first <= end and start <= last for first, last in spans(said))
    there = "host" not in pick or any(
        pick["host"] in request["hosts"] for request in said["requests"]
    )
    people = {said["by"], *(each["verdict"]["by"] for each in said["verdicts"])}
    return touches and there and pick.get("person", said["by"]) in people


def document(roster: Roster, texts: Iterable[str], pick: Pick) -> Entry:
    """The document that the desk has to print of these messages."""
    about: dict[tuple[str, int], tuple[list[Message], list[Message]]] = {}
    for each in map(json.loads, texts):
        is_request = each["kind"] == "request"
        name = each["by" if is_request else "of"], each["no"]
        about.setdefault(name, ([], []))[0 if is_request else 1].append(each)
    said = [entry(roster, name, *about[name], pick.get("until")) for name in sorted(about)]
    said = [each for each in said if is_picked(each, pick)]
    windows = [
        {"host": host, **each["window"], "by": each["by"], "no": each["no"]}
        for each in said
        if "window" in each
        for host in each["requests"][0]["hosts"]
        if pick.get("host", host) == host
    ]
    keys = ("host", "from", "until", "by", "no")
    windows.sort(key=lambda each: [each[key] for key in keys])
    return {"names": said, "windows": windows}


def lines_of(said: Entry) -> Iterator[str]:
    """The lines of the text that tell of an entry."""
    line = f"{said['by']} {said['no']}  {said['status']}"
    if "window" in said:
        line += f" {said['window']['from']} to {said['window']['until']}"
    yield line
    for request in said["requests"]:
        yield f"  asked     {request['at']} for {request['from']} to {request['until']}"
        yield f"  ceiling   {request['ceiling']}"
        yield f"  target    {request['runas']}"
        yield f"  hosts     {' '.join(request['hosts'])}"
        yield from (f"  command   {command}" for command in request["cmnds"])
    for each in said["verdicts"]:
        verdict = each["verdict"]
        yield f"  {verdict['kind']:<10}{verdict['at']} {verdict['by']} {each.get('why', 'counts')}"
    if "lacks" in said:
        yield f"  lacks     {said['lacks']}"
        yield " ".join([f"  may       {said['may_approve']['at']}", *said["may_approve"]["people"]])


def text_of(made: Entry) -> str:
    """The text of a document, where no line is too long."""
    lines = ["REQUESTS"]
    lines += [line for each in made["names"] if each["requests"] for line in lines_of(each)]
    lines.append("PARKED")
    lines += [line for each in made["names"] if not each["requests"] for line in lines_of(each)]
    lines.append("WINDOWS")
    for host, windows in itertools.groupby(made["windows"], lambda each: each["host"]):
        lines.append(host)
        lines += [
            f"  {each['from']} to {each['until']}  {each['by']} {each['no']}" for each in windows
        ]
    return "".join(line + "\n" for line in lines)


def options(chance: random.Random) -> Pick:
    """Random options, and the words for them."""
    moment = desk.stamp(MIDNIGHT + chance.randint(0, 14) * 600)
    made = {
        "from": moment,
        "until": desk.stamp(MIDNIGHT + chance.randint(0, 145) * 600),
        "host": chance.choice(HOSTS),
        "person": chance.choice(PEOPLE),
    }
    return {name: made[name] for name in made if chance.random() < 0.4}


def audit(folder: Folder, given: str, pick: Pick, *more: str) -> desk.Run:
    words = [word for name, value in pick.items() for word in (f"--{name}", value)]
    return desk.run([AUDIT, *words, folder.roster, folder.base, "-", *more], given)


def statuses(made: Entry) -> list[str]:
    """The name, the status and any window of each entry, as examples/second-reading.jq has them."""
    return [
        " ".join(
            [each["by"], str(each["no"]), each["status"]]
            + [each["window"][end] for end in ("from", "until") if "window" in each]
        )
        for each in made["names"]
    ]


def second_reading(path: str, roster: Roster, texts: Iterable[str]) -> list[str]:
    """What examples/second-reading.jq makes of the texts under the roster."""
    read = desk.write(path, "roster.json", json.dumps(tomllib.loads(roster.text())))
    words = ["jq", "-rn", "--slurpfile", "roster", read, "-f", READING]
    ran = desk.run(words, "".join(text + "\n" for text in texts))
    return [*ran.stdout.splitlines(), *ran.stderr.splitlines()]


def texts_of(store: str) -> list[str]:
    """The messages that a store keeps."""
    with sqlite3.connect(store) as kept:
        return [text for (text,) in kept.execute("SELECT body FROM messages")]


def rebuilt(path: str, chance: random.Random) -> tuple[list[str], set[str]]:
    """In what the statuses in a store that was rebuilt with another roster differ from a second
    reading, and which words came."""
    first, second = Roster(chance), Roster(chance)
    store = os.path.join(path, "desk.db")
    given = "".join(desk.canonical(message(chance)) + "\n" for _ in range(40))
    folder = Folder(path, first.text(), "")
    desk.run([DESK, "deliver", folder.roster, folder.base, store, "web"], given)
    folder = Folder(path, second.text(), "")
    desk.run([DESK, "rebuild", folder.roster, folder.base, store])
    ran = desk.run([AUDIT, folder.roster, folder.base, store, "--json"])
    if ran.returncode:
        return [f"{second.text()}\n{given}\n{ran.stderr}"], set()
    made = json.loads(ran.stdout)
    read = second_reading(path, second, texts_of(store))
    wrong = [] if read == statuses(made) else [f"{second.text()}\n{given}\n{ran.stdout}\n{read}"]
    return wrong, {each["status"] for each in made["names"]}


def compare(path: str, chance: random.Random, schema: Entry) -> tuple[int, list[str], set[str]]:
    """How many names and verdicts of a random set were compared, in what it is told otherwise than
    here, and which words came."""
    roster = Roster(chance)
    folder = Folder(path, roster.text(), "")
    lines = [desk.canonical(message(chance)) for _ in range(chance.randint(0, 40))]
    lines += chance.sample(lines, len(lines) // 4)
    given = "".join(line + "\n" for line in lines)
    answers = desk.run([DESK, "deliver", folder.roster, folder.base, "-", "web"], given).stdout
    told = zip(lines, answers.splitlines(), strict=True)
    held = sorted({line for line, answer in told if answer == "ack"})
    wrong, count, seen = [], 0, set[str]()
    picks: tuple[Pick, Pick] = {}, options(chance)
    for pick in picks:
        wanted = document(roster, held, pick)
        ran, shown = audit(folder, given, pick, "--json"), audit(folder, given, pick)
        for each in wanted["names"]:
            count += 1 + len(each["verdicts"])
            seen |= {each["status"], *(why["why"] for why in each["verdicts"] if "why" in why)}
        if ran.returncode or shown.returncode or json.loads(ran.stdout) != wanted:
            said = f"{ran.stdout}{ran.stderr}\n{json.dumps(wanted)}"
            wrong.append(f"{roster.text()}\n{given}\n{pick}\n{said}")
        elif shown.stdout != text_of(wanted):
            wrong.append(f"{pick}\n{shown.stdout}\n{text_of(wanted)}")
        else:
            jsonschema.validate(wanted, schema)
    read, wanted = second_reading(path, roster, held), document(roster, held, {})
    if read != statuses(wanted):
        wrong.append(f"{roster.text()}\n{given}\n{read}\n{statuses(wanted)}")
    return count, wrong, seen


def main() -> None:
    chance = random.Random(37)
    schema = json.loads(desk.read("tools", "schemas", "audit.schema.json"))
    jsonschema.Draft202012Validator.check_schema(schema)
    with tempfile.TemporaryDirectory() as path:
        compared = [compare(path, chance, schema) for _ in range(SETS)]
    changed = []
    for _ in range(REBUILT):
        with tempfile.TemporaryDirectory() as path:
            changed.append(rebuilt(path, chance))
    wrong = [text for _, found, _ in compared for text in found]
    wrong += [text for found, _ in changed for text in found]
    print("\n\n".join(wrong[:3]))
    seen = set[str]().union(*(words for _, _, words in compared), *(it for _, it in changed))
    lacks = {"granted", "waiting", "refused", "void", "disputed", "parked", "lapsed"} - seen
    lacks |= {"asker", "duty", "conflict", "late"} - seen
    count = sum(count for count, _, _ in compared)
    print(
        f"{SETS} sets, each asked about twice, {count} names and verdicts, and {REBUILT} sets under"
        f" another roster: {len(wrong)} told otherwise than they are made here"
    )
    sys.exit(f"no set has {', '.join(sorted(lacks))}" if lacks else 1 if wrong else 0)


if __name__ == "__main__":
    main()
