#!/usr/bin/env python3
"""Runs the program on each case of cases/, and compares its output, its standard error and its
status.

cases/README.md says what stands in which file, and KINDS which function here reads it. Each case
that differs is printed, the three slowest where one took more than ten seconds, and the last line
has the counts.
"""

import contextlib
import itertools
import os
import re
import shlex
import subprocess
import sys
import tempfile
import time
import tomllib
from collections.abc import Callable, Iterable, Iterator, Sequence
from typing import Any, NamedTuple

from tests.common import desk, store_files

Table = dict[str, Any]
# A text, in pieces: a string, [string, times], or what `piece` makes of a table.
Text = Any
# What has to stand on a stream: a text, any text, or what a function says yes to.
Expected = str | Callable[[str], bool] | None
Wanted = tuple[Expected, Expected, int]
# Its title, what is run, and the answer that is wanted; visits have their answers themselves.
Case = tuple[str, "Run | Visits", "Wanted | None"]


class Run(NamedTuple):
    """The texts of the files BASE, ROSTER and OTHER, the program's words, its input, and the names
    of the files that take the place of its streams."""

    base: bytes
    words: list[str]
    given: bytes = b""
    streams: dict[str, str] = {}
    roster: bytes = b""
    other: bytes = b""


# What is wrong with the file at a path, if something is.
Fault = Callable[[str], str | None]


class Visits(NamedTuple):
    """Runs in a row over one store, each with the answer that is wanted: how the store's file is
    made before, and the fault of the file after, if there is one.

    The texts are those that the recipe's statements name. The file may be `taken` by another
    program meanwhile, or have to stay `untouched`, and `bounded` takes root's right to pass over a
    file's mode from the program.
    """

    runs: list[tuple[Run, Wanted]]
    made: Table = {}
    texts: dict[str, str] = {}
    fault: Fault = lambda _: None
    taken: bool = False
    untouched: bool = False
    bounded: bool = False


WINDOW = "NOTBEFORE=20260105090000Z NOTAFTER=20260105110000Z"


def some(text: str) -> bool:
    """Any text but none."""
    return text != ""


def begins(front: str) -> Callable[[str], bool]:
    return lambda text: text.startswith(front)


def doubled(count: int) -> str:
    """So many aliases: `X1` of two users, and each other of the one before, twice."""
    lines = ["User_Alias X1 = a, a\n"]
    lines += [f"User_Alias X{n} = X{n - 1}, X{n - 1}\n" for n in range(2, count + 1)]
    return "".join(lines)


def chained(count: int) -> str:
    """So many aliases: `X1` of a user, and each other of the one before."""
    return "User_Alias X1 = ann\n" + "".join(
        f"User_Alias X{n} = X{n - 1}\n" for n in range(2, count + 1)
    )


def turned(count: int) -> str:
    """So many aliases: `X1` of a user, and each other of the one before, negated."""
    return "User_Alias X1 = ann\n" + "".join(
        f"User_Alias X{n} = !X{n - 1}\n" for n in range(2, count + 1)
    )


def counted(text: str, count: int) -> str:
    """The text so many times, with 0, 1, .. in the place of its `{}`, or 000, 001, .. in that of
    its `{:03}`."""
    return "".join(text.replace("{}", str(n)).replace("{:03}", f"{n:03}") for n in range(count))


def text_of(value: Text) -> str:
    """The text that a string stands for, or a list of pieces."""
    if isinstance(value, str):
        return value
    return "".join(map(piece, value))


def piece(part: Text) -> str:
    if isinstance(part, str):
        return part
    if isinstance(part, list):
        text, times = part
        return text * times
    makers = {
        "doubled": doubled,
        "chained": chained,
        "turned": turned,
        "counted": lambda made: counted(*made),
    }
    [(maker, count)] = part.items()
    return makers[maker](count)


def words_of(line: Text) -> list[str]:
    """The words of a line, cut as a shell cuts them."""
    return shlex.split(text_of(line))


def wanted_of(*tables: Table, out: Expected = "") -> Wanted:
    """What is wanted of a run: `out`, `err` and `status`, each of the first table that has it.

    Where none has, the output is what is given here, nothing is said, and the status is 0.
    """
    found: Table = {}
    for table in tables:
        found = table | found
    printed = text_of(found["out"]) if "out" in found else out
    return printed, found.get("err", ""), found.get("status", 0)


def check(text: str | bytes) -> Run:
    """A run that checks the text."""
    return Run(text if isinstance(text, bytes) else text.encode(), ["check", "BASE"])


def print_of(
    table: Table, given: str | bytes, roster: str | bytes | None = None, host: str = "db1"
) -> Run:
    """A run that prints the host's file over this input, and the table's roster or another."""
    text = table["roster"] if roster is None else roster
    return Run(
        table.get("base", "").encode(),
        ["print", "ROSTER", "BASE", "-", host],
        given if isinstance(given, bytes) else given.encode(),
        roster=text if isinstance(text, bytes) else text.encode(),
    )


def both(row: Table) -> list[str]:
    """The texts of a row with the most copies of its part, and with one more."""
    front, rest = text_of(row["front"]), text_of(row["rest"])
    return [front + row["part"] * count + rest for count in (row["most"], row["most"] + 1)]


def check_texts(table: Table) -> Iterator[Case]:
    for group in table["group"]:
        for row in group["rows"]:
            text = text_of(row["text"])
            yield group["name"], check(text), wanted_of(row, out=text)


def check_refused(table: Table) -> Iterator[Case]:
    for group in table["group"]:
        rows = group.get("rows", []) + [{"text": text} for text in group.get("texts", [])]
        for row in rows:
            text = text_of(row["text"]).encode() + bytes.fromhex(row.get("bytes", ""))
            yield group["name"], check(text), wanted_of(row, group, table)


def check_limits(table: Table) -> Iterator[Case]:
    for row in table["most"]:
        most, longer = both(row)
        yield row["name"], check(most), (None, "", 0)
        yield row["name"] + ", and one more", check(longer), wanted_of(row, table)


def decide(text: str, line: Text, decision: str) -> tuple[Run, Wanted]:
    """A run that decides, with the answer that is wanted."""
    return Run(text.encode(), ["decide", "BASE", *words_of(line)]), (
        decision + "\n",
        "",
        1 if decision == "deny" else 0,
    )


def decide_runs(table: Table) -> Iterator[Case]:
    for policy in table["case"]:
        for line, decision in policy["runs"]:
            yield f"{policy['name']}: {line}", *decide(text_of(policy["text"]), line, decision)


def compared_answer(answer: str) -> Wanted:
    """What is wanted of a run that compares: nothing found, a refusal, or a case, whose user is in
    small letters."""
    if answer == "none":
        return answer + "\n", "", 0
    if answer[0].isupper():
        return "", answer + "\n", 2
    return answer + "\n", "", 1


def beyond(table: Table) -> Iterator[Case]:
    for row in table["case"]:
        a, b = (text_of(row.get(name, "")).encode() for name in "ab")
        for key, first, second in (("runs", a, b), ("back", b, a)):
            for options, answer in row.get(key, []):
                run = Run(first, ["beyond", "BASE", "OTHER", *words_of(options)], other=second)
                yield f"{row['name']}, {key}: {options}", run, compared_answer(answer)


def check_moments(table: Table) -> Iterator[Case]:
    for text, stamp in table["spelled"]:
        policy = f"ann db1 = NOTBEFORE={text} NOTAFTER={text} ALL\n"
        yield f"spelled: {text}", check(policy), (
            f"ann db1 = (root) NOTBEFORE={stamp} NOTAFTER={stamp} ALL\n",
            "",
            0,
        )
        yield f"decided at: {stamp}", *decide(policy, f"ann db1 root {stamp} /bin/ls", "allow")
    for text in table["refused"]:
        yield f"refused: {text}", check(f"ann db1 = NOTBEFORE={text} ALL\n"), (
            "",
            "S8 BadMoment line 1\n",
            2,
        )
    for early, late in table["rising"]:
        policies = {"NOTBEFORE": ("deny", "allow"), "NOTAFTER": ("allow", "deny")}
        for option, (before, after) in policies.items():
            bound = late if option == "NOTBEFORE" else early
            policy = f"ann db1 = {option}={bound} ALL\n"
            yield f"rising: {early}, {option}={bound}", *decide(
                policy, f"ann db1 root {early} /bin/ls", before
            )
            yield f"rising: {late}, {option}={bound}", *decide(
                policy, f"ann db1 root {late} /bin/ls", after
            )


def ask_for(table: Table, text: str) -> Run:
    """A run over a request for the command and its approval."""
    request = desk.request(ceiling="db-root", cmnds=[text])
    return print_of(table, f"{request}\n{desk.approval()}\n")


def granted(text: str) -> Wanted:
    """The answer that is wanted where the text is a command's."""
    return f"ann db1 = (root) {WINDOW} {text}\n", "", 0


def print_commands(table: Table) -> Iterator[Case]:
    refused = "", "line 1: M3 BadField\n", 0
    for text in table["commands"]:
        yield f"asked for: {text}", ask_for(table, text), granted(text)
        yield f"checked: {text}", check(f"ann db1 = {text}"), (f"ann db1 = (root) {text}\n", "", 0)
    for text in table["refused"]:
        yield f"refused: {text}", ask_for(table, text), refused
    for row in table["most"]:
        most, longer = both(row)
        yield row["name"], ask_for(table, most), granted(most)
        yield row["name"] + ", and one more", ask_for(table, longer), refused


def input_of(table: Table, row: Table) -> bytes:
    """The input of a row: a text in pieces, or the messages of these names, a line each."""
    if "text" in row:
        given = text_of(row["text"])
    else:
        given = "".join(table["message"][line] + "\n" for line in row["lines"])
    return (given.removesuffix("\n") if row.get("no_newline") else given).encode()


def print_files(table: Table) -> Iterator[Case]:
    for row in table["case"]:
        base, roster = (text_of(row.get(name, table[name])).encode() for name in ("base", "roster"))
        words = ["print", "ROSTER", "BASE", "-", row.get("host", table["host"])]
        words += ["--after", row["after"]] if "after" in row else []
        run = Run(base, words, input_of(table, row), roster=roster)
        yield row["name"], run, wanted_of(row)


def deliver_lines(table: Table) -> Iterator[Case]:
    for row in table["case"]:
        base, roster = (text_of(row.get(name, table[name])).encode() for name in ("base", "roster"))
        words = ["deliver", "ROSTER", "BASE", "-", text_of(row.get("relay", table["relay"]))]
        lines = {"out": "".join(line + "\n" for line in row["out"])}
        run = Run(base, words, input_of(table, row), roster=roster)
        yield row["name"], run, wanted_of(lines, row)


def altered(request: str, row: Table) -> bytes:
    """The bytes of the request with another text in the place of a part."""
    front, part, rest = request.partition(row["part"])
    if not part:
        sys.exit(f"messages.toml: the request has no {row['part']}")
    return (
        front.encode()
        + text_of(row["by"]).encode()
        + bytes.fromhex(row.get("bytes", ""))
        + rest.encode()
    )


def print_messages(table: Table) -> Iterator[Case]:
    request = table["request"]
    for row in table["read"]:
        host = row.get("host", "db1")
        approval = table["approval"].replace('"no":7', f'"no":{row.get("no", 7)}')
        given = altered(request, row) + b"\n" + approval.encode() + b"\n"
        grants = [f"ann {host} = (root) {WINDOW} {command}\n" for command in row["grants"]]
        run = print_of(table, given, host=host)
        yield f"read: {row['by']}", run, wanted_of(row, out=table["out"] + "".join(grants))
    for group in table["group"]:
        lines = [text_of(line).encode() for line in group.get("lines", [])]
        lines += [altered(request, row) for row in group.get("rows", [])]
        if group.get("cut"):
            for text in (request, table["approval"]):
                lines += [text[:count].encode() for count in range(len(text))]
        for line in lines:
            run = print_of(table, line + b"\n")
            yield f"{group['name']}: {line!r}", run, wanted_of(group, table)


def any_words(table: Table) -> Iterator[Case]:
    base, roster = table["base"].encode(), table["roster"].encode()
    for group in table["group"]:
        out: Expected = some if group.get("help") else ""
        err: Expected = begins(group["begins"]) if "begins" in group else group.get("err", "")
        for line in group["lines"]:
            run = Run(
                base,
                words_of(line),
                group.get("given", "").encode(),
                group.get("streams", {}),
                roster,
            )
            printed = None if "stdout" in run.streams else out
            said = None if "stderr" in run.streams else err
            yield f"{group['name']}: {line}", run, (printed, said, group["status"])


def rule_lines(
    first: int, count: int, each: int, until: str = "20260105110000Z"
) -> tuple[list[str], list[str]]:
    """So many requests from this number on, each approved, and the lines of the host's file that
    grant them: by number, and then by command."""
    given, granted = [], []
    for no in range(first, first + count):
        commands = [f"/bin/c{n:02}" for n in range(each)]
        given.append(desk.approval(no))
        given.append(desk.request(no, ceiling="db-root", cmnds=commands, until=until))
        granted += [
            f"ann db1 = (root) NOTBEFORE=20260105090000Z NOTAFTER={until} {name}"
            for name in commands
        ]
    return given, granted


def print_many(table: Table) -> Iterator[Case]:
    for row in table["case"]:
        given: list[str] = []
        granted: list[str] = []
        for made in row["requests"]:
            lines, rules = rule_lines(*made)
            given, granted = given + lines, granted + rules
        after = row.get("after")
        granted = granted[: row["left"]] if after else granted
        out = "" if "err" in row else "\n".join([table["bare"], *granted]) + "\n"
        run = print_of(table, "\n".join(given) + "\n")
        if after:
            run = run._replace(words=[*run.words, "--after", after])
        yield row["name"], run, wanted_of(row, out=out)


def edited(text: str, edits: Iterable[Sequence[Text]]) -> str:
    """The text with another in the place of each part, one edit after the other."""
    for part, by in edits:
        front, found, rest = text.partition(part)
        if found != part:
            sys.exit(f"an edit has no place: {short(part)}")
        text = front + text_of(by) + rest
    return text


def rows_of(group: Table) -> Iterator[list[Any]]:
    """The edits of each row of a group."""
    shared = group.get("with", [])
    for row in [[edit] for edit in group.get("edits", [])] + group.get("several", []):
        yield shared + row
    for part in group.get("parts", []):
        for by in group.get("by", []):
            yield shared + [[part, by]]
    places = group.get("places", []) + [
        [member, member.partition("=")[0] + "= ", ""] for member in group.get("members", [])
    ]
    for part, front, back in places:
        for value in group.get("values", []):
            yield shared + [[part, front + value + back]]


def print_rosters(table: Table) -> Iterator[Case]:
    roster = table["roster"]

    def run(text: str | bytes, given: str = "") -> Run:
        return print_of(table, given, text)

    for group in table["read"]:
        texts = group.get("texts", []) + [edited(roster, edits) for edits in rows_of(group)]
        given = group.get("given", table["messages"])
        for text in texts:
            yield f"read: {group['name']}", run(text, given), wanted_of(group, table)
    for group in table["refused"]:
        texts = group.get("texts", []) + [edited(roster, edits) for edits in rows_of(group)]
        texts += [roster.encode() + bytes.fromhex(tail) for tail in group.get("bytes", [])]
        for text in texts:
            yield f"refused: {group['name']}", run(text), wanted_of(group)
    for row in table["limits"]:
        if "fills" in row:
            most, more = (roster + "#" * (row["fills"] + extra - len(roster)) for extra in (0, 1))
        else:
            most, more = (edited(roster, [[row["part"], row[key]]]) for key in ("most", "more"))
        yield f"limit: {row['name']}", run(most, table["messages"]), (table["out"], "", 0)
        yield f"limit: {row['name']}, and one more", run(more), ("", "O7 OutOfRange\n", 2)
    faults = sorted(table["faults"], key=lambda row: str(row["err"]))
    for rows in [*itertools.combinations(faults, 2), faults]:
        text = roster
        for row in reversed(rows):
            text = edited(text, row["edits"])
        least = rows[0]
        yield f"faults at once: {[row['err'] for row in rows]}", run(text), wanted_of(least)


def message_of(table: Table, row: str | Table) -> Table:
    """The message that a text names in a table, or of a name in it and other members; the member
    `kind` alone makes a verdict."""
    if isinstance(row, str):
        return table["message"][row]
    members = dict(row)
    return table["message"][members.pop("of_message")] | members


def lines_of(table: Table, rows: Iterable[str | Table]) -> str:
    return "".join(desk.canonical(message_of(table, row)) + "\n" for row in rows)


def answers_of(
    table: Table, roster: str, rows: list[Table], relay: str = "web"
) -> tuple[Run, Wanted]:
    """A run that delivers the messages of rows, each with its answer; and the answers that are
    wanted."""
    answers = [row["answer"] for row in rows]
    given = "".join(
        (row["line"] if "line" in row else desk.canonical(message_of(table, row["message"]))) + "\n"
        for row in rows
    )
    run = Run(
        table["base"].encode(),
        ["deliver", "ROSTER", "BASE", "-", relay],
        given.encode(),
        roster=roster.encode(),
    )
    return run, (
        "".join(answer + "\n" for answer in answers),
        "",
        0 if all(answer == "ack" for answer in answers) else 2,
    )


def deliver_admission(table: Table) -> Iterator[Case]:
    for group in table["group"]:
        roster = edited(table["roster"], group.get("with", []))
        rows = [
            {"answer": answer, "message": {"of_message": group.get("message", "Q7")} | members}
            for answer, members in group["rows"]
        ]
        yield group["name"], *answers_of(table, roster, rows)
        for row in rows:
            yield f"{group['name']}, alone", *answers_of(table, roster, [row])
    # of each set of denials the first is answered
    denials, rows = table["denials"], []
    for count in range(1, len(denials) + 1):
        for some_of in itertools.combinations(denials, count):
            members = {"of_message": "Q7"}
            for row in reversed(some_of):
                members |= row["members"]
            rows.append({"answer": some_of[0]["denial"], "message": members})
    yield "each set of denials", *answers_of(table, table["roster"], rows)
    # of each two commands the one lies inside the other, or not
    inside = table["inside"]
    ceilings = "".join(
        desk.ceiling(f"c{n}", commands=[command]) for n, command in enumerate(inside["ceilings"])
    )
    rows = [
        {
            "answer": "ack" if command in within else "A6 CommandOutside",
            "message": {"of_message": "Q7", "ceiling": f"c{n}", "cmnds": [asked]},
        }
        for asked, within in inside["rows"]
        for n, command in enumerate(inside["ceilings"])
    ]
    yield "each two commands", *answers_of(table, table["roster"] + ceilings, rows)


def all_orders(rows: list[Any]) -> Iterator[list[Any]]:
    """The rows in each order, each once and each twice; only as they stand and turned round where
    there are many."""
    orders = itertools.permutations(rows) if len(rows) <= 4 else [rows, rows[::-1]]
    for order in orders:
        yield list(order)
        yield list(order) * 2


def print_requests(table: Table) -> Iterator[Case]:
    for row in table["case"]:
        roster, base = edited(table["roster"], row.get("with", [])), row.get("base", table["base"])
        out = text_of(row.get("bare", table["bare"])) + text_of(row.get("grants", ""))
        orders = all_orders(row["messages"]) if row.get("orders", True) else [row["messages"]]
        for rows in orders:
            for host in row.get("hosts", ["db1"]):
                run = print_of({"base": base}, lines_of(table, rows), roster, host)
                yield f"{row['name']}: {host}", run, wanted_of(row, out=out)
        for line, decision in row.get("decided", []):
            yield f"{row['name']}: {line}", *decide(out, line, decision)
    for row in table["delivered"]:
        relay = text_of(row.get("relay", "web"))
        yield row["name"], *answers_of(
            table, edited(table["roster"], row.get("with", [])), row["rows"], relay
        )
    yield from crowd(table)
    requests = [
        desk.canonical(message_of(table, {"of_message": "Q7", "until": second_of(10, n)}))
        for n in range(table["disputes"]["requests"])
    ]
    given = "\n".join([*requests, desk.canonical(table["message"]["V7"])])
    yield "a name that is disputed often", print_of(table, given), (table["bare"], "", 0)
    longest = table["longest"]
    rows = [
        {
            "line": long_request(table, longest["bytes"] + more),
            "answer": longest["more"] if more else "ack",
        }
        for more in (0, 1)
    ]
    yield "as many bytes as a message may have, and one more", *answers_of(
        table, edited(table["roster"], longest["with"]), rows
    )


def second_of(hour: int, n: int) -> str:
    """The moment so many seconds past the hour, on the day of the cases."""
    return f"20260105{hour + n // 3600:02}{n // 60 % 60:02}{n % 60:02}Z"


def spaced(line: str) -> str:
    """The line with n spaces in the place of each {n}."""
    return re.sub(r"\{([0-9]+)\}", lambda found: " " * int(found[1]), line) + "\n"


def report_of(table: Table, row: Table, at: str) -> str:
    """The report that is wanted of a row."""
    parts = {
        name: "".join(map(spaced, row.get(name, table.get(name, []))))
        for name in ("live", "barred", "conflicts", "broad")
    }
    parts["parked"] = lines_of(table, row.get("parked", []))
    return f"REVIEW {at}\n" + "".join(f"{name.upper()}\n{lines}" for name, lines in parts.items())


def review_desks(table: Table) -> Iterator[Case]:
    for row in table["case"]:
        roster, base, at = (
            edited(table["roster"], row.get("with", [])),
            text_of(row.get("base", table["base"])),
            row.get("at", table["at"]),
        )
        report = "" if row.get("status") else report_of(table, row, at)
        wanted = wanted_of(row, out=report)
        if "input" in row:
            given = [text_of(row["input"])]
        else:
            orders = all_orders(row["messages"]) if row.get("orders", True) else [row["messages"]]
            given = [lines_of(table, rows) for rows in orders]
        for text in given:
            yield row["name"], Run(
                base.encode(),
                ["review", "ROSTER", "BASE", "-", at],
                text.encode(),
                roster=roster.encode(),
            ), wanted


def held(bodies: Iterable[str], roster: bytes | None = None) -> Fault:
    """What is wrong with a store that has to hold these messages, and to be the desk of this
    roster, if one is given."""

    def fault(path: str) -> str | None:
        rows, kept = store_files.read(path)
        if kept != sorted(bodies):
            return f"holds {short(kept)} and not {short(sorted(bodies))}"
        if [row[:2] for row in rows] != [(1, 2)] or (
            roster is not None and rows[0][2].encode() != roster
        ):
            return f"has the desk {short(rows)}"
        return None

    return fault


def is_absent(path: str) -> str | None:
    """What is wrong where there has to be no file."""
    return f"{path} is there" if os.path.lexists(path) else None


def without_tables(path: str) -> str | None:
    """What is wrong where nothing may have been made of the store but a database without tables."""
    found = (
        store_files.asked(path, "SELECT name FROM sqlite_schema") if os.path.lexists(path) else []
    )
    return f"has {found}" if found else None


def visit(table: Table, row: Table) -> Visits:
    """The runs of a row over one store, and what it holds after them."""
    runs = []
    for made in row["runs"]:
        command, *rest = words_of(made["words"])
        roster = edited(table["roster"], made.get("with", row.get("with", [])))
        given = (
            text_of(made["given"]) if "given" in made else lines_of(table, made.get("messages", []))
        )
        words = [
            command,
            "ROSTER" if made.get("reads", True) else "NONE",
            "BASE",
            made.get("store", "STORE"),
            *rest,
        ]
        base = text_of(made.get("base", table["base"]))
        run = Run(
            base.encode(),
            words,
            given.encode(),
            made.get("streams", {}),
            text_of(made.get("roster", roster)).encode(),
        )
        wanted = wanted_of(made)
        runs.append((run, (None, *wanted[1:]) if "stdout" in run.streams else wanted))
    roster = edited(table["roster"], row.get("with", []))
    bodies = [desk.canonical(message_of(table, message)) for message in row.get("holds", [])]
    faults = [held(bodies, roster.encode())] if "holds" in row else []
    faults += [is_absent] if row.get("absent") else [without_tables] if row.get("empty") else []
    if "asked" in row:
        query, rows = row["asked"]
        faults.append(
            lambda path: (
                None
                if (found := store_files.asked(path, query)) == rows
                else f"answers {found} to {query}"
            )
        )
    texts = texts_of(table, roster)
    fault = lambda path: next((found for each in faults if (found := each(path))), None)
    return Visits(
        runs,
        row.get("made", {}),
        texts,
        fault,
        row.get("taken", False),
        False,
        row.get("bounded", False),
    )


def texts_of(table: Table, roster: str) -> dict[str, str]:
    """The texts that the statements of a recipe name: the roster, and the messages."""
    texts = {name: desk.canonical(message) for name, message in table["message"].items()}
    return (
        texts | {name: text_of(text) for name, text in table["body"].items()} | {"roster": roster}
    )


def refusals(table: Table, row: Table, made: Table) -> Visits:
    """Each command over the file of a recipe, refused alike; the file stays as it was."""
    roster = edited(table["roster"], row.get("with", [])).encode()
    wanted = wanted_of(row)
    given = lines_of(table, ["Q7", "V7"]).encode()
    asked = [("print", "db1"), ("deliver", "web"), ("review", "20260105093000Z"), ("print", "db1")]
    if not row.get("rebuilds"):
        asked.insert(1, ("rebuild",))
    runs = [
        (
            Run(
                text_of(row.get("base", table["base"])).encode(),
                [command, "ROSTER", "BASE", "STORE", *words],
                given,
                roster=roster,
            ),
            wanted,
        )
        for command, *words in asked
    ]
    return Visits(
        runs,
        made,
        texts_of(table, table["roster"]),
        taken=row.get("taken", False),
        untouched=True,
        bounded=row.get("bounded", False),
    )


def is_over_memory(run: Run) -> bool:
    return (
        run.words[0] in ("deliver", "print", "review")
        and run.words[3:4] == ["-"]
        and not run.streams
    )


def over_file(run: Run) -> Run:
    return run._replace(words=[*run.words[:3], "STORE", *run.words[4:]])


def first_relay(roster: bytes) -> str:
    return min(tomllib.loads(roster.decode())["relays"])


def answers_by_line(given: bytes, named: list[str]) -> tuple[list[bytes], list[str]]:
    """The lines of an input, and what `deliver` answers to each, where `print` names these as
    refused."""
    faults = dict(line.removeprefix("line ").split(": ", 1) for line in named)
    lines = given.removesuffix(b"\n").split(b"\n") if given else []
    return lines, [faults.get(str(n), "ack") for n in range(1, len(lines) + 1)]


def over_store(run: Run, wanted: Any) -> Visits:
    """The run of a case over memory as runs over a file: what was read is delivered before, and
    what was delivered is delivered again."""
    out, err, status = wanted
    named = err.splitlines()
    refusal = named.pop() if status == 2 and named else ""
    if refusal and refusal[0] not in "PG":
        return Visits([(over_file(run), wanted)], fault=without_tables)
    lines, answers = answers_by_line(run.given, named)
    if run.words[0] == "deliver":
        answers, runs = out.splitlines(), [(over_file(run), wanted)] * 2
    else:
        delivered = run._replace(
            words=["deliver", *run.words[1:3], "STORE", first_relay(run.roster)]
        )
        told = "".join(answer + "\n" for answer in answers), "", 2 if named else 0
        runs = [(delivered, told), (over_file(run), (out, refusal and refusal + "\n", status))]
    bodies = {line.decode() for line, answer in zip(lines, answers, strict=True) if answer == "ack"}
    return Visits(runs, fault=held(bodies, run.roster))


def any_store(table: Table) -> Iterator[Case]:
    for row in table["visit"]:
        yield row["name"], visit(table, row), None
    for row in table["refused"]:
        for made in row.get("files", [row.get("made", {})]):
            yield row["name"], refusals(table, row, made), None
    for row in table["cut"]:
        for size in range(*row["sizes"]):
            yield f"{row['name']}: {size}", refusals(table, row, row["made"] | {"cut": size}), None
    for name in table["over"]:
        seen: set[str] = set()
        for title, run, wanted in KINDS[name](table_of(name)):
            # one order of the messages is enough: what the file holds is a set
            if isinstance(run, Run) and is_over_memory(run) and title not in seen:
                seen.add(title)
                yield f"{name}, {title}", over_store(run, wanted), None


def rebuild(table: Table) -> Iterator[Case]:
    for row in table["visit"]:
        yield row["name"], visit(table, row), None


def crowd(table: Table) -> Iterator[Case]:
    """A roster of many people who all approve."""
    made = table["crowd"]
    roster = edited(table["roster"], made["with"])
    approvals = [
        desk.canonical(
            message_of(table, {"of_message": "V7", "by": f"p{n}", "at": second_of(9, n)})
        )
        for n in range(made["people"])
    ]
    lines = [desk.canonical(table["message"]["Q7"]), *approvals]
    for needs, start in made["starts"]:
        out = (
            table["bare"] + f"ann db1 = (root) NOTBEFORE={start} NOTAFTER=20260105110000Z /bin/ls\n"
        )
        text = edited(roster, [["needs = 1", f"needs = {needs}"]]).encode()
        for given in (lines, lines[::-1]):
            run = print_of(table, "\n".join(given), text)
            yield f"{made['people']} people approve, {needs} needed", run, (out, "", 0)


def long_request(table: Table, size: int) -> str:
    """A request of 16 commands with a text of so many bytes."""
    texts = [f"/bin/c{n:02}" + (" " + "a" * 64) * 15 for n in range(16)]

    def line() -> str:
        return desk.canonical(message_of(table, {"of_message": "Q7", "cmnds": texts}))

    for n in range(16):
        more = min(size - len(line()), 1_024 - len(texts[n]))
        if more > 1:
            texts[n] += " " + "a" * (more - 1)
    if len(line()) != size:
        sys.exit(f"no request of {size} bytes")
    return line()


# takes root's right to pass over the modes of files from a program
UNPRIVILEGED = ["setpriv", "--bounding-set", "-dac_override,-dac_read_search", "--"]


def store_of(folder: str) -> str:
    return os.path.join(folder, "store", "desk.db")


def answer(folder: str, run: Run, front: Sequence[str] = ()) -> tuple[str, str, int]:
    """What the program prints, and its status. BASE, ROSTER and OTHER are the names of files that
    have these, NONE that of no file, FOLDER that of a folder.

    STORE is the name of what a recipe made, if one did; STORE/BELOW lies in a folder that is not
    there. On the standard error a line says that a store was made, exactly where one was, and one
    says what failed, exactly behind F1; both are left out of what is given back.
    """
    texts = {"BASE": run.base, "ROSTER": run.roster, "OTHER": run.other}
    names = {name: desk.write(folder, name.lower(), text) for name, text in texts.items()}
    names |= {
        "NONE": os.path.join(folder, "none.sudo"),
        "FOLDER": folder,
        "STORE": store_of(folder),
        "STORE/BELOW": os.path.join(folder, "missing", "desk.db"),
        "STORE/BESIDE": os.path.join(folder, "store", "elsewhere.db"),
    }
    streams: dict[str, Any] = {"stdout": subprocess.PIPE, "stderr": subprocess.PIPE}
    store = next((names[word] for word in run.words[3:4] if word.startswith("STORE")), None)
    is_new = store is not None and store_files.is_vacant(store)
    with contextlib.ExitStack() as opened:
        for stream, name in run.streams.items():
            streams[stream] = os.open(
                names.get(name, name), os.O_RDONLY if stream == "stdin" else os.O_WRONLY
            )
            opened.callback(os.close, streams[stream])
        if "stdin" not in streams:
            streams["input"] = run.given
        done = subprocess.run(
            [*front, *desk.PROGRAM, *(names.get(word, word) for word in run.words)],
            **streams,
            timeout=120,
        )
    said = (done.stderr or b"").decode("latin-1")
    if is_new and store is not None and not store_files.is_vacant(store):
        told = f"new store: {store}\n"
        is_told = "stderr" in run.streams or said.count(told) == 1
        said = said.replace(told, "") if is_told else f"{said}(it does not say {told})"
    told_of = {names.get(word, word).removeprefix("unix:") for word in run.words}
    if "stderr" not in run.streams:
        said = without_cause(said, told_of)
    return (done.stdout or b"").decode("latin-1"), said, done.returncode


def without_cause(said: str, told_of: set[str]) -> str:
    """What is said without the line of the cause that F1 has, or with a remark where it lacks one
    of what the command line names, or of a stream."""
    found = re.search(r"(?<=F1 FileFailed\n)cause: (.*?): .+\n", said)
    if found and found[1] in told_of | {"standard input", "standard output"}:
        return said.replace(found[0], "")
    return f"{said}(no cause)" if "F1 FileFailed" in said else said


def is_wanted(got: tuple[str, str, int], wanted: Wanted) -> bool:
    """Whether the program answered so: each text as it stands, or as a function says, or, for None,
    any."""
    texts = zip(got[:2], wanted[:2])
    return got[2] == wanted[2] and all(
        want is None or (want(text) if callable(want) else text == want) for text, want in texts
    )


def short(value: object) -> str:
    shown = repr(value)
    return shown if len(shown) <= 400 else shown[:400] + ".."


def differs(folder: str, run: Run, wanted: Wanted, front: Sequence[str] = ()) -> str | None:
    """What is wrong with the program's answer, if something is."""
    try:
        got = answer(folder, run, front)
    except subprocess.TimeoutExpired:
        return f"{short(run)} takes more than two minutes"
    return (
        None
        if is_wanted(got, wanted)
        else f"{short(run)} gives {short(got)} and not {short(wanted)}"
    )


def visited(folder: str, visits: Visits) -> list[str | None]:
    """What is wrong with each of the runs over one store, and with its file as they end, if
    something is."""
    path = store_of(folder)
    store_files.clear(os.path.dirname(path))
    store_files.make(path, visits.made, visits.texts)
    before = store_files.as_it_is(path)
    front = UNPRIVILEGED if visits.bounded and os.geteuid() == 0 else ()
    with store_files.taken(path) if visits.taken else contextlib.nullcontext():
        found = [differs(folder, run, wanted, front) for run, wanted in visits.runs]
    if visits.untouched and store_files.as_it_is(path) != before:
        return [*found[:-1], f"the file is another after {short(visits.runs)}"]
    fault = visits.fault(path)
    return [*found[:-1], f"after {short(visits.runs)} the store {fault}"] if fault else found


def tried(folder: str, run: Run | Visits, wanted: Wanted | None) -> list[str | None]:
    """What is wrong with each run of a case."""
    if isinstance(run, Visits):
        return visited(folder, run)
    assert wanted is not None
    return [differs(folder, run, wanted)]


# Which function makes the runs of which file of cases/.
KINDS: dict[str, Callable[[Table], Iterator[Case]]] = {
    "any-store": any_store,
    "any-words": any_words,
    "beyond": beyond,
    "check": check_texts,
    "check-limits": check_limits,
    "check-moments": check_moments,
    "check-refused": check_refused,
    "decide": decide_runs,
    "deliver": deliver_lines,
    "deliver-admission": deliver_admission,
    "print": print_files,
    "print-commands": print_commands,
    "print-many": print_many,
    "print-messages": print_messages,
    "print-requests": print_requests,
    "print-rosters": print_rosters,
    "rebuild": rebuild,
    "review": review_desks,
}
# what audit.py and serve.py run
ELSEWHERE = ("audit", "serve")


def table_of(name: str) -> Table:
    return tomllib.loads(desk.read("cases", name + ".toml"))


def check_files() -> None:
    """No file of cases/ is passed over."""
    files = {name.removesuffix(".toml") for name in os.listdir(desk.CASES)} - {"README.md"}
    if files != {*KINDS, *ELSEWHERE}:
        sys.exit(f"cases/ has other files than KINDS: {sorted(files ^ {*KINDS, *ELSEWHERE})}")


def main() -> None:
    check_files()
    count = wrong = 0
    spent = []
    # in memory, where there is such a folder: what a disk takes to sync is not asked here
    with tempfile.TemporaryDirectory(dir=desk.MEMORY) as folder:
        os.mkdir(os.path.dirname(store_of(folder)))
        for name, kind in KINDS.items():
            for title, run, wanted in kind(table_of(name)):
                begun = time.monotonic()
                found = tried(folder, run, wanted)
                spent.append((time.monotonic() - begun, f"{name}, {short(title)}"))
                count += len(found)
                for fault in filter(None, found):
                    wrong += 1
                    print(f"{name}, {short(title)}: {fault}")
    slowest = sorted(spent, reverse=True)[:3]
    if slowest and slowest[0][0] > 10:
        print("; ".join(f"{seconds:.1f} s: {title}" for seconds, title in slowest))
    print(f"{count} cases, {wrong} wrong")
    sys.exit(1 if wrong or not count else 0)


if __name__ == "__main__":
    main()
