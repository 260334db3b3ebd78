#!/usr/bin/env python3
"""Runs desk-audit on each row of cases/audit.toml, over the standard input and over a store.

Asks it also of stores that are read-only, missing, empty, of another roster, damaged, written to
meanwhile, and rebuilt for a roster that lacks somebody; compares the example of docs/AUDITING.md,
and runs those of its commands that need jq.
`python3 -m tests.cases.audit DESK AUDIT` takes other programs than build/desk and build/desk-audit.
The last line has the counts.
"""

import json
import os
import re
import shlex
import subprocess
import sys
import tempfile
import threading
import tomllib
from collections.abc import Callable, Iterable, Sequence
from typing import Any

from tests.common import desk

Table = dict[str, Any]
Ran = subprocess.CompletedProcess[bytes]
# what the output has to be: a text, or what a function says yes to
Expected = str | Callable[[str], bool]

WIDTH = 100
# What the commands of docs/AUDITING.md have to print of examples/audited.messages: a text that
# stands in one block of them alone, and the block's output.
ANSWERS = {
    "which verdicts did not count": [
        "conflict approve 20260105092000Z eve on ann 7",
        "disputed approve 20260105091600Z bob on ann 8",
        "asker approve 20260105071000Z carol on carol 1",
        "parked approve 20260105073000Z bob on carol 2",
    ],
    "asked.messages": ["  may       20260312080000Z bob carol"],
    "for day in": ["eve                              approve-db                       audit"],
    "second-reading.jq": [],
}
DESK, AUDIT = desk.named_both()
UNPRIVILEGED = [
    *("setpriv", "--bounding-set", "-all", "--inh-caps", "-all", "--no-new-privs"),
    *("--reuid", "65534", "--regid", "65534", "--clear-groups"),
]


def message_of(table: Table, row: str | Table) -> Table:
    """The message that a text names in the table, or of a name in it and other members."""
    if isinstance(row, str):
        return table["message"][row]
    members = dict(row)
    return table["message"][members.pop("of_message")] | members


def lines_of(table: Table, messages: Iterable[str | Table]) -> str:
    return "".join(desk.canonical(message_of(table, each)) + "\n" for each in messages)


def run(program: str, words: Sequence[str], folder: str, given: str = "") -> Ran:
    return subprocess.run(
        [program, *words], cwd=folder, input=given.encode(), capture_output=True, check=False
    )


class Cases:
    """The rows so far: how many, and what is wrong."""

    def __init__(self) -> None:
        self.count = 0
        self.wrong: list[str] = []

    def compare(self, name: str, ran: Ran, out: Expected, err: str = "", status: int = 0) -> None:
        """Whether it printed what is wanted, and ended so."""
        told = ran.stdout.decode(), ran.stderr.decode(), ran.returncode
        wanted = "what is wanted" if callable(out) else out
        is_right = out(told[0]) if callable(out) else told[0] == out
        self.check(
            name, is_right and told[1:] == (err, status), f"{told}, not {wanted} {err!r} {status}"
        )

    def check(self, name: str, is_right: bool, said: str) -> None:
        self.count += 1
        if not is_right:
            self.wrong.append(f"{name}: {said}")


def wanted_of(table: Table, row: Table) -> Expected:
    """What a row wants of the output."""
    if "out" in row:
        return "".join(line + "\n" for line in row["out"])
    if "json" in row:
        return json.dumps(row["json"], separators=(",", ":")) + "\n"
    if "json_of" in row:
        entry = dict(row["json_of"])
        entry["requests"] = [message_of(table, each) for each in entry["requests"]]
        entry["verdicts"] = [
            each | {"verdict": message_of(table, each["verdict"])} for each in entry["verdicts"]
        ]
        return lambda out: json.loads(out) == {"names": [entry], "windows": []}
    if "shows" in row:
        return lambda out: (
            shows(out.splitlines(), row["shows"])
            and not any(text in out for text in row.get("lacks", []))
            and is_narrow(out)
        )
    return ""


def shows(lines: Iterable[str], some: Iterable[str]) -> bool:
    """Whether the lines stand among these, in this order."""
    rest = iter(lines)
    return all(line in rest for line in some)


def is_narrow(out: str) -> bool:
    return all(len(line) <= WIDTH for line in out.splitlines())


def rows(table: Table, folder: str, cases: Cases) -> None:
    for row in table["row"]:
        roster = table["roster"]
        for part, by in row.get("with", []):
            roster = roster.replace(part, by)
        desk.write(folder, "ROSTER", roster)
        ask(table, row, folder, cases)


def ask(table: Table, row: Table, folder: str, cases: Cases) -> None:
    """A row over the standard input, turned round, and over a store of the same messages."""
    given = row.get("input") or lines_of(table, row.get("messages", []))
    front, words = shlex.split(row.get("front", "")), shlex.split(row.get("words", ""))

    def over(place: str) -> list[str]:
        return [*front, "ROSTER", "BASE", place, *words]

    asked = shlex.split(row["all_words"]) if "all_words" in row else over("-")
    wanted = wanted_of(table, row), row.get("err", ""), row.get("status", 0)
    name = row["name"]
    cases.compare(name, run(AUDIT, asked, folder, given), *wanted)
    if row.get("messages"):
        turned = "".join(reversed(given.splitlines(keepends=True)))
        cases.compare(f"{name}, turned round", run(AUDIT, asked, folder, turned), *wanted)
        store = "store.db"
        run(DESK, ["deliver", "ROSTER", "BASE", store, "web"], folder, given)
        cases.compare(f"{name}, of a store", run(AUDIT, over(store), folder), *wanted)
        for path in (os.path.join(folder, store + end) for end in ("", "-wal")):
            if os.path.exists(path):
                os.remove(path)


def listing(folder: str) -> dict[str, bytes]:
    """Each file of the folder, and its bytes."""
    found = {}
    for entry in os.scandir(folder):
        if entry.is_file():
            with open(entry.path, "rb") as file:
                found[entry.name] = file.read()
    return found


def bounded(words: Sequence[str], folder: str) -> Ran:
    """A run without root's right to pass over a file's mode."""
    return run(UNPRIVILEGED[0], [*UNPRIVILEGED[1:], AUDIT, *words], folder)


def stores(table: Table, folder: str, cases: Cases) -> None:
    """Stores that are there, that are none, and of another roster."""
    words = ["ROSTER", "BASE", "desk.db"]
    before = listing(folder)
    cases.compare("no store", run(AUDIT, words, folder), "", "no store here: desk.db\n", 2)
    cases.check("no store", listing(folder) == before, "a file was made or changed")
    for title, name, text, err in (
        ("an empty file", "empty.db", "", "no store here: empty.db\n"),
        (
            "no database",
            "text.db",
            "no database\n",
            "F1 FileFailed\ncause: text.db: file is not a database that obeys its schema\n",
        ),
    ):
        desk.write(folder, name, text)
        cases.compare(title, run(AUDIT, ["ROSTER", "BASE", name], folder), "", err, 2)
    run(DESK, ["deliver", *words, "web"], folder, lines_of(table, ["Q7", "V7"]))
    before = listing(folder)
    granted = next(row for row in table["row"] if row["name"] == "granted")
    wanted = wanted_of(table, granted)
    cases.compare("a store", run(AUDIT, words, folder), wanted)
    if os.geteuid() == 0:
        for name in ("desk.db", "desk.db-wal", "ROSTER", "BASE"):
            if os.path.exists(os.path.join(folder, name)):
                os.chmod(os.path.join(folder, name), 0o444)
        os.chmod(folder, 0o555)
        cases.compare("a store that may only be read", bounded(words, folder), wanted)
        os.chmod(os.path.join(folder, "desk.db"), 0)
        ran = bounded(words, folder)
        err = "F1 FileFailed\ncause: desk.db: Permission denied (os error 13)\n"
        cases.compare("a store that may not be read", ran, "", err, 2)
        os.chmod(folder, 0o755)
        os.chmod(os.path.join(folder, "desk.db"), 0o644)
    cases.check("a store", listing(folder) == before, "it does not stay byte for byte")
    desk.write(folder, "OTHER", table["roster"] + "# another\n")
    ran = run(AUDIT, ["OTHER", "BASE", "desk.db"], folder)
    cases.compare("another roster's", ran, "", "K1 RosterChanged\n", 2)


def struck_out(table: Table, folder: str, cases: Cases) -> None:
    """Who is not in the roster any more is known by what they gave; who never was, is not."""
    run(DESK, ["deliver", "ROSTER", "BASE", "old.db", "web"], folder, lines_of(table, ["Q7", "V7"]))
    desk.write(folder, "LATER", "".join(people_but(table["roster"], "bob")))
    words = ["LATER", "BASE", "old.db"]
    run(DESK, ["rebuild", *words], folder)
    for name in ("bob", "ann"):
        ran = run(AUDIT, [*words, "--person", name], folder)
        cases.compare(f"by {name}, whom a later roster lacks", ran, lambda it: "ann 7" in it)
    ran = run(AUDIT, [*words, "--person", "bod"], folder)
    cases.compare("by bod, who never was", ran, "", "nobody is named bod\n", 2)


def people_but(roster: str, name: str) -> list[str]:
    """The roster's lines, without that person's."""
    lines = [it for it in roster.splitlines(keepends=True) if not it.startswith(f"{name} = ")]
    assert len(lines) < len(roster.splitlines())
    return lines


def while_written(table: Table, folder: str, cases: Cases) -> None:
    """A desk takes messages into the store while it is asked: each answer is of a set that the
    store had."""
    words = ["ROSTER", "BASE", "live.db"]
    lines = [lines_of(table, [{"of_message": "Q7", "no": no}]) for no in range(1, 1_001)]
    run(DESK, ["deliver", *words, "web"], folder, lines[0])
    given = "".join(lines)
    writer = threading.Thread(target=run, args=(DESK, ["deliver", *words, "web"], folder, given))
    writer.start()
    last, is_first = 0, True
    while writer.is_alive() or is_first:
        is_first = False
        ran = run(AUDIT, [*words, "--json"], folder)
        count = count_of(ran) if ran.returncode == 0 else -1

        def grows(_: str, count: int = count, last: int = last) -> bool:
            return count >= last

        cases.compare("while it is written", ran, grows)
        last = max(last, count)
    writer.join()
    ran = run(AUDIT, [*words, "--json"], folder)
    cases.compare("once it is written", ran, lambda _: count_of(ran) == 1_000)


def count_of(ran: Ran) -> int:
    """How many names are told of, 1, 2, .. in this order; -1 where they are others."""
    numbers = [each["no"] for each in json.loads(ran.stdout)["names"]]
    return len(numbers) if numbers == list(range(1, len(numbers) + 1)) else -1


def example(cases: Cases) -> None:
    """The example of a document."""
    name = "docs/AUDITING.md"
    found = re.findall(
        r"^\$ build/desk-audit (.*) < (\S+)\n((?:.*\n)*?)```", desk.read(name), re.MULTILINE
    )
    for words, given, out in found:
        ran = run(AUDIT, shlex.split(words), desk.ROOT, desk.read(given))
        cases.compare(name, ran, out)
    if not found:
        cases.wrong.append(f"{name} has no example")


def commands(cases: Cases) -> None:
    """The commands of docs/AUDITING.md that ANSWERS has, one block after the other."""
    blocks = re.findall(r"^```sh\n((?:.*\n)*?)```", desk.read("docs/AUDITING.md"), re.MULTILINE)
    with tempfile.TemporaryDirectory() as folder:
        os.symlink(desk.EXAMPLES, os.path.join(folder, "examples"))
        os.mkdir(os.path.join(folder, "build"))
        for name, program in (("desk", DESK), ("desk-audit", AUDIT)):
            os.symlink(os.path.abspath(program), os.path.join(folder, "build", name))
        for mark, lines in ANSWERS.items():
            found = [block for block in blocks if mark in block]
            if len(found) != 1:
                cases.wrong.append(f"docs/AUDITING.md has {len(found)} blocks with {mark!r}")
                continue
            ran = run("bash", ["-euo", "pipefail", "-c", found[0]], folder)
            out = "".join(line + "\n" for line in lines)
            cases.compare(f"docs/AUDITING.md, {mark!r}", ran, out)


def main() -> None:
    cases = Cases()
    table = tomllib.loads(desk.read("cases", "audit.toml"))
    for part in (rows, stores, struck_out, while_written):
        with tempfile.TemporaryDirectory() as folder:
            os.chmod(folder, 0o755)
            desk.write(folder, "BASE", "")
            desk.write(folder, "ROSTER", table["roster"])
            part(table, folder, cases)
    example(cases)
    commands(cases)
    print("".join(line + "\n" for line in cases.wrong), end="")
    print(f"desk-audit: {cases.count} cases, {len(cases.wrong)} wrong")
    sys.exit(1 if cases.wrong else 0)


if __name__ == "__main__":
    main()
