"""desk-lint by its words: what it prints, and its status."""

from __future__ import annotations

import json
import os
import re
import resource
import subprocess
from collections.abc import Callable, Iterator
from pathlib import Path
from typing import Any

import pytest

from desk_tools import schema, toml_text
from desk_tools.site import command, lies_inside
from desk_tools.warnings import risk, table
from conftest import ROOT, Run

EXAMPLES = os.path.join(ROOT, "examples")
ROSTER = os.path.join(EXAMPLES, "roster.toml")
FAULTY = """\
relays = ["chat", "Mail"]
hosts = ["db1", "db2"]
duties = ["approve-db", "audit", "operate-db"]
conflicts = [["approve-db", "audit", "x"], ["audit", "audit"]]
extra = 1
[people]
ann = ["operate-db"]
kim.l = ["approve-db"]
bob = [{duty = "audit", from = "20260101", until = "20250101"},
       {duty = "audit", from = "20260231", until = "20270101"},
       "operator-db"]
[ceilings.db-care]
ask = "operate-db"
approve = "approve-db"
needs = "1"
hosts = ["db1", "db3"]
runas = ["postgres", "root"]
commands = [
  "/usr/bin/id  x",
  "/usr/bin/*",
  '/bin/x a:b',
  "/usr/bin/sudoedit",
]
"""
FAULTS = [
    (1, "O4", "relays (item 2)"),
    (4, "O3", "conflicts (item 1)"),
    (4, "O5", "conflicts (item 1, 3)"),
    (4, "O6", "conflicts (item 2)"),
    (5, "O2", "extra"),
    (8, "O3", "people.kim"),
    (9, "O7", "people.bob (item 1)"),
    (10, "O7", "people.bob.from (item 2)"),
    (11, "O5", "people.bob (item 3)"),
    (12, "O3", "ceilings.db-care"),
    (15, "O3", "ceilings.db-care.needs"),
    (16, "O5", "ceilings.db-care.hosts (item 2)"),
    (19, "O4", "ceilings.db-care.commands (item 1)"),
    (20, "O4", "ceilings.db-care.commands (item 2)"),
    (21, "O4", "ceilings.db-care.commands (item 3)"),
    (22, "O4", "ceilings.db-care.commands (item 4)"),
]


def found_in(lint: Run, path: Path, *words: str) -> dict[str, Any]:
    ran = lint("--json", *words, str(path))
    assert not ran.stderr
    found: dict[str, Any] = json.loads(ran.stdout)["files"][0]
    return found


def test_all_faults_by_line(lint: Run, tmp_path: Path) -> None:
    path = tmp_path / "roster.toml"
    path.write_text(FAULTY)
    found = found_in(lint, path)
    assert [(it["line"], it["code"], it["key"]) for it in found["faults"]] == FAULTS
    assert found["answer"] == "O2 UnknownKey" and found["kind"] == "roster"
    ran = lint(str(path))
    assert ran.returncode == 2
    lines = ran.stdout.splitlines()
    assert lines[4].startswith(f"{path}:5: O2 UnknownKey: extra = 1: the key is unknown; known here are relays, hosts, ")
    assert lines[8].endswith("expected one of `duties`: operate-db, approve-db, audit")
    assert lines[-1] == f"{path}: refused; of these faults the desk names O2 UnknownKey"


WHY = [
    # a fault that people make, and the words of the answer that say what to do
    ("needs = 1", 'needs = "1"', "expected a whole number"),
    ("[people]", "[people]\njürgen = []", "ü may not stand in a key without quotes"),
    ('"ask", "x"', "“ask”, 'x'", '“ is no quote of TOML: a text stands between " or \''),
    ('until = "20261231"', "until = 2026-12-31", ' = 2026-12-31: expected a day between quotes, as "20261231"'),
    ('until = "20261231"', "until = 20261231", ' = 20261231: expected a day between quotes, as "20261231"'),
    ("[ceilings.c]", "[ceilings]", "it is a key of a ceiling, whose keys stand below [ceilings.NAME]"),
    ("longest = 60", 'longest = 60\nhosts = ["db1"]', "hosts comes twice: this line belongs to [ceilings.c]"),
    ('[["approve", "x"]]', '["approve", "x"]', 'expected a list of two duties, as in conflicts = [["approve", "audit"]]'),
    ('runas = ["root"]', 'runas = ["ALL"]', "each target is named, and there is no ALL"),
    ('hosts = ["db1"]', 'hosts = ["db1.example.org"]', "expected a short host name: lower-case letters, "),
    ("/opt/x", "all", ": ALL is written in capitals; expected"),
    ("/opt/x", "NOPASSWD: /opt/x", ": no tag stands here; "),
    ("/opt/x", "!/opt/x", ": nothing is denied here"),
    ("/opt/x", "opt/x", ": a path begins with /; "),
    ("/opt/x", "/opt/*", ": there are no wildcards"),
    ("/opt/x", "/opt//x", ": no part of a path is empty, . or ..; "),
    ("/opt/x", "/opt/../x", ": no part of a path is empty, . or ..; "),
    ("/opt/x", "/", ": / alone is no directory here"),
    ("/opt/x", "/opt/ü", ": a path has letters, digits and . _ + - alone; "),
    ("/opt/x", "/opt/x  y", ": its parts stand apart by single spaces; "),
    ("/opt/x", "/opt/x a | b", ": an argument has letters, digits and . _ / + - @ % alone"),
    ("/opt/x", "/opt/x a:b", ": `,` `:` and `=` have a backslash before them"),
    ("/opt/x", "/opt/ y", ": a directory has no arguments behind it; "),
    ("/opt/x", "/opt/x" + " y" * 17, ": there are 17 arguments; "),
    ("/opt/x", "/opt/x " + "y" * 65, ": an argument has up to 64 bytes; "),
    ("/opt/x", "/opt/sudoedit", ": sudo takes a file named sudoedit for its own command"),
]


@pytest.mark.parametrize(("old", "new", "said"), WHY)
def test_what_to_do_is_said(lint: Run, tmp_path: Path, old: str, new: str, said: str) -> None:
    text = roster(
        'ann = ["ask"]\nbob = ["approve", { duty = "x", from = "20260101", until = "20261231" }]',
        conflicts='[["approve", "x"]]',
        duties='["approve", "ask", "x"]',
    )
    assert text.count(old) >= 1
    path = tmp_path / "roster.toml"
    path.write_text(text.replace(old, new, 1), encoding="utf-8")
    ran = lint(str(path))
    assert ran.returncode == 2 and said in ran.stdout, ran.stdout


def test_several_faults_of_syntax(lint: Run, tmp_path: Path) -> None:
    path = tmp_path / "roster.toml"
    path.write_text('relays = ["chat"\nhosts = ["db1"]\nduties = [\n  "a"\n  "b",\n]\nduties = x\n[people]\nann = [\'a\']\n[people]\nbob = "x\n')
    found = found_in(lint, path)
    assert [it["line"] for it in found["faults"]] == [2, 5, 7, 10, 11]
    assert found["answer"] == "O1 NotToml" and {it["code"] for it in found["faults"]} == {"O1"}


def test_the_example_has_warnings_alone(lint: Run) -> None:
    ran = lint(ROSTER)
    assert (ran.returncode, ran.stdout.count("warning:"), ran.stdout.count("\n")) == (0, 3, 3)
    assert lint("--strict", ROSTER).returncode == 1
    assert re.search(r"roster.toml:7: warning: .*no ceiling has web1", ran.stdout)
    assert re.search(r"roster.toml:21: warning: people.eve: .*audit conflicts", ran.stdout)


def test_the_team_takes_turns_that_run_out(lint: Run, desk: str) -> None:
    """The desk reads the roster of a team, and all that is said of it is when the on-call weeks end."""
    team = os.path.join(EXAMPLES, "team.toml")
    said = "warning: ceilings.emergency: from 20260216 on: nobody holds on-call, so nobody may ask under it"
    ran = lint("--on", "20260105", team)
    assert (ran.returncode, ran.stdout) == (0, f"{team}:48: {said}\n")
    words = [desk, "print", team, os.path.join(EXAMPLES, "site.sudo"), "-", "web1"]
    ran = subprocess.run(words, stdin=subprocess.DEVNULL, capture_output=True, text=True, check=False)
    assert (ran.returncode, ran.stdout, ran.stderr) == (0, "dba ALL = (postgres) ALL\n", "")


def roster(
    people: str,
    needs: int = 1,
    commands: str = '["/opt/x"]',
    conflicts: str = '[["approve", "audit"]]',
    hosts: str = '["db1"]',
    duties: str = '["approve", "audit", "ask"]',
) -> str:
    return (
        f'relays = ["chat"]\nhosts = {hosts}\nduties = {duties}\nconflicts = {conflicts}\n[people]\n{people}\n'
        f'[ceilings.c]\nask = "ask"\napprove = "approve"\nneeds = {needs}\nhosts = ["db1"]\nrunas = ["root"]\ncommands = {commands}\nlongest = 60\n'
    )


def entry(first: str, last: str) -> str:
    return f'{{ duty = "ask", from = "{first}", until = "{last}" }}'


OWN = ", and the asker's own approval does not count"
ROTATION = (
    'bob = [{ duty = "approve", from = "20260201", until = "20260207" }]\nkim = [{ duty = "approve", from = "20260208", until = "20260214" }]\n'
)
SOUND = 'ann = ["ask"]\nbob = ["approve"]\ndave = ["audit"]'


@pytest.mark.parametrize(
    ("text", "said"),
    [
        (roster(SOUND), []),
        (roster(SOUND, needs=2), ["approvers: nobody can get 2 approvals: only bob may approve" + OWN]),
        (roster('ann = ["ask", "approve"]\ndave = ["audit"]'), ["approvers: nobody can get 1 approval: only ann may approve" + OWN]),
        (
            roster('ann = ["ask", "approve"]\nbob = ["ask"]\ndave = ["audit"]'),
            ["approvers: ann cannot get 1 approval: only ann may approve" + OWN],
        ),
        (roster('bob = ["approve"]\ndave = ["audit"]'), ["duty: nobody holds ask", "approvers: nobody holds ask, so nobody may ask under it"]),
        (
            roster('ann = ["ask"]\nbob = [{ duty = "approve", from = "20260101", until = "20260630" }]\ndave = ["audit"]'),
            ["approvers: from 20260701 on: nobody can get 1 approval: nobody may approve" + OWN],
        ),
        (
            roster('ann = ["ask"]\nbob = ["approve", { duty = "audit", from = "20260801", until = "20260810" }]\ndave = ["audit"]'),
            ["approvers: from 20260801 to 20260810: nobody can get 1 approval: nobody may approve" + OWN],
        ),
        (roster(f'{SOUND}\neve = ["approve", "audit"]'), ["conflict: an approval as approve never counts: audit conflicts with it on each of its days"]),
        (roster(f'{SOUND}\neve = ["approve", {{ duty = "audit", from = "20270101", until = "20270102" }}]'), []),
        (roster(SOUND, hosts='["db1", "db2"]'), ["host: no ceiling has db2: nobody can ask for anything there"]),
        (roster(SOUND, duties='["approve", "audit", "ask", "x"]'), ["duty: nobody holds x"]),
        (roster(f"{SOUND}\neve = []"), ["person: eve may neither ask nor approve under any ceiling, and holds no duty"]),
        (roster(f'{SOUND}\neve = ["x"]', duties='["approve", "audit", "ask", "x"]'), ["person: eve may neither ask nor approve under any ceiling"]),
        (
            roster(f'{SOUND}\neve = [{{ duty = "ask", from = "20250101", until = "20250630" }}]'),
            ["ended: ask ended on 20250630; leave the entry: without it, what was asked or approved by it would count no more"],
        ),
        # a rotation that runs out: all its days, in one line
        (
            roster('ann = ["ask"]\n' + ROTATION + 'dave = ["audit"]'),
            ["approvers: up to 20260131 and from 20260215 on: nobody can get 1 approval: nobody may approve" + OWN],
        ),
        (
            roster('ann = ["ask"]\n' + ROTATION + 'dave = ["audit", "approve"]', needs=3, conflicts="[]"),
            ["approvers: nobody can get 3 approvals: only dave may approve on the first of these days" + OWN],
        ),
        # an entry that does not end the duty, or adds nothing to it
        (
            roster(f'{SOUND}\neve = ["ask", {entry("20260101", "20261231")}]'),
            ["days: these days change nothing: item 1 gives ask without days, so it is always held"],
        ),
        (
            roster(f'{SOUND}\neve = [{entry("20260201", "20260301")}, {entry("20260101", "20261231")}]'),
            ["days: these days change nothing: item 2 gives ask from 20260101 to 20261231"],
        ),
        (
            roster(f'{SOUND}\neve = [{entry("20260101", "20260301")}, {entry("20260201", "20261231")}]'),
            [],
        ),
        # a directory without its slash
        (
            roster(SOUND, commands='["/usr/local/sbin", "/usr/local/sbin/", "/usr/local/sbin -l", "/opt/x"]'),
            ["directory: /usr/local/sbin: a file by its form, and a directory by its name: with no / at its end it allows nothing in /usr/local/sbin/"],
        ),
        (
            roster(SOUND, commands="""['/usr/bin/find', '/usr/bin/find ""', '/usr/bin/find /tmp']"""),
            ["runs-others: /usr/bin/find: its arguments name what it runs"],
        ),
        (roster(SOUND, commands='["/usr/bin/less /var/log/x"]'), ["runs-others: /usr/bin/less /var/log/x: a pager opens a shell from inside (`!`)"]),
        (roster(SOUND, commands='["/usr/bin/journalctl --no-pager -n 5", "ALL", "/opt/bin/"]'), []),
        (
            roster(SOUND, commands='["/usr/bin/"]'),
            ["runs-others: /usr/bin/: it holds shells, editors and interpreters, and sudo's own sudoedit, which edits any file"],
        ),
    ],
)
def test_warnings(lint: Run, tmp_path: Path, text: str, said: list[str]) -> None:
    path = tmp_path / "roster.toml"
    path.write_text(text)
    found = found_in(lint, path, "--on", "20260105")
    assert not found["faults"]
    assert [f"{it['kind']}: {it['said']}" for it in found["warnings"]] == said
    strict = any(not it["is_note"] for it in found["warnings"])
    assert lint("--strict", "--on", "20260105", str(path)).returncode == int(strict)


def test_messages(lint: Run, tmp_path: Path) -> None:
    path = tmp_path / "x.messages"
    path.write_text(
        '{"at":"20260105083000Z", "by":"bob","kind":"approve","no":7.0,"of":"Ann"}\n\n'
        '{"at":"20260105083000Z","by":"bob","kind":"approve","no":7,"of":"ann"}\n{"at":"20260231083000Z","by":"bob","kind":"aprove","no":7,"of":"ann"}'
    )
    found = found_in(lint, path)
    assert found["answers"] == {"1": "M2 NotCanonical", "2": "M2 NotCanonical", "4": "M3 BadField"} and found["messages"] == 4
    assert [(it["line"], it["code"]) for it in found["faults"]] == [(1, "M2"), (1, "M2"), (1, "M3"), (2, "M2"), (4, "M3")]
    ran = lint("--roster", ROSTER, os.path.join(EXAMPLES, "approved.messages"))
    assert (ran.returncode, ran.stdout) == (0, "")


VERDICT = '{"at":"20260105083000Z","by":"bob","kind":"approve","no":7,"of":"ann"}'
ASKED = (
    '{"at":"20260105060000Z","by":"ann","ceiling":"db-care","cmnds":["/usr/local/sbin"],"from":"20260105090000Z","hosts":["db1"],'
    '"kind":"request","no":7,"runas":"root","until":"20260105110000Z"}'
)


@pytest.mark.parametrize(
    ("text", "said"),
    [
        (f"\ufeff{VERDICT}", "a byte order mark stands before it: save the file without one\n"),
        (VERDICT * 2, "byte 71: something stands behind the message: a line is one message\n"),
        (VERDICT.replace("7", "07"), "byte 59: a number has no 0 before it\n"),
        (VERDICT.replace("ann", "a\\:"), r'no escape of JSON: a backslash is written \\, as in "/bin/echo a\\:b"'),
        (VERDICT.replace("083000Z", "243000Z"), "expected a moment in UTC as 20260105090000Z: 14 digits and Z, hours up to 23, "),
        (VERDICT.replace("083000Z", "083060Z"), "minutes and seconds up to 59\n"),
        (f"{VERDICT}\r\n", "(byte 71): a carriage return\n"),
        (VERDICT.replace(",", ",\n"), "jq -cS . writes it so\nx.messages"),
        (ASKED.replace(",", ",\n"), "jq -cS '.hosts |= unique | .cmnds |= unique' writes it so\n"),
        (ASKED, "expected a command inside one of the ceiling's (/usr/local/sbin/ is one: a directory ends in /): "),
        (f"{VERDICT}\nx\n", "x.messages: 1 of 2 lines are refused\n"),
    ],
)
def test_what_to_do_is_said_of_messages(lint: Run, tmp_path: Path, text: str, said: str) -> None:
    path = tmp_path / "x.messages"
    path.write_bytes(text.encode())
    ran = lint("--roster", ROSTER, str(path))
    assert ran.returncode == 2 and said in ran.stdout.replace(str(path), "x.messages"), ran.stdout


def test_a_message_over_several_lines(lint: Run, tmp_path: Path) -> None:
    path = tmp_path / "x.json"
    path.write_text(json.dumps({"at": "20260105083000Z", "by": "Bob", "kind": "approve", "no": 7, "of": "ann"}, indent=2))
    assert [(it["line"], it["code"]) for it in found_in(lint, path)["faults"]] == [(1, "M2"), (1, "M3")]


def test_words(lint: Run, tmp_path: Path) -> None:
    assert lint("--explain", "O4").stdout.startswith("O4 BadName (A roster (docs/ROSTER.md))\n  when: a text is no name or command")
    assert lint("--explain", "badname").stdout == lint("--explain", "O4 BadName").stdout
    assert "(STORE.md, 'When the roster changes')" in lint("--explain", "K1").stdout
    ran = lint("--explain", "Z9")
    assert (ran.returncode, ran.stdout, ran.stderr) == (2, "", "desk-lint: there is no code Z9: desk-codes(7) has them all\n")
    ran = lint(str(tmp_path / "nothing"))
    assert (ran.returncode, ran.stderr) == (2, f"desk-lint: {tmp_path}/nothing: No such file or directory\n")
    ran = lint(str(tmp_path / "base.sudo"))
    assert (ran.returncode, ran.stdout) == (2, "") and ran.stderr.endswith("base.sudo: No such file or directory\n")
    assert lint("-", given="people = 1\n").stdout.startswith("-:1: O3 WrongType: the key ceilings is missing\n")
    assert lint("-", given='{"kind":7}\n').stdout.startswith('-:1: M3 BadField: kind = 7: expected one of request, approve, ')


def test_commands() -> None:
    rows = [
        ("/usr/bin/id -u", ["/usr/bin/id -u", "/usr/bin/id", "/usr/bin/", "ALL"], ['/usr/bin/id ""', "/usr/bin/id -g", "/usr/"]),
        ("/usr/bin/id", ["/usr/bin/id", "/usr/bin/", "ALL"], ["/usr/bin/id -u", '/usr/bin/id ""', "/usr/"]),
        ("/usr/bin/", ["/usr/bin/", "ALL"], ["/usr/", "/usr/bin/id"]),
        ("ALL", ["ALL"], ["/usr/bin/"]),
    ]
    for asked, inside, outside in rows:
        assert all(lies_inside(command(asked), command(it)) for it in inside)
        assert not any(lies_inside(command(asked), command(it)) for it in outside)


def test_the_table_of_programs() -> None:
    names = [name for row in table()["program"].values() for name in row["names"]]
    assert len(table()["program"]) == len({*names}), "a program stands twice"
    assert risk(command("/bin/vi")) and risk(command('/bin/vi ""')) and not risk(command("/bin/true"))


def test_schemas() -> None:
    """Each place of the schemas says what it is, and an editor takes the examples by them."""

    def undescribed(node: Any, path: tuple[str, ...]) -> Iterator[tuple[str, ...]]:
        if isinstance(node, dict):
            if ("type" in node or "$ref" in node) and path and "propertyNames" not in path[-1:] and not {"title", "description", "$ref"} & {*node}:
                yield path
            for key, it in node.items():
                yield from undescribed(it, (*path, key))

    for name in ("roster", "message"):
        with open(os.path.join(schema.FOLDER, f"{name}.schema.json"), encoding="utf-8") as file:
            text = json.load(file)
        schema.validator(name).check_schema(text)
        assert not list(undescribed(text, ()))
    document = toml_text.read(Path(ROSTER).read_bytes())
    assert schema.validator("roster").is_valid(document.value)
    assert document.line(("people", "eve")) == 21 and document.line(("ceilings", "db-care", "needs", "x")) == 27


@pytest.mark.parametrize("path", ["/bin/ls", "/sbin/reboot -f", "/lib/x/", "/lib64/y"])
def test_paths_that_are_links(lint: Run, tmp_path: Path, path: str) -> None:
    """On a host, /bin is a link, and sudo compares files."""
    (tmp_path / "r.toml").write_text(roster(SOUND, commands=f'["{path}", "/usr{path}", "/opt/bin/x"]'))
    said = lint(str(tmp_path / "r.toml")).stdout.splitlines()
    found = [line for line in said if "is a link to /usr" in line]
    assert len(found) == 1 and f": {path}: " in found[0]
    (tmp_path / "b.sudo").write_text(f"ann ALL = {path}, /usr{path}\n")


BASE_FAULTS = """\
# a base with faults
Defaults env_reset
User_Alias OPS = %wheel, ann
OPS ALL = NOEXEC: /usr/bin/less
ann Db1 = /usr/bin/id
ann ALL = /usr/bin/l*, \\
   /usr/bin/id
ann db1 = (root) NOTAFTER=2026 /usr/bin/id
kim.l db1.example.org = /usr/bin/id
bob ALL = MISSING
bob 10.0.0.1 = /usr/bin/id
@include more
bob ALL = sudoedit /etc/motd
User_Alias ALL = bob
ann ALL = /usr/bin/id \x1b
"""
BASE_SAID = [
    (2, "S9", "Defaults env_reset"),
    (3, "S9", "%wheel"),
    (4, "S9", "NOEXEC:"),
    (5, "S3", "Db1"),
    (6, "S9", "/usr/bin/l*"),
    (8, "S8", "NOTAFTER=2026"),
    (9, "S9", "db1.example.org"),
    (10, "S5", "MISSING"),
    (11, "S9", "10.0.0.1"),
    (12, "S9", "@include more"),
    (13, "S9", "sudoedit"),
    (14, "S7", "ALL"),
    (15, "S2", "\x1b"),
]


def test_faults_of_a_base(lint: Run, desk: str, tmp_path: Path) -> None:
    (tmp_path / "b.sudo").write_text(BASE_FAULTS)
    ran = lint("--desk", desk, "--json", str(tmp_path / "b.sudo"))
    (found,) = json.loads(ran.stdout)["files"]
    assert ran.returncode == 2 and found["answer"] == "S2 BadByte"
    assert [(it["line"], it["code"], it["value"]) for it in found["faults"]] == BASE_SAID
    assert all(it["expected"] for it in found["faults"])


MISLED = [
    # a wrong line, and the words that are named, each with what to do
    ("Cmnd_Alias pg = /usr/bin/psql", {"pg": "write the alias's name in capitals: it has capitals, digits and _ alone"}),
    (
        "dba db* = (postgres) /usr/bin/psql *",
        {"db*": "list the hosts", "/usr/bin/psql *": "write the program alone: it may have any arguments, or none"},
    ),
    ("ann web[0-9] = ALL", {"web[0-9]": "list the hosts"}),
    ("ann db1 = ALL : web[12] = ALL", {"web[12]": "list the hosts"}),
    ("Host_Alias PROD = db1, web?", {"web?": "list the hosts"}),
    ("Host_Alias PROD = db1, web1.example.com", {"web1.example.com": "write the short name of the host"}),
    ("ann ALL = /usr/bin/id,\\ \n  /usr/bin/du", {"\\": "no blank stands behind it at the end of a line"}),
    ("ann ALL = ALL #1 rule", {"#1": "write a blank behind the # of a comment"}),
    ("ann ALL = (#1000) ALL", {"#1000": "write the user's name"}),
    # a line of which all was repeated
    ("ann = /usr/bin/id", {"ann": "name the hosts, or ALL, behind the user"}),
    ("ann ALL /usr/bin/id", {"ann ALL /usr/bin/id": "write it as USERS HOSTS = COMMANDS"}),
    ("ann ALL = NOPASSWD: id, /usr/bin/w", {"id": "write the command's full path"}),
    ("ann ALL = (root) bin/id -u", {"bin/id": "write the command's full path"}),
    ("ann ALL = NOPASSWD /usr/bin/id", {"NOPASSWD": "a tag has a : behind it"}),
    ("ann ALL = /usr/bin/id NOPASSWD:", {"NOPASSWD:": "write the tag before its command"}),
    ("ann ALL = /usr/bin/id a=b", {"a=b": "write a backslash before each : and = of an argument"}),
    ("ann ALL = /usr/bin/id a:b", {"a:b": "write a backslash before each : and = of an argument"}),
    ("ann ALL = ! /usr/bin/id", {"!": "no blank stands behind it"}),
    ("ann ALL = /usr/bin/id,", {",": "take it out, or write what comes behind it"}),
    ("ann ALL = (root /usr/bin/id", {"(root /usr/bin/id": "close it with a ) behind the target"}),
    ("ann ALL = /usr/bin/id, id, /usr/bin/id -u", {"id": "write the command's full path"}),
    # each word that is at fault, and none beside it
    ("ann, %a, %b ALL = /usr/bin/id", {"%a": "name the group's users, or write an alias of them", "%b": "name the group's users, or write an alias of them"}),
    ("A ALL = B, /usr/bin/id", {"A": "define the alias on a line above, in its kind", "B": "define the alias on a line above, in its kind"}),
]


@pytest.mark.parametrize(("line", "said"), MISLED, ids=[it[0].partition("\n")[0] for it in MISLED])
def test_the_words_of_a_line_of_a_base(
    lint: Run, desk: str, tmp_path: Path, line: str, said: dict[str, str]
) -> None:
    """The word that is wrong is named, and not one beside it or the whole line."""
    base = tmp_path / "b.sudo"
    base.write_text(f"kim ALL = /usr/bin/id\n{line}\n")
    ran = lint("--desk", desk, "--json", str(base))
    (found,) = json.loads(ran.stdout)["files"]
    assert {it["value"]: it["expected"] for it in found["faults"]} == said
    assert {it["line"] for it in found["faults"]} == {2}


def test_a_comma_that_is_missing(lint: Run, desk: str, tmp_path: Path) -> None:
    base = tmp_path / "b.sudo"
    base.write_text(
        "Cmnd_Alias SITE_C = /usr/bin/id /usr/sbin/du, /usr/bin/cat /var/log/messages\n"
        "ann ALL = SITE_C, /usr/bin/id -u /usr/local/bin/x, /usr/bin/du /usr/bin/\n"
    )
    found = re.findall(r":(\d+): warning: (.*): sudo takes (\S+) for an arg", lint("--desk", desk, str(base)).stdout)
    assert found == [
        ("1", "/usr/bin/id /usr/sbin/du", "/usr/sbin/du"),
        ("2", "/usr/bin/id -u /usr/local/bin/x", "/usr/local/bin/x"),
    ]


def test_warnings_of_a_base(lint: Run, desk: str, tmp_path: Path) -> None:
    base = tmp_path / "base"
    base.write_text("User_Alias A = ann\n \\\nUser_Alias SITE_B = bob\nA ALL = /bin/ls, \\\n  /lib/x/\n# /bin/no\n")
    said = lint("--desk", desk, "--base", "--strict", str(base))
    found = re.findall(r":(\d+): warning: (\S+): ", said.stdout)
    assert said.returncode == 1
    assert found == [("1", "A"), ("2", "\\"), ("3", "SITE_B"), ("4", "/bin/ls"), ("5", "/lib/x/")]
    base.write_text("User_Alias SITE_A = ann\nHost_Alias SITE_H = db1\nSITE_A SITE_H = /usr/bin/id\n")
    said = lint("--desk", desk, "--base", "--strict", str(base))
    assert (said.returncode, said.stdout) == (0, "")


GIVES = """\
Cmnd_Alias SITE_C = /usr/bin/id, \\
  /usr/bin/vim, !/usr/bin/less
User_Alias SITE_U = ann
SITE_U ALL = (ALL) NOPASSWD: ALL, /usr/bin/apt-get install x\\:y, /usr/sbin/visudo
ann ALL, db1 = SITE_C, !ALL : db2 = NOTAFTER=20260105090000Z /bin/bash, (op) /usr/local/sbin
root ALL = ALL
ann ALL = /usr/bin/docker, /usr/bin/python3 "", /usr/local/sbin/
"""


def test_what_a_base_gives_at_all_times(lint: Run, desk: str, tmp_path: Path) -> None:
    """ALL, shells, visudo, editors, package managers, interpreters, docker; root's own is none."""
    base = tmp_path / "b.sudo"
    base.write_text(GIVES)
    said = lint("--desk", desk, "--strict", str(base))
    found = re.findall(r":(\d+): warning: (.*?): (.*)", said.stdout)
    assert said.returncode == 1
    assert [(line, what) for line, what, why in found if "/bin/ is a link" not in why] == [
        ("1", "/usr/bin/vim"), ("4", "ALL"), ("4", "/usr/sbin/visudo"), ("5", "/usr/local/sbin"),
        ("5", "/bin/bash"), ("7", "/usr/bin/docker"), ("7", '/usr/bin/python3 ""'),
    ]  # fmt: skip


COMMENTED = """\
# User_Alias OLD = /bin/id
User_Alias SITE_A = ann # was: OLD = /bin/id
Host_Alias SITE_H = db1, \\
  db2\t#: OLD = /bin/id
SITE_A SITE_H = /usr/bin/id # was /bin/id
SITE_A SITE_H = (root) /usr/bin/ls "", \\
  /usr/bin/who #-1 was /bin/who
"""


def test_comments_of_a_base_are_no_text(lint: Run, desk: str, tmp_path: Path) -> None:
    base = tmp_path / "b.sudo"
    base.write_text(COMMENTED)
    said = lint("--desk", desk, "--strict", str(base))
    assert (said.returncode, said.stdout) == (0, "")
    # (what stands before one is looked at, and what a comment names is defined nowhere)
    base.write_text(f"{COMMENTED}ann ALL = /bin/id # x\n")
    said = lint("--desk", desk, "--strict", str(base))
    warned = re.findall(r":(\d+): warning: (\S+): ", said.stdout)
    assert said.returncode == 1 and warned == [("8", "/bin/id")]
    text = "User_Alias SITE_A = %x # : OLD = y\nOLD ALL = /usr/bin/id\n"
    base.write_text(f"{text}ann ALL = /usr/bin/l* #-1 x\n")
    said = lint("--desk", desk, "--json", str(base))
    (found,) = json.loads(said.stdout)["files"]
    faults = [(it["line"], it["value"]) for it in found["faults"]]
    assert faults == [(1, "%x"), (2, "OLD"), (3, "/usr/bin/l*")]


def test_no_byte_of_a_text_rules_a_terminal(lint: Run, desk: str, tmp_path: Path) -> None:
    texts = {"r.toml": '"\\e[2J\\u009b" x = 1\n\x9b = 2\n', "m.json": '{"\\u001b": "\x1b[2J"}\n', "b.sudo": "ann \x1b[2J = ALL\n"}
    for name, text in texts.items():
        (tmp_path / name).write_text(text)
        for word in ("--json", "--strict"):
            ran = lint("--desk", desk, word, str(tmp_path / name))
            assert ran.returncode == 2 and all(line.isprintable() for line in ran.stdout.splitlines()), ran.stdout
    for words in (["\x1b[2J"], ["--\x1b"], ["--explain", "\x1b"], ["--on", "\x1b", "x"]):
        assert all(line.isprintable() for line in lint(*words).stderr.splitlines())


def crowd(person: Callable[[int], str], needs: int = 2) -> str:
    """A roster of 4,096 people and 1,024 ceilings, all of the same two duties."""
    head = 'relays=["chat"]\nhosts=["h"]\nduties=["a","b"]\nconflicts=[]\n[people]\n'
    ceiling = 'ask="a"\napprove="b"\nhosts=["h"]\nrunas=["root"]\ncommands=["/opt/t"]\nlongest=60\n'
    people = "".join(f"p{number}=[{person(number)}]\n" for number in range(4096))
    return head + people + "".join(f"[ceilings.c{it}]\nneeds={needs}\n{ceiling}" for it in range(1024))


def dated(number: int) -> str:
    days = f'from="2026{number % 12 + 1:02}{number % 28 + 1:02}",until="20{27 + number % 60}{number % 12 + 1:02}01"'
    return f'{{duty="a",{days}}},{{duty="b",{days}}}'


@pytest.mark.parametrize("person", [lambda _: '"a","b"', dated])
def test_big_rosters_in_seconds(lint: Run, tmp_path: Path, person: Callable[[int], str]) -> None:
    """The seconds are of processor time, since others may use the machine."""
    (tmp_path / "r.toml").write_text(crowd(person))
    before = resource.getrusage(resource.RUSAGE_CHILDREN)
    assert lint("--on", "20260101", str(tmp_path / "r.toml")).returncode == 0
    after = resource.getrusage(resource.RUSAGE_CHILDREN)
    assert after.ru_utime + after.ru_stime - before.ru_utime - before.ru_stime < 5
