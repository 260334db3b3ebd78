"""desk-roster: people from a real slapd, the machine's groups, a CSV and a calendar."""

from __future__ import annotations

import os
import re
import shutil
import socket
import subprocess
import tomllib
from collections.abc import Iterator
from pathlib import Path
from typing import Any
from urllib.parse import quote

import pytest

from desk_tools import people_settings
from desk_tools.calendars import Named, on_call
from desk_tools.directory import Ldap, Unsure
from desk_tools.roster_text import Days
from conftest import ROOT
from running import until

TODAY = "20260310"
SLAPD = """\
include /etc/ldap/schema/core.schema
include /etc/ldap/schema/cosine.schema
include /etc/ldap/schema/nis.schema
include /etc/ldap/schema/inetorgperson.schema
pidfile {folder}/slapd.pid
modulepath /usr/lib/ldap
moduleload back_mdb
database mdb
suffix "dc=site"
rootdn "gidNumber=0+uidNumber=0,cn=peercred,cn=external,cn=auth"
directory {folder}/data
"""
PEOPLE = ("ann", "kim", "carol", "Zo\u00eb")
UNIT = "dn: {dn}\nobjectClass: {kind}\n{rest}\n"
ROSTER = """\
# people as a person writes them
relays = ["chat"]
hosts = ["db1"]
duties = ["approve-db", "on-call", "operate-db"]
conflicts = []

[people]
ann = ["operate-db"]  # since the beginning
bob = [
    # he leads
    "approve-db",  # always
    { duty = "operate-db", from = "20260101", until = "20261231" }, # for a year
]
carol = ["operate-db", { duty = "on-call", from = "20260302", until = "20260308" }]
"kim.l" = [{ duty = "on-call", from = "20260316", until = "20260322" }]

# the only one
[ceilings.db-care]
ask = "operate-db"
approve = "approve-db"
needs = 1
hosts = ["db1"]
runas = ["root"]
commands = ["/usr/bin/id"]
longest = 3600
"""
CALENDAR = """\
BEGIN:VCALENDAR
VERSION:2.0
PRODID:-//site//on call//EN
BEGIN:VEVENT
UID:1@site
DTSTAMP:20260101T000000Z
SUMMARY:carol
DTSTART;VALUE=DATE:20260302
DTEND;VALUE=DATE:20260309
RRULE:FREQ=WEEKLY;INTERVAL=2;COUNT=3
END:VEVENT
BEGIN:VEVENT
UID:2@site
DTSTAMP:20260101T000000Z
SUMMARY:ann
DTSTART:20260309T080000Z
DTEND:20260316T080000Z
END:VEVENT
END:VCALENDAR
"""
# settings that are surely wrong, and what is said of each
GROUP, TURNS = '[duties.audit]\ngetent = "root"\n', '[duties.audit]\ncalendar = "x"\n'
BY_ADDRESS = f'{TURNS}person = "attendee"\n'
WRONG = (
    ("duties = 3\n", "duties: a table is expected, below a line [duties]"),
    ("[duties]\naudit = 3\n", "duties.audit: a table is expected, below a line [duties.audit]"),
    ('names = "x"\n', "names: a table is expected"),
    ('ends = ["x"]\n', "ends: a table is expected"),
    ("ldap = true\n", "ldap: a table is expected"),
    ('[ldap]\nurl = "ldapi:///"\nword = []\n', "an unknown key: ldap.word"),
    ("[ldap]\nurl = 3\n", "ldap.url: a text is expected, between quotes"),
    ('[ldap]\nname = ["uid"]\n', "ldap.name: a text is expected"),
    ('[ldap]\nwords = "-x"\n', "ldap.words: a list of texts is expected"),
    ("[ldap]\nwords = [1]\n", "ldap.words: a list of texts is expected"),
    ("[names]\nx = 3\n", "names.x: a name that a roster can have is expected"),
    ('[names]\nx = "Zoe M"\n', "names.x: a name that a roster can have is expected"),
    ('[ends]\nlena = "20261399"\n', "ends.lena: a day is yyyymmdd"),
    ("[duties.audit]\ncsv = 3\n", "duties.audit.csv: a text is expected"),
    ('[duties.audit]\ngetent = ""\n', "duties.audit.getent: a text is expected"),
    (f'{GROUP}may_be_empty = "false"\n', "may_be_empty: true or false is expected, without quo"),
    (f"{GROUP}may_be_empty = 1\n", "duties.audit.may_be_empty: true or false is expected"),
    (f"{GROUP}weeks = 3\n", "duties.audit.weeks: only a calendar has it"),
    (f'{TURNS}person = "sumary"\n', 'duties.audit.person: "summary" or "attendee" is expected'),
    (f"{TURNS}person = []\n", "duties.audit.person: "),
    (f"{TURNS}weeks = 9999999999\n", "weeks: a whole number from 1 to 520 is expected"),
    (f"{TURNS}weeks = 0\n", "duties.audit.weeks: a whole number"),
    (f"{TURNS}weeks = true\n", "duties.audit.weeks: a whole number"),
    (f'{TURNS}weeks = "8"\n', "weeks: a whole number from 1 to 520 is expected, without quotes"),
    (f'{GROUP}domain = "site"\n', "duties.audit.domain: only a calendar has it"),
    (f'{TURNS}domain = "site"\n', 'audit.domain: only person = "attendee" has it: leave it out'),
    (f'{BY_ADDRESS}domain = "@site"\n', "audit.domain: what stands behind the @ is expected"),
    (f"{BY_ADDRESS}domain = 3\n", "audit.domain: what stands behind the @ is expected"),
)
# events of bob that are not sure, and what is said of each
DAY, TIME = "DTSTART;VALUE=DATE:20260401", "DTSTART:20260401T120000Z"
DAYS = f"{DAY}\nDTEND;VALUE=DATE:20260403\nRRULE:FREQ=WEEKLY"
TIMES = f"{TIME}\nDTEND:20260403T120000Z\nRRULE:FREQ=WEEKLY"
ONE = f"{TIME}\nDTEND:20260403T120000Z"
UNSURE = (
    (TIME, "the event 'bob' has no end"),
    (DAY, "has no end"),
    ("DTEND:20260403T120000Z", "has no start"),
    (f"{TIME}\nDTEND:2026-04-03T120000Z", "has DTEND that is not read: .*2026-04-03T120000Z"),
    (f"{ONE}\nDTEND:20260404T120000Z", "has more than one DTEND"),
    (f"{ONE}\nDURATION:P1D", "has two ends"),
    (f"{TIME}\nDTEND:20260401T120000Z", "has an end that is not after its start"),
    (f"{TIME}\nDTEND:20260331T120000Z", "has an end that is not after its start"),
    (f"{TIME}\nDURATION:-P1D", "has an end that is not after its start"),
    (f"{DAY}\nDTEND;VALUE=DATE:20260401", "has an end that is not after its start"),
    (f"{DAY}\nDURATION:PT12H", "has an end that is not after its start"),
    (f"{DAY}\nDTEND:20260403T120000Z", "begins with a day, and ends with a time"),
    (f"{TIME}\nDTEND:20260403T120000", "has a time that has no zone"),
    ("DTSTART;TZID=No/Where:20260401T120000\nDURATION:P1D", "has a time that has no zone"),
    (f"{DAYS};UNTIL=2026-12-31", "has RRULE that is not read: .*UNTIL=2026-12-31"),
    (f"{DAYS};UNTIL20260410", "RRULE:FREQ=WEEKLY;UNTIL20260410 has not its form"),
    (f"{DAYS};UNTIL=201231", "is a rule that is not read"),
    (f"{DAYS};UNTIL=20260410;UNTIL=20261231", "is a rule that is not read"),
    (f"{DAYS};UNTILL=20260410", "UNTILL|no calendar that is read"),
    (f"{DAYS};INTERVAL=0", "is a rule that is not read"),
    (f"{DAYS};COUNT=0", "is a rule that is not read"),
    (f"{TIME}\nDURATION:PT1H\nRRULE:FREQ=SECONDLY", "is a rule that is not read"),
    (f"{DAYS}\nRRULE:FREQ=DAILY", "multiple distinct RRULE"),
    (f"{DAYS}\nEXRULE:FREQ=WEEKLY;INTERVAL=2", "has an EXRULE, which is not read"),
    (f"{DAYS}\nEXDATE:20260408T000000Z", "begins with a day, and its EXDATE is a time"),
    (f"{TIMES}\nEXDATE;VALUE=DATE:20260408", "begins with a time, and its EXDATE is a day"),
    (f"{TIMES}\nEXDATE:20260408T120000", "and its EXDATE is a time without a zone"),
    (f"{TIMES}\nRDATE;VALUE=DATE:20260501", "begins with a time, and its RDATE is a day"),
    (f"{TIMES}\nEXDATE:20260408X120000Z", "EXDATE:20260408X120000Z has not its form"),
    (f"{ONE}\nRECURRENCE-ID;RANGE=THISANDFUTURE:20260401T120000Z", "a RANGE, which is not read"),
    (f"{TIMES}\nRECURRENCE-ID:20260401T120000Z", "has a RECURRENCE-ID, and also RRULE"),
    (f"{ONE}\nRECURRENCE-ID:20260401T120000", "has a RECURRENCE-ID that has no zone"),
    (f"{DAYS};UNTIL=20260410\nno line", "has a line that is not read"),
)
EVENT = """\
BEGIN:VEVENT
UID:{uid}@site
DTSTAMP:20260101T000000Z
SUMMARY:{who}
{rest}
END:VEVENT
"""
# a turn of bob's that carol takes, and then nobody
SERIES = EVENT.format(uid=3, who="bob", rest=f"{TIMES};COUNT=2\nSEQUENCE:0")
TURN = EVENT.format(uid=3, who="carol", rest=f"{ONE}\nRECURRENCE-ID:20260408T120000Z\nSEQUENCE:0")
BERLIN = "DTSTART;TZID=Europe/Berlin:20260401T003000\nDURATION:PT8H\nRRULE:FREQ=WEEKLY;COUNT=2"


class Directory:
    """A slapd at a socket."""

    def __init__(self, folder: Path) -> None:
        self.folder = folder
        (folder / "data").mkdir()
        self.url = f"ldapi://{quote(str(folder / 'ldapi'), safe='')}"
        (folder / "slapd.conf").write_text(SLAPD.format(folder=folder))
        (folder / "site.ldif").write_text(self.entries())
        self.run("slapadd", "-f", str(folder / "slapd.conf"), "-l", str(folder / "site.ldif"))
        words = ["slapd", "-f", str(folder / "slapd.conf"), "-h", self.url, "-d", "0"]
        self.job = subprocess.Popen(words, env=self.environment, stderr=subprocess.DEVNULL)
        until(self.listens, "slapd does not listen")

    def listens(self) -> bool:
        with socket.socket(socket.AF_UNIX) as peer:
            return peer.connect_ex(str(self.folder / "ldapi")) == 0

    environment = os.environ | {"PATH": f"{os.environ['PATH']}:/usr/sbin"}

    @staticmethod
    def entries() -> str:
        found = UNIT.format(dn="dc=site", kind="domain", rest="dc: site\n")
        for name in PEOPLE:
            rest = f"uid: {name}\nsn: {name}\ncn: {name}\n"
            found += UNIT.format(dn=f"uid={name},dc=site", kind="inetOrgPerson", rest=rest)
        for group, names in (("dba", ("ann", "kim")), ("odd", ("ann", "Zo\u00eb"))):
            rest = f"cn: {group}\n" + "".join(f"member: uid={it},dc=site\n" for it in names)
            found += UNIT.format(dn=f"cn={group},dc=site", kind="groupOfNames", rest=rest)
        rest = "cn: none\ngidNumber: 700\n"
        found += UNIT.format(dn="cn=none,dc=site", kind="posixGroup", rest=rest)
        # (a directory that gives a list in parts names them so, as member;range=0-1499)
        rest = "cn: part\nmember: uid=ann,dc=site\nmember;lang-en: uid=kim,dc=site\n"
        found += UNIT.format(dn="cn=part,dc=site", kind="groupOfNames", rest=rest)
        rest = "cn: nested\nmember: cn=dba,dc=site\n"
        return found + UNIT.format(dn="cn=nested,dc=site", kind="groupOfNames", rest=rest)

    def run(self, *words: str, given: str = "") -> None:
        subprocess.run(words, input=given, text=True, env=self.environment, check=True)

    def modify(self, given: str) -> None:
        self.run("ldapmodify", "-Q", "-Y", "EXTERNAL", "-H", self.url, given=given)

    def stop(self) -> None:
        self.job.terminate()
        self.job.wait(timeout=60)


@pytest.fixture(scope="module")
def directory(tmp_path_factory: pytest.TempPathFactory) -> Iterator[Directory]:
    found = Directory(tmp_path_factory.mktemp("ldap"))
    yield found
    found.stop()


class Room:
    """A roster, its settings, and desk-roster over them."""

    def __init__(self, folder: Path, desk: str) -> None:
        self.folder, self.desk = folder, desk
        self.roster = folder / "roster.toml"
        self.roster.write_text(ROSTER)
        (folder / "serve.conf").write_text(f"STORE={folder}/desk.db\nROSTER={folder}/none\n")

    def run(
        self, settings: str, *more: str, before: tuple[str, ...] = ()
    ) -> subprocess.CompletedProcess[str]:
        (self.folder / "people.toml").write_text(settings)
        words = [os.path.join(ROOT, "tools", "desk-roster"), str(self.roster), "--on", TODAY]
        words += ["--people", f"{self.folder}/people.toml", "--conf", f"{self.folder}/serve.conf"]
        return subprocess.run(
            [*before, *words, "--desk", self.desk, *more],
            capture_output=True,
            text=True,
            timeout=300,
            check=False,
        )

    def people(self) -> dict[str, list[Any]]:
        found: dict[str, list[Any]] = tomllib.loads(self.roster.read_text())["people"]
        return found


@pytest.fixture
def room(tmp_path: Path, desk: str) -> Room:
    return Room(tmp_path, desk)


def by_ldap(directory: Directory, group: str = "dba", more: str = "") -> str:
    words = f'words = ["-Q", "-Y", "EXTERNAL"]\n[duties.operate-db]\nldap = "cn={group},dc=site"\n'
    return f'[ldap]\nurl = "{directory.url}"\n{words}{more}'


def days(duty: str, first: str, last: str) -> dict[str, str]:
    return {"duty": duty, "from": first, "until": last}


def test_who_joins_and_who_leaves(room: Room, directory: Directory) -> None:
    """carol and bob have left the group, and kim has joined it: the past stays as it was."""
    ran = room.run(by_ldap(directory))
    assert ran.returncode == 1 and room.roster.read_text() == ROSTER, ran
    assert "kim has operate-db not at all, then from 20260310\n" in ran.stdout, ran
    assert "bob has operate-db from 20260310 until 20261231, then from 20260310 unt" in ran.stdout
    assert "which grants change is not known" in ran.stdout and "+kim = [" in ran.stdout
    assert room.run(by_ldap(directory), "--write").returncode == 0
    text, found = room.roster.read_text(), room.people()
    assert found["ann"] == ["operate-db"]
    assert found["bob"] == ["approve-db", days("operate-db", "20260101", TODAY)]
    assert found["carol"][0] == days("operate-db", "19700101", TODAY)
    assert found["kim"] == [days("operate-db", TODAY, "20991231")]
    old, new = ROSTER.splitlines(), text.splitlines()
    assert [it for it in old if it not in new] == [old[11], old[13]]
    assert [it for it in new if it not in old] == [new[11], new[13], new[15]]
    assert new[11].endswith("}, # for a year") and new[15].startswith("kim = ")
    again = room.run(by_ldap(directory), "--write")
    assert again.stdout == "The roster has these people already.\n", again


def test_ends_of_contractors(room: Room, directory: Directory) -> None:
    more = '[ends]\nkim = "20260430"\nann = "20260401"\n'
    assert room.run(by_ldap(directory, more=more), "--write").returncode == 0
    assert room.people()["kim"] == [days("operate-db", TODAY, "20260430")]
    assert room.people()["ann"] == [days("operate-db", "19700101", "20260401")]


def refused(room: Room, settings: str, said: str) -> None:
    """desk-roster changes nothing, and says why."""
    ran = room.run(settings, "--write")
    assert ran.returncode == 2 and room.roster.read_text() == ROSTER, ran
    assert re.search(said, ran.stderr) and ran.stderr.endswith(": nothing is changed\n"), ran


def test_what_is_refused(room: Room, directory: Directory) -> None:
    refused(room, by_ldap(directory, "odd"), "no roster has such a name: 'Zoë'")
    refused(room, by_ldap(directory, "none"), "its source names nobody")
    refused(room, by_ldap(directory, "nobody"), "No such object")
    refused(room, by_ldap(directory, "part"), "it gives only a part .member;lang-en.")
    refused(room, by_ldap(directory, "nested"), "cn=dba,dc=site: it has 0 of uid, and not one")
    refused(room, by_ldap(directory).replace("operate-db", "operate"), "the roster has no such")
    refused(room, by_ldap(directory).replace(directory.url, "ldap://site"), "whoever is on the w")
    names = '[names]\n"Zo\u00eb" = "ann"\n'
    refused(room, by_ldap(directory, "odd", names), "several people would have one name: ann")
    ran = room.run(by_ldap(directory, "odd", names.replace('"ann"', '"zoe"')), "--write")
    assert ran.returncode == 0 and "zoe" in room.people(), ran


def test_a_directory_that_fails(room: Room, tmp_path: Path) -> None:
    """A member that is gone is a part of an answer; and then nothing answers."""
    (tmp_path / "ldap").mkdir()
    found = Directory(tmp_path / "ldap")
    try:
        found.modify("dn: uid=kim,dc=site\nchangetype: delete\n")
        refused(room, by_ldap(found), "uid=kim,dc=site: .*No such object")
    finally:
        found.stop()
    refused(room, by_ldap(found), "Can't contact LDAP server")


def test_the_settings_of_the_page() -> None:
    with open(os.path.join(ROOT, "docs", "PEOPLE.md"), encoding="utf-8") as file:
        (block,) = re.findall(r"^```toml\n(.*?)^```$", file.read(), re.MULTILINE | re.DOTALL)
    said = tomllib.loads(block)
    assert {next(iter(it)) for it in said["duties"].values()} == set(people_settings.SOURCES)
    assert next(people_settings.wrong(said), None) is None
    Ldap(said["ldap"])


def test_settings_that_are_none(room: Room) -> None:
    refused(room, "[duty.audit]\n", "an unknown key: duty")
    refused(room, '[duties.audit]\nldpa = "x"\n', "duties.audit: one of ldap, getent, csv, cal")
    refused(room, '[duties.approve-db]\ncsv = "x"\nurl = "y"\n', "unknown key: duties.approve-")
    refused(room, '[ends]\nlena = 20260101\n', "ends.lena: a day is yyyymmdd, between quotes")

    refused(room, "duties = 3\n", "duties: a table is expected")
    refused(room, f"{TURNS}weeks = 9999999999\n", "duties.audit.weeks: a whole number from 1 to 5")


@pytest.mark.parametrize("given, said", WRONG, ids=[it[0].splitlines()[-1] for it in WRONG])
def test_a_setting_that_is_surely_wrong(tmp_path: Path, given: str, said: str) -> None:
    (tmp_path / "people.toml").write_text(given)
    with pytest.raises(Unsure, match=re.escape(said)):
        people_settings.settings(str(tmp_path / "people.toml"))


def test_an_end_goes_by_the_name_of_the_roster(room: Room) -> None:
    """By a source's own name it would end nothing, or that of somebody else."""
    (room.folder / "people.csv").write_text("person,duty\nZo\u00eb,approve-db\nkim.l,approve-db\n")
    duty = f'[duties.approve-db]\ncsv = "{room.folder}/people.csv"\n'
    names = f'{duty}[names]\n"Zo\u00eb" = "zoe"\n"kim.l" = "kim"\n[ends]\n'
    refused(room, f'{names}"Zo\u00eb" = "20260331"\n', "ends.Zoë: .*write the .* roster has, zoe")
    refused(room, f'{names}"kim.l" = "20260331"\n', "ends.kim.l: write the .* roster has, kim:")
    refused(room, f'{duty}[ends]\n"Zo\u00eb" = "20260331"\n', "ends.Zoë: no roster has such a nam")
    assert room.run(f'{names}zoe = "20260331"\n', "--write").returncode == 0
    assert room.people()["zoe"] == [days("approve-db", TODAY, "20260331")]


def test_groups_of_the_machine(room: Room) -> None:
    settings = '[duties.operate-db]\ngetent = "root"\n'
    ran = room.run(settings, "--write")
    assert ran.returncode == 2 and "3 of 3 would lose it: ann, bob, carol" in ran.stderr, ran
    assert room.run(settings, "--write", "--many").returncode == 0
    assert room.people()["root"] == [days("operate-db", TODAY, "20991231")]
    ran = room.run(settings.replace('"root"', '"no-such-group"'), "--write")
    assert ran.returncode == 2 and "getent knows no group no-such-group" in ran.stderr, ran


def test_a_table(room: Room) -> None:
    table = room.folder / "people.csv"
    settings = f'[duties.approve-db]\ncsv = "{table}"\n'
    table.write_text("person,duty\nbob,approve-db\nhana,approve-db\nann,operate-db\n")
    assert room.run(settings, "--write").returncode == 0
    assert room.people()["hana"] == [days("approve-db", TODAY, "20991231")]
    assert room.people()["ann"] == ["operate-db"] and "approve-db" in room.people()["bob"]
    room.roster.write_text(ROSTER)
    table.write_text("person,duty\nbob,approve-db\nhana\n")
    refused(room, settings, "people.csv:3: a line without person or duty")
    table.write_text("")
    refused(room, settings, "its first line names the columns person and duty")
    table.write_text("person,duty,duty\nbob,operate-db,approve-db\n")
    refused(room, settings, "names the columns person and duty, each once")


def test_a_row_that_is_not_read(room: Room) -> None:
    """By a slip in the duty somebody would lose a right, and nobody would be told."""
    table = room.folder / "people.csv"
    settings = f'[duties.approve-db]\ncsv = "{table}"\n'
    for row, said in (
        ("hana,aprove-db", ":3: the roster has no duty 'aprove-db'"),
        ("hana,approve-db ", ":3: a blank before or behind 'hana' or 'approve-db '"),
        (" hana,approve-db", ":3: a blank before or behind ' hana' or 'approve-db'"),
        ("hana,Approve-DB", ":3: the roster has no duty 'Approve-DB'"),
        ("# hana,approve-db", ":3: no roster has such a name|no roster has such a name"),
    ):
        table.write_text(f"person,duty\nbob,approve-db\n{row}\n")
        refused(room, settings, said)
    table.write_text("person,duty\nbob,approve-db\nann,operate-db\ncarol,operate-db\n")
    ran = room.run(settings)
    assert [it.partition(": not read: ")[0] for it in ran.stderr.splitlines()] == [
        f"desk-roster: {table}:3",
        f"desk-roster: {table}:4",
    ], ran
    assert "no [duties.operate-db] of the settings names this file" in ran.stderr, ran
    ran = room.run(f'{settings}[duties.operate-db]\ncsv = "{table}"\n')
    assert ran.stderr == "", ran


def test_weeks_of_a_calendar(room: Room) -> None:
    """Weeks come and go from today on; those that are over stay, also where no event has them."""
    (room.folder / "on-call.ics").write_text(CALENDAR)
    settings = f'[duties.on-call]\ncalendar = "{room.folder}/on-call.ics"\n'
    assert room.run(settings, "--write").returncode == 0
    found = room.people()
    weeks = [("20260302", "20260308"), ("20260316", "20260322"), ("20260330", "20260405")]
    assert found["carol"] == ["operate-db", *(days("on-call", *it) for it in weeks)]
    assert found["ann"] == ["operate-db", days("on-call", TODAY, "20260316")]
    assert found["kim.l"] == []
    assert room.run(settings, "--write").stdout == "The roster has these people already.\n"
    (room.folder / "on-call.ics").write_text(CALENDAR.replace("carol", "Carol Danvers"))
    ran = room.run(settings, "--write")
    assert ran.returncode == 2 and "no roster has such a name: 'Carol Danvers'" in ran.stderr, ran
    for text in ("", CALENDAR.replace("T080000Z", "T080000"), CALENDAR[:300]):
        (room.folder / "on-call.ics").write_text(text)
        ran = room.run(settings, "--write")
        assert ran.returncode == 2 and room.people() == found, ran


def called(room: Room, *events: str) -> dict[str, list[Days]]:
    """Who is on call by these events beside those of CALENDAR."""
    text = CALENDAR.replace("END:VCALENDAR", f"{''.join(events)}END:VCALENDAR")
    (room.folder / "on-call.ics").write_text(text)
    return on_call(f"{room.folder}/on-call.ics", Named(), TODAY, 26, print)


@pytest.mark.parametrize("rest, said", UNSURE, ids=[it[0].splitlines()[-1] for it in UNSURE])
def test_an_event_that_is_not_sure(room: Room, rest: str, said: str) -> None:
    with pytest.raises(Unsure, match=said):
        called(room, EVENT.format(uid=3, who="bob", rest=rest))


def test_events_that_are_sure(room: Room) -> None:
    """All that a calendar may say of a turn, and that is read, counts as before."""
    found = called(room, SERIES, TURN)
    assert found["bob"] == [Days("20260401", "20260403")]
    assert Days("20260330", "20260405") in found["carol"]
    rest = f"{DAYS};COUNT=3;\nEXDATE;VALUE=DATE:20260408"
    found = called(room, EVENT.format(uid=3, who="bob", rest=rest))
    assert found["bob"] == [Days("20260401", "20260402"), Days("20260415", "20260416")]
    rest = f"{TIME}\nDURATION:P1D\nRDATE:20260501T120000Z"
    found = called(room, EVENT.format(uid=3, who="bob", rest=rest))
    assert found["bob"] == [Days("20260401", "20260402"), Days("20260501", "20260502")]
    found = called(room, EVENT.format(uid=3, who="bob", rest=BERLIN))
    assert found["bob"] == [Days("20260331", "20260401"), Days("20260407", "20260408")]


def of_attendee(said: str, more: str = "") -> str:
    """An event of bob's that has this attendee."""
    return EVENT.format(uid=3, who="duty", rest=f"{ONE}\nATTENDEE{said}{more}")


NO_TURNS = (
    ("STATUS:TENTATIVE", "its STATUS is TENTATIVE"),
    ("STATUS:cancelled", "its STATUS is cancelled"),
)
NOT_THERE = (
    (";PARTSTAT=DECLINED:mailto:bob@site.example", "its PARTSTAT is DECLINED"),
    (";PARTSTAT=TENTATIVE:mailto:bob@site.example", "its PARTSTAT is TENTATIVE"),
    (";PARTSTAT=DELEGATED:mailto:bob@site.example", "its PARTSTAT is DELEGATED"),
    (";ROLE=NON-PARTICIPANT:mailto:bob@site.example", "its ROLE is NON-PARTICIPANT"),
    (":mailto:bob@site.example", ""),
    (";PARTSTAT=ACCEPTED;ROLE=CHAIR;CUTYPE=INDIVIDUAL:MAILTO:bob@Site.Example", ""),
    (";PARTSTAT=NEEDS-ACTION;RSVP=TRUE:Mailto:bob@site.example", ""),
)
UNSURE_PEOPLE = (
    (":mailto:bob@evil.example", "no roster has such a name: 'bob@evil.example'; give each ano"),
    (":mailto:bob@site.example.evil", "no roster has such a name: 'bob@site.example.evil'"),
    (":mailto:bob@evil.example@site.example", "no roster has such a name: 'bob@evil.example'"),
    (":mailto:bob", "no roster has such a name: 'mailto:bob'"),
    (":mailto:bob@", "no roster has such a name: 'bob@'"),
    (":invalid:bob@site.example", "no roster has such a name: 'invalid:bob@site.example'"),
    (";PARTSTAT=X-LATER:mailto:bob@site.example", "the event 'duty' has the PARTSTAT X-LATER"),
    (";ROLE=OPT-PARTICIPANT:mailto:bob@site.example", "has the ROLE OPT-PARTICIPANT"),
    (";CUTYPE=GROUP:mailto:bob@site.example", "the event 'duty' has the CUTYPE GROUP"),
)


def by_attendee(room: Room, event: str, more: str = "") -> subprocess.CompletedProcess[str]:
    """desk-roster over a calendar of this event alone."""
    head, tail = CALENDAR.partition("BEGIN:VEVENT")[0], "END:VCALENDAR\n"
    (room.folder / "on-call.ics").write_text(f"{head}{event}{tail}")
    duty = f'[duties.on-call]\ncalendar = "{room.folder}/on-call.ics"\nperson = "attendee"\n'
    return room.run(f'{duty}domain = "site.example"\nmay_be_empty = true\n{more}')


@pytest.mark.parametrize("said, why", NOT_THERE, ids=[it[0] for it in NOT_THERE])
def test_an_attendee_who_is_not_on_call(room: Room, said: str, why: str) -> None:
    ran = by_attendee(room, of_attendee(said))
    given = "bob has on-call not at all, then from 20260401 until 20260403" in ran.stdout
    assert ran.returncode == 1 and given == (why == ""), ran
    told = f"the event 'duty' gives no duty: {why}\n" if why else ""
    assert ran.stderr.partition("on-call.ics: ")[2] == told, ran


@pytest.mark.parametrize("said, why", UNSURE_PEOPLE, ids=[it[0] for it in UNSURE_PEOPLE])
def test_an_attendee_who_may_be_somebody_else(room: Room, said: str, why: str) -> None:
    ran = by_attendee(room, of_attendee(said))
    assert ran.returncode == 2 and re.search(why, ran.stderr), ran


def test_an_address_of_another_domain_has_a_name_of_its_own(room: Room) -> None:
    event = of_attendee(":mailto:bob@partner.example")
    ran = by_attendee(room, event, '[names]\n"bob@partner.example" = "bobby"\n')
    assert ran.returncode == 1 and "bobby has on-call not at all, then from 2026" in ran.stdout, ran


@pytest.mark.parametrize("said, why", NO_TURNS, ids=[it[0] for it in NO_TURNS])
def test_an_event_that_is_no_turn(
    room: Room, said: str, why: str, capsys: pytest.CaptureFixture[str]
) -> None:
    found = called(room, EVENT.format(uid=3, who="bob", rest=f"{ONE}\n{said}"))
    assert "bob" not in found and set(found) == {"ann", "carol"}, found
    assert f"the event 'bob' gives no duty: {why}" in capsys.readouterr().out
    assert "bob" in called(room, EVENT.format(uid=3, who="bob", rest=f"{ONE}\nSTATUS:CONFIRMED"))
    with pytest.raises(Unsure, match="the event 'bob' has the STATUS X-MAYBE"):
        called(room, EVENT.format(uid=3, who="bob", rest=f"{ONE}\nSTATUS:X-MAYBE"))
    # (a turn of a series that is not sure, and the others are)
    turn = TURN.replace("carol", "bob").replace("SEQUENCE:0", f"SEQUENCE:0\n{said}")
    assert called(room, SERIES, turn)["bob"] == [Days("20260401", "20260403")]


def test_a_message_about_events_is_no_calendar(room: Room) -> None:
    settings = f'[duties.on-call]\ncalendar = "{room.folder}/on-call.ics"\n'
    for method in ("CANCEL", "REQUEST", "REPLY", "COUNTER", "X-ANY", "cancel"):
        text = CALENDAR.replace("VERSION:2.0", f"VERSION:2.0\nMETHOD:{method}")
        (room.folder / "on-call.ics").write_text(text)
        refused(room, settings, f"its METHOD is {method}: it is a message about events")
    text = CALENDAR.replace("VERSION:2.0", "VERSION:2.0\nMETHOD:Publish")
    (room.folder / "on-call.ics").write_text(text)
    assert room.run(settings).returncode == 1


def test_events_that_do_not_fit_together(room: Room) -> None:
    series = EVENT.format(uid=3, who="bob", rest=BERLIN)
    rest = "DTSTART:20260501T120000Z\nDURATION:PT1H\nRECURRENCE-ID:20260407T223000Z"
    with pytest.raises(Unsure, match="the event 'carol' has a RECURRENCE-ID in another zone"):
        called(room, series, EVENT.format(uid=3, who="carol", rest=rest))
    with pytest.raises(Unsure, match="two events have the UID 3@site"):
        called(room, SERIES, SERIES.replace("bob", "carol"))


def test_no_calendar_ends_it_with_a_traceback(room: Room) -> None:
    settings = f'[duties.on-call]\ncalendar = "{room.folder}/on-call.ics"\n'
    called(room)
    texts = [
        (CALENDAR.replace("VERSION:2.0", "CALSCALE:JULIAN"), "Only Gregorian calendars"),
        (f"END:VEVENT\n{CALENDAR}", "pop from empty list"),
        (CALENDAR.replace("DTEND:20260316T080000Z", "DURATION:P9999999D"), "out of range"),
        (CALENDAR.replace("DTEND:20260316T080000Z", "DTEND:20260301T080000Z"), "not after"),
        ("BEGIN:X\n" * 2000 + "END:X\n" * 2000, "recursion"),
    ]
    for text, said in texts:
        (room.folder / "on-call.ics").write_text(text)
        refused(room, settings, said)


def test_a_desk_without_a_store(room: Room) -> None:
    """STORE=- is what desk-serve takes: no grant is there to compare."""
    (room.folder / "serve.conf").write_text(f"STORE=-\nROSTER={room.folder}/none\n")
    (room.folder / "people.csv").write_text("person,duty\nbob,approve-db\nhana,approve-db\n")
    settings = f'[duties.approve-db]\ncsv = "{room.folder}/people.csv"\n'
    ran = room.run(settings)
    assert ran.returncode == 1 and "(the desk has no store: " in ran.stdout, ran
    ran = room.run(settings, "--write")
    assert ran.returncode == 0 and "hana" in room.people(), ran


def test_the_grants_that_change(room: Room, directory: Directory, desk: str) -> None:
    """Over the desk's store: who has left keeps what was granted, and what is not admitted ends."""
    served = room.folder / "served.toml"
    shutil.copy(room.roster, served)
    base = os.path.join(ROOT, "examples", "site.sudo")
    conf = f"STORE={room.folder}/desk.db\nROSTER={served}\nBASE={base}\n"
    (room.folder / "serve.conf").write_text(conf)
    asked = '{"at":"20260309090000Z","by":"carol","ceiling":"db-care","cmnds":["/usr/bin/id"],'
    asked += '"from":"20991231220000Z","hosts":["db1"],"kind":"request","no":1,"runas":"root",'
    asked += '"until":"20991231223000Z"}\n'
    words = [desk, "deliver", str(served), base, f"{room.folder}/desk.db", "chat"]
    subprocess.run(words, input=asked, text=True, check=True, stdout=subprocess.DEVNULL)
    ran = room.run(by_ldap(directory), "--write")
    assert ran.returncode == 0 and "No grant changes from now on." in ran.stdout, ran
    # (the served file itself is not written)
    room.roster = served
    ran = room.run(by_ldap(directory), "--write")
    assert ran.returncode == 2 and "the desk is served with this file" in ran.stderr, ran


def test_whom_getent_does_not_see(room: Room) -> None:
    """A directory lists nobody by default (sssd, winbind): the program says so, and it does not
    where files have all."""
    if os.geteuid() != 0:
        assert not os.environ.get("WHOLE"), "this needs root: it binds a file over one of /etc"
        pytest.skip("this needs root: it binds a file over one of /etc")
    switch = room.folder / "nsswitch.conf"
    script = f'mount --bind {switch} /etc/nsswitch.conf && exec "$@"'
    before = ("unshare", "--mount", "--propagation", "private", "sh", "-c", script, "sh")
    for text, is_told in (("passwd: files\ngroup: files\n", False), ("passwd: files sss\n", True)):
        switch.write_text(text)
        ran = room.run('[duties.operate-db]\ngetent = "root"\n', "--many", before=before)
        said = "whoever has root as their first group, and is not listed by `getent passwd`"
        assert (said in ran.stderr, ran.returncode) == (is_told, 1), ran
