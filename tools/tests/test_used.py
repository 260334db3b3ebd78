"""desk-used by its words: what it reads of sudo's logs, and what it tells of grants and of the
base. Beside real runs of sudo: beside_sudo_logs.py."""

from __future__ import annotations

import bz2
import gzip
import hashlib
import json
import lzma
import os
import random
import resource
import subprocess
import sys
import tomllib
from collections.abc import Callable
from pathlib import Path
from typing import Any

import jsonschema
import pytest

from desk_tools.decisions import Desk, Invocation, Question
from desk_tools.narrower import linted, narrowed
from desk_tools.peers import BadPeers, Peers
from desk_tools.sudo_logs import Logs, Run, read_log, without_exits
from desk_tools.use import Done, done_of, grants_of
from steelnewt_client.moments import seconds
from conftest import ROOT, Run as Program
from texts import newer

BESIDE = os.path.join(ROOT, "tools", "tests", "beside_sudo_logs.py")
EXAMPLES = os.path.join(ROOT, "examples")
# what desk-used tells of a log, and its status
Tell = Callable[..., tuple[Any, int]]
ROSTER, BASE = (os.path.join(EXAMPLES, it) for it in ("roster.toml", "site.sudo"))
# the window of ann 7 on db1, which was revoked, is from 09:15:00 to 10:29:59
WAS = "TTY=pts/0 ; PWD=/ ; USER=root ; COMMAND=/usr/bin/id -u"
HEADS = (
    "2026-01-05T09:20:00+00:00 db1 sudo:      ann : ",
    "2026-01-05T10:20:00.123456+01:00 db1 sudo[12]: ann : ",
    "2026-01-05T10:20:00+0100 db1.example.org sudo[12]: ann : ",
    "Jan  5 09:20:00 DB1 sudo:   ann : ",
    "<85>Jan  5 09:20:00 db1 sudo:      ann : ",
    "<85>1 2026-01-05T09:20:00.5Z db1 sudo 123 - - ann : ",
    "Jan  5 09:20:00 2026 : ann : HOST=db1 ; ",
)
# lines that are nobody's use of a right
NO_USE = (
    ("Jan  5 09:20:00 db1 sshd[3]: sudo: ann : ", 0),
    ("Jan  5 09:20:00 db1 sudo: ann : command not allowed ; ", 0),
    ("Jan  5 09:20:00 db1 sudo: ann b : ", 1),
    ("Jan  5 09:20:00 db1 sudo: ann : (command continued) ", 1),
    ("Jan  5 09:20:00 2026 : ann : ", 1),
    ("ann : ", 1),
    ("Feb 30 09:20:00 2026 : ann : HOST=db1 ; ", 1),
    ("Jan  5 09:20:00 db1 sudo: ann : PWD=/x ; USER=op ; COMMAND=/bin/a ; ", 1),
    ("Jan  5 09:20:00 db1 sudo: ann : PWD=/x ; USER=op ; ENV=y ; ", 1),
)
EVENT = {
    "server_time": {"seconds": seconds("20260105092000Z")},
    "submit_time": {"seconds": seconds("20260105091900Z")},
    "submituser": "ann",
    "command": "/usr/bin/id",
    "runuser": "root",
    "submithost": "db1",
    "runargv": ["id", "-u"],
}
ENTRY = {
    "__REALTIME_TIMESTAMP": f"{seconds('20260105092000Z')}000000",
    "_HOSTNAME": "db1",
    "SYSLOG_IDENTIFIER": "sudo",
    "_EXE": "/usr/bin/sudo",
    "MESSAGE": f"     ann : {WAS}",
}
OF_NOBODY = {key: value for key, value in ENTRY.items() if key != "_EXE"}
OBJECTS: tuple[tuple[dict[str, Any], int], ...] = (
    ({"accept": EVENT}, 0),
    ({"sudo": {"accept": EVENT}}, 0),
    (ENTRY, 0),
    (ENTRY | {"MESSAGE": list(ENTRY["MESSAGE"].encode())}, 0),
    (ENTRY | {"MESSAGE": "@cee:" + json.dumps({"sudo": {"accept": EVENT}})}, 0),
    (ENTRY | {"_EXE": "/tmp/sudo"}, 1),
    (OF_NOBODY, 1),
    (OF_NOBODY | {"_COMM": "sudo"}, 1),
    ({"accept": EVENT | {"submituser": 7}}, 1),
    ({"accept": 7}, 1),
    ({"what": EVENT}, 1),
    ({"reject": EVENT}, 0),
)


def pretty(*events: tuple[str, dict[str, Any]]) -> str:
    """A file of sudo's JSON."""
    texts = [json.dumps({kind: event}, indent=4)[2:-2] for kind, event in events]
    return "{\n" + ",\n".join(texts) + "\n}\n"


def read(path: Path, text: str | bytes, host: str = "", year: int = 2026) -> Logs:
    path.write_bytes(text if isinstance(text, bytes) else text.encode())
    peers = path.with_name("peers")
    peers.write_text("10.0.0.1 db1\n")
    logs = Logs(peers=Peers(str(peers)))
    read_log(logs, str(path), host, year)
    without_exits(logs)
    return logs


def ran(logs: Logs) -> list[tuple[Done, list[int]]]:
    return [(done_of(Run(*it)), list(at)) for it, at in logs.runs.items()]


def audit_of(desk: str, path: Path, messages: str) -> str:
    """What desk-audit tells of the messages, in a file."""
    folder, name = os.path.split(desk)
    program = os.path.join(folder, name.replace("desk", "desk-audit", 1))
    words = [program, ROSTER, BASE, "-", "--json"]
    told = subprocess.run(words, input=messages.encode(), capture_output=True)
    path.write_bytes(told.stdout)
    return str(path)


@pytest.fixture
def audit(desk: str, tmp_path: Path) -> str:
    """What desk-audit tells of the examples."""
    with open(os.path.join(EXAMPLES, "audited.messages"), encoding="utf-8") as file:
        return audit_of(desk, tmp_path / "audit.json", file.read())


@pytest.fixture
def used(desk: str, audit: str, tmp_path: Path) -> Tell:
    """What desk-used tells of a log, as JSON, and its status."""

    def run(text: str | bytes, *options: str, base: str = BASE) -> tuple[Any, int]:
        log = tmp_path / "told.log"
        log.write_bytes(text if isinstance(text, bytes) else text.encode())
        words = [os.path.join(ROOT, "tools", "desk-used"), "--desk", desk, "--json", "--year=2026"]
        ran = subprocess.run([*words, *options, audit, base, str(log)], capture_output=True)
        assert not ran.stderr, ran.stderr
        return json.loads(ran.stdout), ran.returncode

    return run


def test_each_form_of_a_line(tmp_path: Path) -> None:
    for head in HEADS:
        logs = read(tmp_path / "log", f"{head}{WAS}\n")
        ((done, moments),) = ran(logs)
        assert done[:3] == ("db1", "ann", "root") and done[4:] == ("/usr/bin/id", ("-u",)), head
        assert moments == [seconds("20260105092000Z")] and not logs.unread, head
    for head, unread in NO_USE:
        logs = read(tmp_path / "log", f"{head}{WAS}\n")
        assert not logs.runs and logs.count_unread == unread, (head, logs)
    for told, unread in OBJECTS:
        logs = read(tmp_path / "log", json.dumps(told) + "\n")
        assert len(logs.runs) == (not unread and "reject" not in told), told
        assert logs.count_unread == unread, told


def test_a_log_server_may_be_late(tmp_path: Path) -> None:
    late = EVENT | {"peeraddr": "10.0.0.1", "server_time": {"seconds": seconds("20260107000000Z")}}
    logs = read(tmp_path / "log", pretty(("accept", EVENT), ("accept", late)))
    moments = [seconds("20260105092000Z"), seconds("20260105091900Z")]
    assert [at for _, at in ran(logs)] == [moments]


PEERS = """\
# as in hosts(5)
10.0.0.1     db1.site.example db1
2001:db8::1  DB2  # in the other hall
10.0.0.9     relay db3 db4
"""


def test_root_on_one_host_does_not_speak_for_another(tmp_path: Path) -> None:
    """A log server says from where an event came, and its sender which host it is."""
    (tmp_path / "peers").write_text(PEERS)
    peers = Peers(str(tmp_path / "peers"))
    for host, address, is_its in (
        ("db1", "10.0.0.1", True),
        ("db1.evil.example", "10.0.0.1", True),
        ("db1", "::ffff:10.0.0.1", True),
        ("db2", "2001:DB8:0::1", True),
        ("db1", "10.0.0.2", False),
        ("db2", "10.0.0.1", False),
        ("db3", "10.0.0.9", True),
        ("none", "10.0.0.1", False),
        ("db1", "", False),
    ):
        logs = Logs(peers=peers)
        event = EVENT | {"submithost": host, "peeraddr": address}
        (tmp_path / "log").write_text(pretty(("accept", event)))
        read_log(logs, str(tmp_path / "log"), "", 2026)
        assert [len(logs.runs), logs.count_unread] == [is_its, not is_its], (host, address)
        for it in logs.unread:
            assert it.why == f"{address} sent it, which is no known address of {host}: see --peers"
    by_name = Peers()
    assert by_name.are("localhost", "127.0.0.1") and not by_name.are("localhost", "10.0.0.1")
    assert not by_name.are("no-such-host.invalid", "127.0.0.1")
    (tmp_path / "peers").write_text(f"{PEERS}db5 10.0.0.5\n")
    with pytest.raises(BadPeers, match="peers:5: db5 is no address"):
        Peers(str(tmp_path / "peers"))


def test_a_log_that_is_cut_anywhere(tmp_path: Path) -> None:
    """A cut log never has a run that the whole log has not, and says what it lost."""
    classic = "".join(f"{head}{WAS}{no}\n" for no, head in enumerate(HEADS))
    wrapped = "Jan  5 09:20:00 2026 : ann : HOST=db1 ; PWD=/ ; USER=root ;\n    COMMAND=/bin/id a\n"
    events = pretty(*[("accept", EVENT | {"runargv": ["id", str(no)]}) for no in range(3)])
    for text in (classic, wrapped * 2, events):
        whole = read(tmp_path / "log", text)
        assert not whole.unread
        for cut in range(0, len(text), 11):
            parts = [read(tmp_path / "log", it) for it in (text[:cut], text[cut:])]
            found = {run for it in parts for run in it.runs}
            assert found <= set(whole.runs), (text[:cut], found)
            count = sum(len(at) for it in parts for at in it.runs.values())
            is_whole = count == sum(map(len, whole.runs.values()))
            assert is_whole or any(it.count_unread for it in parts), text[:cut]


def test_random_bytes_are_read(tmp_path: Path) -> None:
    """A damaged log never stops the reader."""
    rng = random.Random(5)
    texts = [pretty(("accept", EVENT)), "".join(f"{it}{WAS}\n" for it in HEADS)]
    texts += [json.dumps(told) + "\n" for told, _ in OBJECTS]
    for _ in range(600):
        data = bytearray(rng.choice(texts).encode())
        for _ in range(rng.randint(1, 9)):
            data[rng.randrange(len(data))] = rng.choice(b"\x00\xff\n\\\"'{}[]: ;=0a\x1b")
        read(tmp_path / "log", bytes(data))


def test_rotated_logs(tmp_path: Path, used: Tell, desk: str, audit: str) -> None:
    """A folder of them, packed and not, one of them cut off."""
    folder = tmp_path / "logs"
    folder.mkdir()
    (folder / "sudo.log").write_text(f"{HEADS[0]}{WAS}\n")
    packed = gzip.compress(f"{HEADS[1]}{WAS} 2\n".encode() * 9)
    (folder / "sudo.log.2.gz").write_bytes(packed)
    (folder / "sudo.log.3.gz").write_bytes(packed[:-12])
    words = [os.path.join(ROOT, "tools", "desk-used"), "--desk", desk, "--json", audit, BASE]
    ran = subprocess.run([*words, f"db1={folder}"], capture_output=True, text=True)
    told = json.loads(ran.stdout)
    assert ran.returncode == 1 and told["logs"]["files"] == 3, ran
    (lost,) = told["logs"]["unread_lines"]
    assert lost["file"].endswith("3.gz") and "damaged" in lost["why"], lost
    assert told["grants"][0]["runs"] >= 10, told


def test_a_packed_log_that_is_damaged(tmp_path: Path) -> None:
    """What comes before is told, and that the rest is lost."""
    text = "".join(f"{HEADS[0]}{WAS} {no}\n" for no in range(50_000)).encode()
    for end, data in (("bz2", bz2.compress(text)), ("xz", lzma.compress(text))):
        packed = bytearray(data)
        packed[len(packed) // 2 :] = bytes(len(packed) - len(packed) // 2)
        path = tmp_path / f"log.{end}"
        path.write_bytes(packed)
        logs = Logs()
        read_log(logs, str(path), "db1", 2026)
        (lost,) = logs.unread
        assert lost.file == str(path) and lost.why.startswith("the rest is damaged: "), logs.unread
        assert 0 < len(logs.runs) < 50_000, (end, len(logs.runs))


def test_the_year_and_the_zone(tmp_path: Path, used: Tell) -> None:
    line = f"Jan  5 10:20:00 db1 sudo: ann : {WAS}\n"
    told, _ = used(line, "--zone", "Europe/Berlin")
    assert told["runs"][0]["first"] == "20260105092000Z" and told["runs"][0]["ground"] == "grant"
    path = tmp_path / "old"
    path.write_text(line)
    os.utime(path, (seconds("20240110000000Z"),) * 2)
    logs = Logs()
    read_log(logs, str(path), "", 0)
    assert [list(it) for it in logs.runs.values()] == [[seconds("20240105102000Z")]]


def line(at: str, text: str, user: str = "ann", host: str = "db1") -> str:
    day = f"{at[:4]}-{at[4:6]}-{at[6:8]}T{at[8:10]}:{at[10:12]}:{at[12:14]}Z"
    return f"{day} {host} sudo: {user} : PWD=/ ; USER={text}\n"


def test_windows_and_clocks(used: Tell) -> None:
    """The window's bounds belong to it; a clock that is off is borne with --skew."""
    ids = "root ; COMMAND=/usr/bin/id"
    at = ("20260105091459Z", "20260105091500Z", "20260105102959Z", "20260105103000Z")
    text = "".join(line(it, ids) for it in at)
    told, status = used(text)
    assert sorted((it["ground"], it["runs"]) for it in told["runs"]) == [
        ("grant", 2),
        ("neither", 1),
        ("neither", 1),
    ]
    assert sorted(it["why"] for it in told["runs"] if it["ground"] == "neither") == [
        "ann 7 had not begun",
        "ann 7 was over",
    ]
    assert status == 1 and [it["first"] for it in told["after_revocation"]] == [at[3]]
    told, status = used(text, "--skew", "1")
    assert [it["ground"] for it in told["runs"]] == ["grant"] and status == 0
    told, _ = used(text, "--from", at[1], "--until", at[1])
    assert [(it["runs"], it["first"]) for it in told["runs"]] == [(1, at[1])]


def test_grounds(used: Tell) -> None:
    """The base, another target, another's name in capitals, a group, and root itself."""
    at = "20260105092000Z"
    rows = (
        ("dba", "postgres ; COMMAND=/usr/bin/psql -c 'select 1'", "base"),
        ("dba", "root ; COMMAND=/usr/bin/psql", "neither"),
        ("ann", "postgres ; COMMAND=/usr/bin/id", "neither"),
        ("ANN", "root ; COMMAND=/usr/bin/id", "neither"),
        ("dba", "postgres ; GROUP=daemon ; COMMAND=/usr/bin/who", "neither"),
        ("ann", "root ; COMMAND=/usr/bin/systemctl restart postgresql", "grant"),
        ("ann", "root ; COMMAND=/usr/bin/systemctl restart postgresql -f", "neither"),
        ("ann", "root ; COMMAND=/usr/bin/systemctl 'restart postgresql'", "grant"),
        ("root", "postgres ; COMMAND=/usr/bin/x", "root"),
    )
    text = "".join(line(at, text, user) for user, text, _ in rows)
    told, status = used(text + line(at, "root ; COMMAND=list /usr/bin/id"))
    found = {(it["by"], it["runas"], it["command"]): it["ground"] for it in told["runs"]}
    wanted = {
        (user, text.split(" ; ")[0], text.partition("COMMAND=")[2]): ground
        for user, text, ground in rows
    }
    assert found == wanted and status == 1
    assert used(line(at, rows[0][1], rows[0][0]))[1] == 0


def test_a_grant_without_a_log_is_not_unused(used: Tell) -> None:
    told, _ = used(line("20260105092000Z", "root ; COMMAND=/usr/bin/id", host="web1"))
    assert [it["status"] for it in told["grants"]] == ["no log"]
    told, _ = used(line("20260105092000Z", "root ; COMMAND=/usr/bin/ls"))
    assert [it["status"] for it in told["grants"]] == ["unused"]
    assert told["grants"][0]["never"] == ["/usr/bin/id", "/usr/bin/systemctl restart postgresql"]


def test_hostile_words(used: Tell) -> None:
    """Whatever a user writes, nothing that a terminal obeys is printed."""
    event = EVENT | {"runargv": ["id", "\x1b[2J", "a\nb", "\u202e", "\x9b", "\udcff"]}
    event |= {"submituser": "an\x1bn", "submithost": "db\x071"}
    text = pretty(("accept", event), ("accept", EVENT))
    told, status = used(text.encode("utf-8", "surrogateescape"))
    assert told["runs"] and all(it["command"].isprintable() for it in told["runs"])
    assert all(it["by"].isprintable() and it["host"].isprintable() for it in told["runs"])


def test_json_is_by_its_schema(used: Tell) -> None:
    with open(os.path.join(ROOT, "tools", "schemas", "used.schema.json"), "rb") as file:
        schema = json.load(file)
    options = ("--unused-for", "30", "--baseline", "/dev/null", "--roster", ROSTER)
    for text in ("", "no log\n", line("20260105103000Z", "root ; COMMAND=/usr/bin/id -u")):
        told, _ = used(text, *options)
        jsonschema.validate(told, schema)
    assert told["after_revocation"]
    with pytest.raises(jsonschema.ValidationError):
        jsonschema.validate(told | {"runs": [{}]}, schema)


def test_standing_rights(used: Tell, tmp_path: Path) -> None:
    """Which rule decided, by the last one that speaks; and what each user has beyond none."""
    listed = "ann db1 = (root) /usr/bin/ls"
    rules = ["OPS ALL = (op) ALL", listed, f"{listed} -l", "ann db1 = !/bin/x"]
    base = tmp_path / "base.sudo"
    base.write_text("User_Alias OPS = olga, omar\n" + "".join(f"{it}\n" for it in rules))
    text = line("20260105092000Z", "root ; COMMAND=/usr/bin/ls -l")
    text += line("20251105092000Z", "op ; COMMAND=/usr/bin/x", user="olga")
    options = ("--unused-for", "30", "--baseline", "/dev/null")
    told, _ = used(text, *options, base=str(base))
    assert told["unused_rules"] == [
        {"rule": rules[0], "last": "20251105092000Z"},
        {"rule": rules[1]},
    ]
    found = {it["user"]: it.get("witness") for it in told["beyond"]}
    assert found.pop("other0") is None and list(found) == ["ann", "olga", "omar"]
    assert found["ann"] == "ann db1 root 19700101000000Z /usr/bin/ls", found


def test_a_narrower_ceiling(used: Tell, lint: Program, tmp_path: Path) -> None:
    """The proposal, in the ceiling's place, is a roster without faults."""
    text = line("20260105092000Z", "root ; COMMAND=/usr/bin/id")
    options = ("--roster", ROSTER, "--until", "20260201000000Z")
    (told,) = used(text, *options)[0]["ceilings"]
    assert (told["grants"], told["unused"], told["no_log"]) == (1, 0, 0)
    ceiling = tomllib.loads(told["proposal"])["ceilings"]["db-care"]
    assert (ceiling["hosts"], ceiling["runas"]) == (["db1"], ["root"])
    assert ceiling["commands"] == ["/usr/bin/id"] and ceiling["longest"] == 7200
    (person,) = told["persons"]
    assert (person["by"], person["used_commands"], person["used_hosts"]) == (
        "ann",
        ["/usr/bin/id"],
        ["db1"],
    )
    assert person["commands"] == ["/usr/bin/id", "/usr/bin/systemctl restart postgresql"]
    assert not told["warnings"]
    with open(ROSTER, encoding="utf-8") as file:
        head, _, rest = file.read().partition("[ceilings.db-care]")
    made = tmp_path / "roster.toml"
    after = rest[rest.index("[ceilings.db-emergency]") :]
    made.write_text(head + told["proposal"] + after)
    assert lint(str(made)).returncode == 0, lint(str(made)).stdout
    text = line("20260105092000Z", "root ; COMMAND=/bin/x")
    (told,) = used(text, *options)[0]["ceilings"]
    assert told["proposal"].startswith("# No grant of db-care was used")


def test_what_was_seen_is_proposed() -> None:
    """ALL and a folder become what was run, with its arguments; a file stays as it is."""
    many: set[tuple[str, ...]] = {("/usr/bin/a", str(it)) for it in range(17)}
    rows: tuple[tuple[str, set[tuple[str, ...]], list[str]], ...] = (
        ("ALL", {("/usr/bin/systemctl", "restart", "pg")}, ["/usr/bin/systemctl restart pg"]),
        ("/usr/bin/", {("/usr/bin/id",)}, ['/usr/bin/id ""']),
        ("ALL", {("/usr/bin/a", "x=1"), ("/usr/bin/b",)}, ["/usr/bin/a x\\=1", '/usr/bin/b ""']),
        # no roster can write an argument with a blank, and seventeen are too many
        ("ALL", {("/usr/bin/a", "x y"), ("/usr/bin/b",)}, ["/usr/bin/a", "/usr/bin/b"]),
        ("ALL", many, ["/usr/bin/a"]),
        ("ALL", {(f"/usr/bin/a{it}",) for it in range(17)}, ["ALL"]),
        ("ALL", {("/usr/bin/sudoedit", "x")}, ["ALL"]),
        ("/usr/bin/id", {("/usr/bin/id", "-u")}, ["/usr/bin/id"]),
    )
    for command, seen, wanted in rows:
        assert narrowed(command, seen) == wanted, command
    roster = tomllib.loads(Path(ROSTER).read_text(encoding="utf-8"))
    text = f"[ceilings.db-care]\n{care(roster, ['/usr/bin/vi /etc/motd'])}"
    (said,) = linted(roster, "db-care", text, "20260101")
    assert said.startswith("/usr/bin/vi /etc/motd: an editor "), said


def care(roster: dict[str, Any], commands: list[str]) -> str:
    """The ceiling db-care with other commands, as text."""
    rows = roster["ceilings"]["db-care"] | {"commands": commands}
    return "".join(f"{key} = {json.dumps(value)}\n" for key, value in rows.items())


def test_what_made_it(used: Tell, audit: str) -> None:
    """The digests are those of the files that were read."""
    text = line("20260105092000Z", "root ; COMMAND=/usr/bin/id")
    told = used(text, "--from", "20260101000000Z", "--roster", ROSTER)[0]["made"]
    assert told["program"] == "desk-used" and told["from"] == "20260101000000Z"
    digests = {it["what"].partition(" ")[0]: it["sha256"] for it in told["read"]}
    for what, path in (("audit", audit), ("base", BASE), ("roster", ROSTER)):
        assert digests[what] == hashlib.sha256(Path(path).read_bytes()).hexdigest(), what
    assert digests["log"] == hashlib.sha256(text.encode()).hexdigest()


def test_what_stands_for_others_is_decided_alike(desk: str, tmp_path: Path) -> None:
    """A word that a policy does not have is decided as any other such word."""
    program, rng = Desk(desk, str(tmp_path)), random.Random(4)
    policy = program.policy(program.canonical(os.path.join(EXAMPLES, "team.sudo")))
    users, hosts, targets = ("olga", "omar", "kim"), ("db1", "web2", "mail"), ("root", "www", "op")
    paths = ("/usr/bin/uptime", "/usr/bin/systemctl", "/usr/local/sbin/x", "/usr/local/sbin", "/x")
    args = ((), ("-n", "50"), ("restart", "nginx"), ("-x", "a,b"))
    parts: tuple[Any, ...] = (users, hosts, targets, paths, args)
    rows: list[Any] = [
        ("olga", "mail", "root", "/usr/local/sbin/any", ("-x",)),
        ("omar", "mail", "www", "/usr/bin/uptime", ()),
        ("omar", "mail", "www", "/usr/bin/uptime", ("-x",)),
        ("olga", "web2", "root", "/usr/bin/systemctl", ("restart", "nginx")),
        *([rng.choice(part) for part in parts] for _ in range(12)),
    ]
    seen = set()
    for row in rows:
        asked = Invocation(*row)
        question = Question(policy, "20260105092000Z", asked)
        answer = program.decide(question)
        assert answer == program.decide(question._replace(asked=policy.general(asked))), asked
        seen.add(answer)
    assert seen == {True, False}


def test_wrong_words(desk: str, audit: str, tmp_path: Path) -> None:
    words = [os.path.join(ROOT, "tools", "desk-used"), "--desk", desk]
    log = tmp_path / "log"
    log.write_text("")
    for rest, said in (
        ([BASE, BASE, str(log)], "it is not what desk-audit --json prints"),
        ([audit, audit, str(log)], "audit.json: S"),
        ([audit, BASE, "/nowhere\x1b"], "/nowhere\\x1b: No such file"),
        (["--zone", "Mars/Base", audit, BASE, str(log)], "there is no zone Mars/Base"),
        (["--baseline", "/nowhere", audit, BASE, str(log)], "/nowhere: F1"),
        (["--from", "2026", audit, BASE, str(log)], "a moment is"),
        (["--desk", "/nowhere", audit, BASE, str(log)], "there is no program /nowhere"),
    ):
        ran = subprocess.run([*words, *rest], capture_output=True, text=True)
        assert ran.returncode == 2 and not ran.stdout and said in ran.stderr, (rest, ran)


def test_a_hundred_thousand_lines(desk: str, audit: str, tmp_path: Path) -> None:
    """As many lines take a tenth of what a million may: three seconds, on a machine that is not
    busy with others; and a busy one takes twice that."""
    log = tmp_path / "log"
    with open(log, "w", encoding="ascii") as file:
        for no in range(100_000):
            second, minute = no % 60, no // 60 % 60
            head = f"2026-01-05T{9 + no % 3:02}:{minute:02}:{second:02}Z db{1 + no % 2} sudo: "
            file.write(f"{head}{'dba' if no % 3 else 'ann'} : TTY=pts/{no % 9} ; PWD=/home ; ")
            file.write(f"USER={'postgres' if no % 3 else 'root'} ; ")
            file.write(f"COMMAND=/usr/bin/id {no % 999}\n")
    words = [os.path.join(ROOT, "tools", "desk-used"), "--desk", desk, "--json", audit, BASE]
    before = resource.getrusage(resource.RUSAGE_CHILDREN).ru_utime
    ran = subprocess.run([*words, str(log)], capture_output=True)
    took = resource.getrusage(resource.RUSAGE_CHILDREN).ru_utime - before
    told = json.loads(ran.stdout)
    print(f"100,000 lines: {took:.1f} s")
    assert sum(it["runs"] for it in told["runs"]) == 100_000 and took < 10, took


def test_beside_sudo(desk: str) -> None:
    """Real runs on two hosts, in each way that sudo logs."""
    ran = subprocess.run([sys.executable, BESIDE], capture_output=True, text=True)
    print(ran.stdout[-300:])
    assert ran.returncode == 0, ran.stdout[-6000:] + ran.stderr[-2000:]


@pytest.mark.parametrize("script", ["beside_logs_that_fail.py", "beside_journal.py"])
def test_beside_logs_that_lose(desk: str, script: str) -> None:
    """Beside the real sudo, journald and rsyslogd, where something is not written."""
    words = [sys.executable, os.path.join(ROOT, "tools", "tests", script)]
    told = subprocess.run(words, env=os.environ | {"DESK": desk}, capture_output=True, text=True)
    assert told.returncode == 0, (told.stdout, told.stderr)


LOSSES = (
    ("systemd-journald[9]: Suppressed 12 messages from session-3.scope", "Suppressed 12 messages"),
    ("systemd-journald[9]: Forwarding to syslog missed 3 messages.", "Forwarding to syslog missed"),
    ("systemd-journald: Failed to write entry (22 items, 700 bytes), ignoring: No", "Failed to wr"),
    ("rsyslogd: imuxsock[pid: 28, name: x]: 25 messages lost due to rate-limiting (5", "25 messag"),
    ("rsyslogd: imuxsock[pid: 28] from <db1:sudo>: begin to drop messages due to rate", "begin to"),
    ("rsyslogd[1]: file '/var/log/auth.log'[7] write error - see https", "write error - see"),
    ("rsyslogd: action 'action-1-builtin:omfile' (module 'x') message lost, could", "message lost"),
)
NO_LOSSES = (
    "systemd-journald[9]: Journal started",
    "rsyslogd: [origin software=x] start",
    "myprogram: Suppressed 12 messages from session-3.scope",
    "sshd[3]: rsyslogd: write error",
)


def test_lines_that_a_log_says_it_lost(tmp_path: Path, used: Tell) -> None:
    """What may be missing is unread, on the host that says it."""
    run = f"{HEADS[0]}{WAS}\n"
    for said, shown in LOSSES:
        for host in ("db1 ", ""):
            logs = read(tmp_path / "log", f"{run}Jan  5 09:21:00 {host}{said}\n")
            assert len(logs.runs) == 1 and logs.count_unread == 1, said
            why = logs.unread[0].why
            assert why.startswith(f"lines of {host.strip() or 'its host'} are lost: "), why
            assert shown in why, why
        program, _, words = said.partition(": ")
        entry = OF_NOBODY | {"SYSLOG_IDENTIFIER": program.partition("[")[0], "MESSAGE": words}
        logs = read(tmp_path / "log", json.dumps(entry) + "\n")
        assert [it.why for it in logs.unread] == [why.replace("its host", "db1")], said
    for said in NO_LOSSES:
        logs = read(tmp_path / "log", f"{run}Jan  5 09:21:00 db1 {said}\n")
        assert len(logs.runs) == 1 and not logs.count_unread, said
    told, status = used(f"{run}Jan  5 09:21:00 db1 {LOSSES[0][0]}\n")
    assert status == 1 and told["logs"]["unread"] == 1, told


def test_a_line_whose_end_was_not_written(tmp_path: Path) -> None:
    """The next one begins in its middle: neither is anybody's."""
    for head in (HEADS[0], HEADS[6]):
        first, second = f"{head}{WAS}", f"{head.replace('ann', 'bob')}{WAS}"
        for cut in range(len(head), len(first)):
            logs = read(tmp_path / "log", f"{first[:cut]}{second}\n")
            assert not logs.runs and logs.count_unread == 1, (first[:cut], logs)


def test_grants_are_those_of_the_audit(audit: str) -> None:
    with open(audit, encoding="utf-8") as file:
        (grant,) = grants_of(json.load(file))
    assert (grant.by, grant.no, grant.revoked) == ("ann", 7, seconds("20260105103000Z"))


def test_a_command_that_syslog_splits(tmp_path: Path) -> None:
    """A command's pieces are joined, whatever lines of others come between; a piece is no run."""
    text = line("20260105092000Z", "root ; COMMAND=/usr/bin/id a").rstrip("\n")
    more = text.partition(" : ")[0] + " : (command continued) "
    other = line("20260105092001Z", "root ; COMMAND=/usr/bin/id x", user="kim")
    whole = line("20260105092002Z", "root ; COMMAND=/usr/bin/id")
    pieces = f"{more}b c\n{more}{'d' * 950}\n{more}d e\n"
    logs = read(tmp_path / "log", f"{text}\n{other}{pieces}{whole}")
    found = {done.args for done, _ in ran(logs) if done.user == "ann"}
    assert found == {("a", "b", "c", "d" * 951, "e"), ()} and not logs.unread, found
    logs = read(tmp_path / "log", f"{whole}{text} ; COMMAND=/bin/x\n{more}b\n{more}c\n")
    assert len(logs.runs) == 1 and logs.count_unread == 1, logs


def forged(seconds: str, kind: str = "accept") -> str:
    """What `logger -t sudo` leaves in syslog, by any account."""
    event = f'"server_time":{{"seconds":{seconds}}},"submithost":"db1","submituser":"ann"'
    event += ',"command":"/bin/ls"'
    return f'2026-01-05T09:20:00Z db1 sudo: @cee:{{"sudo":{{"{kind}":{{{event}}}}}}}\n'


# no second from 1970 to 2099
NO_SECONDS = (
    "9999999999999999999999",
    "99999999999999999999",
    "9000000000000000000",
    "90000000000000000",
    "253402300800",
    "5000000000",
    "4102444800",
    "-1",
    "-9999999999999999999999",
    "1e400",
)


def test_no_moment_ends_the_report(tmp_path: Path, used: Tell) -> None:
    """A moment that no clock showed is unread, with its line; all else is told."""
    real = line("20260105092000Z", "root ; COMMAND=/usr/bin/id")
    for no in NO_SECONDS:
        told, status = used(real + forged(no) + real + forged(no, "reject") + real)
        assert status == 1 and told["grants"][0]["runs"] == 3, (no, told)
        unread = [(it["line"], it["why"]) for it in told["logs"]["unread_lines"]]
        assert unread == [(it, "its moment is out of range") for it in (2, 4)], (no, unread)
        assert len(told["runs"]) == 1 and not told["logs"]["refused"], (no, told)


def test_a_moment_out_of_range_in_each_form(tmp_path: Path) -> None:
    lines = [f"2{year}-01-05T09:20:00Z db1 sudo: ann : {WAS}\n" for year in ("100", "999")]
    lines += [f"{year}-01-05T09:20:00Z db1 sudo: ann : {WAS}\n" for year in ("0001", "9999")]
    lines += [f"Jan  5 09:20:00 {it} : ann : HOST=db1 ; {WAS}\n" for it in (1969, 2100, 9999)]
    for no in NO_SECONDS:
        clock: dict[str, Any] = {"server_time": {"seconds": json.loads(no)}}
        late: dict[str, Any] = {"peeraddr": "10.0.0.1", "submit_time": clock["server_time"]}
        for kind in ("accept", "reject"):
            lines += [json.dumps({kind: EVENT | it}) + "\n" for it in (clock, late)]
            lines += [pretty((kind, EVENT | it)) for it in (clock, late)]
        for name in ("__REALTIME_TIMESTAMP", "_SOURCE_REALTIME_TIMESTAMP"):
            lines.append(json.dumps(ENTRY | {name: f"{no}000000"}) + "\n")
    for text in lines:
        logs = read(tmp_path / "log", text)
        assert not logs.runs and not logs.refused and logs.count_unread == 1, (text, logs)
        if "1e400" not in text:
            assert logs.unread[0].why == "its moment is out of range", (text, logs)
    path = tmp_path / "log"
    for text in (f"2099-12-31T23:59:59Z db1 sudo: ann : {WAS}\n", forged("0")):
        assert len(read(path, text).runs) == 1
    odd = forged("7").replace('"command"', '"runargv":"id","command"')
    for text in (forged("7", "other"), odd, f"{AT} db1 sudo: @cee:{{\"sudo\":{{}}}}\n"):
        assert not (logs := read(path, text)).runs and logs.count_unread == 1, logs
    path.write_text(f"Jan  5 09:20:00 db1 sudo: ann : {WAS}\n")
    os.utime(path, (1 << 33,) * 2)
    logs = Logs()
    read_log(logs, str(path), "", 0)
    assert [list(it) for it in logs.runs.values()] == [[seconds("20990105092000Z")]]


def test_a_line_of_the_future_is_no_end_of_a_log(used: Tell) -> None:
    """A log that ended before the grant says nothing of it, whatever somebody wrote into it."""
    before = line("20260104092000Z", "postgres ; COMMAND=/usr/bin/who", user="dba")
    options = ("--unused-for", "30")
    for text in (before, before + forged("4000000000"), before + forged("4000000000", "reject")):
        told, _ = used(text, *options)
        assert [it["status"] for it in told["grants"]] == ["no log"], (text, told)
        assert not told["grants"][0]["never"] and told["unused_since"] == "20251205092000Z"
    told, _ = used(forged("4000000000"))
    assert [it["status"] for it in told["grants"]] == ["no log"]
    assert told["logs"]["hosts"][0]["last"] == "20961002070640Z"


def asked(no: int, first: str, until: str, **verdicts: str) -> str:
    """A request of ann's for id as root on db1, with bob's approval and carol's revocation."""
    request = {"at": "20260101000000Z", "by": "ann", "ceiling": "db-care", "from": first}
    request |= {"kind": "request", "runas": "root", "until": until}
    told: list[dict[str, Any]] = [{**request, "cmnds": ["/usr/bin/id"], "hosts": ["db1"], "no": no}]
    for kind, by in (("approve", "bob"), ("revoke", "carol")):
        if kind in verdicts:
            told.append({"at": verdicts[kind], "by": by, "kind": kind, "no": no, "of": "ann"})
    texts = (json.dumps(it, separators=(",", ":"), sort_keys=True) for it in told)
    return "".join(f"{it}\n" for it in texts)


IDS = "root ; COMMAND=/usr/bin/id"
ALLOWED = "ann ALL = (root) /usr/bin/id\n"


def late_of(told: Any) -> list[tuple[int, str, int, str]]:
    late = told["after_revocation"]
    return [(it["no"], it["status"], it["runs"], it["first"]) for it in late]


def test_a_run_late_enough_for_the_time_asked_about(
    used: Tell, desk: str, tmp_path: Path, audit: str
) -> None:
    """The grant was over before --from, by its revocation; it was asked for until after that."""
    window = ("20260105230000Z", "20260106003000Z")
    given = {"approve": "20260102000000Z", "revoke": "20260105235950Z"}
    audit_of(desk, Path(audit), asked(9, *window, **given))
    base = tmp_path / "base.sudo"
    base.write_text(ALLOWED)
    runs = ("20260106000020Z", "20260106003000Z", "20260106003001Z")
    text = "".join(line(it, IDS) for it in runs)
    wanted = [(9, "granted", 2, runs[0])]
    for options in ((), ("--from", "20260106000000Z"), ("--skew", "30")):
        told, status = used(text, *options, base=str(base))
        assert late_of(told) == wanted and status == 1, (options, told)
        assert told["after_revocation"][0]["until"] == "20260105235949Z"
        assert not told["grants"] or not options or options[0] != "--from", told
    told, _ = used(text, "--skew", "31", base=str(base))
    assert late_of(told) == [(9, "granted", 1, runs[1])]


def test_a_run_after_a_grant_was_revoked_before_it_began(
    used: Tell, desk: str, tmp_path: Path, audit: str
) -> None:
    """Such a grant has no window; a request that nobody approved in time was on no host."""
    window = ("20260105130000Z", "20260105140000Z")
    revoke = "20260105120000Z"
    rows = (
        asked(1, *window, approve="20260105060000Z", revoke=revoke),
        asked(2, *window, revoke=revoke),
        asked(3, *window, approve="20260105140001Z", revoke=revoke),
        asked(4, *window, approve="20260105060000Z"),
    )
    base = tmp_path / "base.sudo"
    base.write_text(ALLOWED)
    text = "".join(line(f"20260105{it}Z", IDS) for it in ("125959", "130000", "140000", "140001"))
    for messages, wanted in (
        (rows[0], [(1, "void", 2, window[0])]),
        (rows[1], []),
        (rows[2], []),
        (rows[3], []),
        ("".join(rows), [(1, "void", 2, window[0])]),
    ):
        audit_of(desk, Path(audit), messages)
        told, status = used(text, base=str(base))
        assert late_of(told) == wanted and status == (1 if wanted else 0), (messages, told)
    log = tmp_path / "told.log"
    words = [os.path.join(ROOT, "tools", "desk-used"), "--desk", desk, audit, str(base), str(log)]
    ran = subprocess.run(words, capture_output=True, text=True)
    said = f"ann 1 on db1, not yet in force at 20260105115959Z: twice, {window[0]} to {window[1]}\n"
    assert f"AFTER REVOCATION\n{said}  /usr/bin/id\nREFUSED\n" in ran.stdout, ran.stdout


# hosts that a collector names by their addresses
ADDRESSES = ("2001:db8::1", "fe80::1%eth0", "::ffff:10.0.0.1", "10.0.0.1", "db1.example:514")
AT = "2026-01-05T09:20:00Z"
EVENT_SAID = f'@cee:{json.dumps({"sudo": {"accept": EVENT}})}'
# what is sudo's, or may be, and is in no form that is known
UNCLEAR = (
    f"{AT} db1: sudo:  ann : {WAS}",
    f"{AT} 2001:db8:: sudo:  ann : {WAS}",
    f"{AT} db1 authpriv.notice sudo:  ann : {WAS}",
    f"Jan  5 09:20:00 db1 auth|security:notice sudo[12]: ann : {WAS}",
    f"{AT} db1 /usr/bin/sudo[12]: ann : {WAS}",
    f"{AT} db1 sudo_logsrvd[1]: ann : HOST=db1 ; {WAS}",
    f"{AT} db1 sudo_logsrvd[1]: {EVENT_SAID}",
    f"<86>1 {AT} db1 sudo_logsrvd 1 - - ann : HOST=db1 ; {WAS}",
    f"{AT} db1 sudo : ann : {WAS}",
    f"{AT} sudo_logsrvd[1]: {EVENT_SAID}",
    f"{AT} db1 x sudo: ann : {WAS}",
    json.dumps(ENTRY | {"SYSLOG_IDENTIFIER": "sudo_logsrvd"}),
    json.dumps(ENTRY | {"SYSLOG_IDENTIFIER": "sudo_logsrvd", "MESSAGE": EVENT_SAID}),
)
# another program's, whatever it says; and what tells of no run
OTHERS = (
    f"{AT} db1 sshd[3]: sudo: ann : {WAS}",
    f"{AT} 2001:db8::1 sshd: sudo: ann : {WAS}",
    f"{AT} sshd[3]: sudo: ann : {WAS}",
    f"<86>1 {AT} 2001:db8::1 sshd 12 - - sudo: ann : {WAS}",
    f"{AT} db1 auth.notice sshd[3]: sudo: ann : {WAS}",
    f"{AT} db1 cron[3]: (root) CMD (sudo {WAS})",
    f"{AT} db1 sudo_logsrvd[1]: connected",
    f"{AT} db1 authpriv.info sudo: pam_unix(sudo:session): session opened",
    json.dumps(ENTRY | {"SYSLOG_IDENTIFIER": "sshd", "MESSAGE": f"sudo: ann : {WAS}"}),
    json.dumps(ENTRY | {"SYSLOG_IDENTIFIER": "sudo_logsrvd", "MESSAGE": "connected"}),
)


def test_a_host_by_its_address(tmp_path: Path) -> None:
    for host in ADDRESSES:
        for text in (
            f"{AT} {host} sudo:  ann : {WAS}\n",
            f"{AT} {host} sudo[12]: {EVENT_SAID}\n",
            f"<86>1 {AT} {host} sudo 12 - - ann : {WAS}\n",
            f"<85>Jan  5 09:20:00 {host} sudo: ann : {WAS}\n",
        ):
            logs = read(tmp_path / "log", text, "db1")
            ((done, moments),) = ran(logs)
            assert done[:3] == ("db1", "ann", "root") and not logs.unread, (text, logs)
            assert moments == [seconds("20260105092000Z")], text
        logs = read(tmp_path / "log", f"{AT} {host} sudo:  ann : {WAS}\n")
        assert [done.host for done, _ in ran(logs)] == ["db1" if "db1" in host else host]


def test_a_form_that_is_not_known_is_unread(tmp_path: Path, used: Tell) -> None:
    """No run of sudo's is passed over in silence; nor is another program's line taken for one."""
    for text in UNCLEAR:
        logs = read(tmp_path / "log", f"{text}\n", "db1")
        assert not logs.runs and [it.why[:6] for it in logs.unread] == ["it may"], (text, logs)
    for text in OTHERS:
        logs = read(tmp_path / "log", f"{text}\n", "db1")
        assert not logs.runs and not logs.refused and not logs.unread, (text, logs)
    logs = read(tmp_path / "log", f"{HEADS[0]}{WAS}\n{HEADS[0][:31]}")
    assert len(logs.runs) == 1 and [it.why for it in logs.unread] == ["it is cut off"], logs
    told, status = used("".join(f"{it}\n" for it in UNCLEAR[:-2]))
    assert status == 1 and told["logs"]["unread"] == len(UNCLEAR) - 2, told
    assert used("".join(f"{it}\n" for it in OTHERS[:-2]))[1] == 0


def test_a_roster_of_toml_1_1(used: Tell, tmp_path: Path) -> None:
    """A table may stand over several lines, as a desk reads it; a fault is told with its line."""
    with open(ROSTER, encoding="utf-8") as file:
        text = file.read()
    roster = tmp_path / "roster.toml"
    roster.write_text(newer(text))
    with pytest.raises(tomllib.TOMLDecodeError):
        tomllib.loads(newer(text))
    log = line("20260105092000Z", IDS)
    options = ("--until", "20260201000000Z", "--roster")
    (told, status), (wanted, same) = used(log, *options, str(roster)), used(log, *options, ROSTER)
    assert told.pop("made") != wanted.pop("made") and (told, status) == (wanted, same)
    roster.write_text(text + "\n]")
    with pytest.raises(AssertionError, match=f"roster.toml:{text.count(chr(10)) + 2}: a key is"):
        used(log, *options, str(roster))


def start(when: str, command: str = "/usr/bin/id", **more: Any) -> str:
    """A line of `desk-host starts`."""
    told = {"form": 1, "at": seconds(when), "name": "7-9", "user": "ann", "runas": "root"}
    return json.dumps(told | {"command": command, "words": ["id", "-u"], "boot": "b"} | more) + "\n"


def test_a_start_without_a_line(used: Tell, tmp_path: Path) -> None:
    with open(os.path.join(ROOT, "tools", "schemas", "used.schema.json"), "rb") as file:
        schema = json.load(file)
    moments = ("20260105092000Z", "20260105094000Z")
    log = "".join(line(it, "root ; COMMAND=/usr/bin/id -u") for it in moments)
    kept = tmp_path / "starts"
    for text, unlogged, lost in (
        (start("20260105092001Z") + start("20260105093959Z"), [], 0),
        # (one that is there twice, since a run was killed; a prompt that was open before; and what
        # came before the log)
        (start("20260105092001Z") * 2 + start("20260105094300Z"), [], 0),
        (start("20260105091000Z") + start("20260105092000Z"), [], 0),
        # (between two that have a line; another command; another user; more than there are lines)
        (
            start("20260105092001Z") + start("20260105093000Z") + start("20260105094000Z"),
            ["20260105093000Z"],
            0,
        ),
        (start("20260105092000Z", "/usr/bin/env"), ["20260105092000Z"], 0),
        (start("20260105092000Z", user="bob"), ["20260105092000Z"], 0),
        # (an edit, which a log may have as a run of the editor)
        (start("20260105092000Z", edit=True), [], 0),
        (start("20260105092000Z", "/usr/bin/vi", edit=True), ["20260105092000Z"], 0),
        (start("20260105095900Z"), ["20260105095900Z"], 0),
        ('{"at": 7, "lost": "lines of starts were lost"}\n', [], 1),
        ("[]\n{\n" + start("20260105092000Z", words=7), [], 3),
        (start("20260105092000Z", at=10**15), [], 1),
    ):
        kept.write_text(text)
        for word in (f"--starts=db1={kept}", f"--starts={kept}"):
            told, status = used(log, word)
            assert [it["at"] for it in told["unlogged"]] == unlogged, text
            assert len(told["starts_lost"]) == lost, text
            assert status == (1 if unlogged or lost else 0), text
            jsonschema.validate(told, schema)
