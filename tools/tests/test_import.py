"""desk-import: the base of sudoers files, what stays on the host, and what is said of each rule."""

from __future__ import annotations

import os
import platform
import re
import shutil
import subprocess
import sys
import time
from collections.abc import Callable
from itertools import product
from pathlib import Path

import pytest

from desk_tools import comparing, machine
from tests.common import others_sudoers
from conftest import ROOT, Run

BESIDE = os.path.join(ROOT, "tools", "tests", "beside_sudo.py")
NEVER_WIDER = os.path.join(ROOT, "tools", "tests", "never_wider.py")
GROUP = "wheel:x:3001:ann,bob\nops:x:3002:\nodd:x:3003:Ann\ntwin:x:3004:ann\nother:x:3004:\nnone:x:3005:\n"
PASSWD = "root:x:0:0::/:/bin/sh\nann:x:2001:2001::/:/bin/sh\nkim:x:2002:3002::/:/bin/sh\n"
FILES, MORE = "passwd: files\ngroup: files\n", "passwd: files sss\ngroup: files sss\n"
NINE = "NOTBEFORE=20260105090000Z NOTAFTER=20260105090000Z"

Make = Callable[..., tuple[str, list[str]]]


@pytest.fixture
def folder(tmp_path: Path) -> Path:
    """A copy of the /etc of a host with three users and five groups, which has them in files."""
    found = tmp_path / "etc"
    found.mkdir()
    for name, text in (("group", GROUP), ("passwd", PASSWD), ("nsswitch.conf", FILES)):
        (found / name).write_text(text)
    return found


@pytest.fixture
def made(imports: Run, desk: str, folder: Path, tmp_path: Path) -> Make:
    """The base of a text, as the file of the host db1 or of all hosts, and what is told."""

    def make(text: str, *words: str, status: int | None = None) -> tuple[str, list[str]]:
        source = folder / "sudoers"
        source.write_text(text)
        which = [str(source)] if "--all-hosts" in words else ["--host", f"db1={folder}"]
        ran = imports("--desk", desk, *which, "--rest", str(tmp_path / "rest"), *words)
        assert status is None or ran.returncode == status, ran.stderr
        return ran.stdout, ran.stderr.replace(str(source), "sudoers").splitlines()

    return make


@pytest.mark.parametrize(
    ("text", "base"),
    [
        ("ann ALL = /bin/ls\n", "ann db1 = (root) /bin/ls\n"),
        (
            "ann db1 = (op) NOPASSWD: /bin/ls, PASSWD: /bin/kill -9 1 : ALL, !db1 = ALL",
            "ann db1 = (op) NOPASSWD: /bin/ls\nann db1 = (op) /bin/kill -9 1\n",
        ),
        ("User_Alias B = ann\nB ALL = ALL\n", "User_Alias DESK_B = ann\nDESK_B db1 = (root) ALL\n"),
        (
            "A DB1 = /bin/ls\nUser_Alias A = B, !bob\nUser_Alias B = ann\n",
            "User_Alias DESK_B = ann\nUser_Alias DESK_A = DESK_B, !bob\nDESK_A db1 = (root) /bin/ls\n",
        ),
        (
            "ann ALL = NOTBEFORE=2026010509Z NOTAFTER=202601051000+0100 /bin/x a\\,b\\:c \\\n, !/bin/y\n",
            f"ann db1 = (root) {NINE} /bin/x a\\,b\\:c\nann db1 = (root) {NINE} !/bin/y\n",
        ),
        # cvtsudoers joins commands whose options alone differ
        (
            "ann ALL = NOTBEFORE=2026010509Z /bin/a a\\,b, NOTAFTER=2026010509Z MAIL: /bin/b",
            f"ann db1 = (root) NOTBEFORE=20260105090000Z /bin/a a\\,b\nann db1 = (root) {NINE} /bin/b\n",
        ),
        # a bound that is always met in the desk's time
        ("ann ALL = NOTBEFORE=00010101000000Z NOTAFTER=99991231235959Z /bin/a\n", "ann db1 = (root) /bin/a\n"),
        # (ALL has SETENV; a command that is joined with ALL has no SETENV)
        ("ann ALL = ALL, /bin/ls\n", "ann db1 = (root) ALL\nann db1 = (root) /bin/ls\n"),
        (
            "%wheel ALL = ALL\n%#3002 ALL = /bin/ls\n#2002 ALL = /bin/ls\n",
            "ann, bob db1 = (root) ALL\nkim db1 = (root) /bin/ls\nkim db1 = (root) /bin/ls\n",
        ),
        ("ALL, !%wheel ALL = /bin/ls\n", "ALL, !ann, !bob db1 = (root) /bin/ls\n"),
        ("ann ALL = ALL\n%ops ALL = !/bin/ls\n", "ann db1 = (root) ALL\nkim db1 = (root) !/bin/ls\n"),
        ("Defaults runas_default=op\nann ALL = /bin/ls\n", "ann db1 = (op) /bin/ls\n"),
        # a name that comes again in a list: its last word counts
        ("ann, ann, %wheel ALL = /bin/ls\n", "ann, bob db1 = (root) /bin/ls\n"),
        ("User_Alias A = bob, %wheel, kim, !bob\nA ALL = ALL\n", "User_Alias DESK_A = ann, kim, !bob\nDESK_A db1 = (root) ALL\n"),
        ("ann ALL = (op, root, !op, op) ALL\n", "ann db1 = (root, op) ALL\n"),
        (
            "Cmnd_Alias A = /bin/a, !/bin/b, /bin/a *\nCmnd_Alias B = A, !A, /bin/b\nann ALL = B\n",
            "Cmnd_Alias DESK_A = !/bin/b, /bin/a\nCmnd_Alias DESK_B = DESK_A, !DESK_A, /bin/b\nann db1 = (root) DESK_B\n",
        ),
        # sudo takes `*` alone for any arguments and for none
        ("ann ALL = /opt/d/x *\n", "ann db1 = (root) /opt/d/x\n"),
        ("ann ALL = ALL, !/opt/d/x *\n", "ann db1 = (root) ALL\nann db1 = (root) !/opt/d/x\n"),
        # the host whose file it is
        ("ann web1 = /bin/a\nann !db1 = /bin/b\nann DB1, !web1 = /bin/c\n", "ann db1 = (root) /bin/c\n"),
        ("ann db[12] = /bin/a\nann db[2-9] = /bin/b\nann w* = /bin/c\n", "ann db1 = (root) /bin/a\n"),
        ("Host_Alias H = web*, !db?\nann H = /bin/a\nann !H = /bin/b\n", "ann db1 = (root) /bin/b\n"),
    ],
)
def test_bases(made: Make, text: str, base: str) -> None:
    found, _ = made(text, status=0)
    assert found == base


# what a base cannot say just as sudo means it
WHOLE = [
    "ann, +net ALL = /bin/ls",
    "ALL, !+net, bob ALL = /bin/ls",
    "ann ALL = ALL, !/bin/l*",
    "ann ALL = ALL, !/bin/ls -*",
    "ann ALL = ALL, !/*/ls",
    "ALL, !%nothing, bob ALL = /bin/ls",
    "ann ALL = (ALL, !#4242) ALL",
    "%twin ALL = ALL",
    "%none ALL = ALL",
    "Ann ALL = /bin/ls",
    "ann ALL = (: op) /bin/ls, () /bin/kill, (op : op) /bin/ps",
    "ann ALL = (ALL : ALL) ALL",
    "ann ALL = /usr/sbin/x restart *, /bin/x \"a\"",
    "ann ALL = /opt/d/*",
    "ann ALL = sudoedit /etc/motd, list, ^/bin/x$, /bin/x ^a$",
    "ann ALL = sha224:0GomF8mNN3wlDt1HD9XldjJ3SNgpFdbjO1+NsQ== /bin/ls",
    "ann 10.0.0.1 = /bin/ls",
    "ann db1.example.org, +hosts = /bin/ls",
    *(f"ann ALL = {mark}/bin/ls" for mark in (
        "NOEXEC: ", "INTERCEPT: ", "SETENV: ", "FOLLOW: ", "LOG_INPUT: ", "LOG_OUTPUT: ",
        "CHROOT=/srv ", "CWD=/srv ", "TIMEOUT=9 ", "ROLE=r TYPE=t ",
    )),
    "ann ALL = NOSETENV: ALL",
    "ann ALL = NOTAFTER=19691231235958Z /bin/ls",
]  # fmt: skip


@pytest.mark.parametrize("line", WHOLE)
def test_what_is_not_exact_stays_whole(made: Make, tmp_path: Path, line: str) -> None:
    base, said = made(f"{line}\n", status=0)
    assert (tmp_path / "rest").read_text().splitlines()[1:] == [line]
    assert base == "" and said[0] == f"sudoers:1: gone: {line}", said
    assert all("stays on the host" in it or ": note: " in it for it in said[1:-2]), said


@pytest.mark.parametrize(
    ("text", "base", "rest"),
    [
        # a rule of which a part stays
        (
            "ann ALL = NOPASSWD: /bin/ls, /opt/x -*, (op) NOEXEC: /bin/b",
            "ann db1 = (root) NOPASSWD: /bin/ls\n",
            ["ann ALL = NOPASSWD: /opt/x -*", "ann ALL = (op) NOPASSWD: NOEXEC: /bin/b"],
        ),
        # Defaults, and what they and the rules that stay name
        (
            "Cmnd_Alias A = /bin/a, B\nCmnd_Alias B = /bin/b\nCmnd_Alias C = /bin/c\n"
            "Defaults!A  lecture_file = \"/x  y\"\nann ALL = C\n",
            "Cmnd_Alias DESK_C = /bin/c\nann db1 = (root) DESK_C\n",
            [
                "Cmnd_Alias A = /bin/a, B",
                "Cmnd_Alias B = /bin/b",
                'Defaults!A  lecture_file = "/x  y"',
            ],
        ),
        (
            "User_Alias U = ann\nCmnd_Alias C = /bin/x*\nU ALL = C, /bin/ls\n",
            "User_Alias DESK_U = ann\nDESK_U db1 = (root) /bin/ls\n",
            ["User_Alias U = ann", "Cmnd_Alias C = /bin/x*", "U ALL = C"],
        ),
        # a rule of another host is in neither
        ("ann web1 = ALL\nann ALL = /bin/ls\n", "ann db1 = (root) /bin/ls\n", []),
    ],
)
def test_what_stays(made: Make, tmp_path: Path, text: str, base: str, rest: list[str]) -> None:
    assert made(text, status=0)[0] == base
    assert (tmp_path / "rest").read_text().splitlines()[1:] == rest


LS = "ALL ALL = /bin/ls\n"


@pytest.mark.parametrize(
    ("earlier", "later", "is_taken"),
    [
        (LS, "ann ALL = NOEXEC: /bin/ls", True),
        (LS, "ann ALL = !/bin/l*", True),
        # (a link may have any folder)
        (LS, "ann ALL = NOEXEC: /usr/bin/ls", True),
        (LS, "ann ALL = NOEXEC: /bin/ls -l", True),
        (LS, "+net ALL = NOEXEC: /bin/ls", True),
        (LS, "ann 10.0.0.1 = NOEXEC: /bin/ls", True),
        (LS, "ann ALL = (:adm) !/bin/ls", True),
        (LS, "ann ALL = NOEXEC: ^/bin/l.*$", True),
        ("ann ALL = NOPASSWD: /bin/ls\n", "+net ALL = (:adm) /bin/ls", True),
        ("ann ALL = ALL\n", "ann ALL = sudoedit /etc/motd", True),
        ("ann ALL = /usr/bin/tail -f /var/log/messages\n", "ann ALL = !/usr/bin/tail *mess*", True),
        ("Cmnd_Alias C = /bin/a, /bin/ls\nann ALL = C\n", "ann ALL = NOEXEC: /bin/ls", True),
        # (an alias may deny something of what it names)
        ("Cmnd_Alias C = /bin/a, !ALL\nann ALL = C\n", "ann ALL = (:adm) /bin/ls", True),
        # other people, hosts or commands, or the same said
        (LS, "ann ALL = NOEXEC: /bin/kill", False),
        ("bob ALL = /bin/ls\n", "ann ALL = NOEXEC: /bin/ls", False),
        ("ann ALL = /bin/ls -a\n", "ann ALL = NOEXEC: /bin/ls -l", False),
        ("ann ALL = /usr/bin/tail -f /var/log/messages\n", "ann ALL = !/usr/bin/tail *..*", False),
        ('ann ALL = /usr/bin/tail ""\n', "ann ALL = !/usr/bin/tail ?*", False),
        ("ann ALL = /bin/ls\n", "ann ALL = sudoedit /etc/motd", False),
        ("ann ALL = /bin/ls\n", "ann ALL = /bin/l*", False),
        ("ann ALL = !/bin/ls\n", "ann ALL = !/bin/l*", False),
    ],
)
def test_what_stays_takes_an_earlier_rule_along(
    made: Make, earlier: str, later: str, is_taken: bool
) -> None:
    """sudo goes by the last rule that fits, and reads what stays before the desk's file."""
    base, said = made(f"{earlier}{later}\n", status=0)
    line = earlier.count("\n")
    assert (base == "") == is_taken, (base, said)
    assert any(f"because of line {line + 1}, which" in it for it in said) == is_taken
    assert f"sudoers:{line}: {'gone' if is_taken else 'kept'}: " in "\n".join(said)


# sudoers(5): the tags that set a flag of a command and take it away, and what it is by itself
FLAGS = {
    "authenticate": ("PASSWD", "NOPASSWD", True),
    "noexec": ("NOEXEC", "EXEC", False),
    "intercept": ("INTERCEPT", "NOINTERCEPT", False),
    "setenv": ("SETENV", "NOSETENV", False),
    "sudoedit_follow": ("FOLLOW", "NOFOLLOW", False),
    "log_input": ("LOG_INPUT", "NOLOG_INPUT", False),
    "log_output": ("LOG_OUTPUT", "NOLOG_OUTPUT", False),
}
# (no Defaults line sets these, and they change no right)
TAGS = [tag for yes, no, _ in FLAGS.values() for tag in (yes, no)] + ["MAIL", "NOMAIL"]
SCOPES = ("", f":{', '.join(map(str.lower, TAGS))}", "@db1", ">root", "!/usr/bin/id")


@pytest.mark.parametrize(("scope", "sign"), [("", None), *product(SCOPES, ("", "!"))])
def test_each_tag_beside_each_defaults(made: Make, scope: str, sign: str | None) -> None:
    """A command is in the base without its tag only where it means the same so; each tag is the
    rule of a person of its own."""
    lines = [f"Defaults{scope} {sign}{flag}\n" for flag in FLAGS if sign is not None]
    lines += [f"{tag.lower()} ALL = {tag}: /usr/bin/id\n" for tag in TAGS]
    base, said = made("".join(lines))
    kept = {"MAIL": "", "NOMAIL": "", "NOPASSWD": "NOPASSWD: "}
    for yes, no, is_on in FLAGS.values():
        if sign is None or (sign == "") == is_on:
            kept[yes if is_on else no] = ""
    wanted = [f"{tag.lower()} db1 = (root) {kept[tag]}/usr/bin/id" for tag in TAGS if tag in kept]
    assert base.splitlines() == wanted, said
    for tag in TAGS:
        why = f"    stays on the host: /usr/bin/id: {tag}: "
        assert any(it.startswith(why) for it in said) == (tag not in kept), (tag, said)


LONG = f" {'y' * 64}" * 15


def users_of(count: int, rules: int) -> str:
    names = ", ".join(f"u{number}" for number in range(count))
    lines = "".join(f"U ALL = /bin/x{number}\n" for number in range(rules))
    return f"User_Alias U = {names}\n{lines}"


@pytest.mark.parametrize(
    ("text", "said"),
    [
        (users_of(4093, 16), None),
        (f"{users_of(4093, 16)}V ALL = /bin/x\nUser_Alias V = U, !U\n", "73,725 words in its"),
        (users_of(4000, 20), "80,060 words in its rules"),
        (f"ann ALL = {', '.join(f'/bin/x{number}' for number in range(4096))}\n", None),
        (f"ann ALL = {', '.join(f'/bin/x{number}' for number in range(4097))}\n", "4,097 entries"),
        (f"ann ALL = {', '.join([f'/bin/x{LONG}'] * 1049)}\n", None),
        (f"ann ALL = {', '.join([f'/bin/x{LONG}'] * 1050)}\n", "1,048,950 bytes"),
    ],
    # (a text is too long for the name of a test)
    ids="weight, denied aliases, heavy, entries, more entries, bytes, more bytes".split(", "),
)
def test_a_base_too_large_for_a_desk(made: Make, text: str, said: str | None) -> None:
    notes = [it for it in made(text)[1] if "(K6)" in it]
    assert len(notes) == (said is not None), notes
    assert said is None or said in notes[0]


def test_a_base_over_the_limits_of_a_policy(made: Make) -> None:
    """(The weight is the desk's own: one more word is refused by desk check.)"""
    assert "131,072 words in its rules" in made(users_of(32765, 4))[1][-2]
    assert made(users_of(32766, 4), status=2) == (
        "",
        [
            "desk-import: what was made is over the limits of a policy (S10): "
            "make fewer rules and shorter lists"
        ],
    )


RULES = """\
Cmnd_Alias SVC = /usr/bin/systemctl restart *
User_Alias NETOPS = +netops
Host_Alias DMZ = 172.16.0.0/12
# (the rules)
ann ALL = SVC
NETOPS ALL = /usr/bin/id
bob DMZ = /usr/bin/du
%none ALL = (root) ALL
ann ALL = /usr/bin/id, \\
    SVC, NOEXEC: /usr/bin/less
kim ALL = /usr/bin/du
Defaults env_reset
Defaults !authenticate
"""


def test_each_rule_has_its_verdict(made: Make, tmp_path: Path) -> None:
    """Quoted as it stands, with the line that is the cause, in the order of the file."""
    report = tmp_path / "report"
    base, said = made(RULES, "--report", str(report), status=0)
    wildcard = "/usr/bin/systemctl restart *: a base compares arguments whole: none stands for several (`*`)"
    assert said == [
        "sudoers:5: gone: ann ALL = SVC",
        f"    stays on the host: SVC: because of line 1: {wildcard}",
        "sudoers:6: gone: NETOPS ALL = /usr/bin/id",
        "    stays on the host: /usr/bin/id: because of line 2: +netops: no netgroup of that name is listed, or it has a domain; name its members",
        "sudoers:7: gone: bob DMZ = /usr/bin/du",
        "    stays on the host: /usr/bin/du: because of line 3: 172.16.0.0/12: a base has short host names alone; name the hosts, or give --host-list a file of them in the form of /etc/hosts",
        "sudoers:8: gone: %none ALL = (root) ALL",
        "    stays on the host: ALL: %none: it is nobody now; name the users, or take the rule out",
        "sudoers:8: note: %none is nobody now: who joins later is not in the base",
        "sudoers:9: in part: ann ALL = /usr/bin/id, SVC, NOEXEC: /usr/bin/less",
        f"    stays on the host: SVC: because of line 1: {wildcard}",
        "    stays on the host: /usr/bin/less: NOEXEC: without it the command may open a shell; leave the tag out only if that is meant",
        "sudoers:11: kept: kim ALL = /usr/bin/du",
        "sudoers:12: stays on the host: Defaults env_reset: it holds back what the base's rules give too",
        "sudoers:13: stays on the host: Defaults !authenticate: it lets the base's rules give more",
        "rules: 4 gone, 1 in part, 1 kept",
        "the base has 2 entries",
    ]
    assert base == "ann db1 = (root) /usr/bin/id\nkim db1 = (root) /usr/bin/du\n"
    assert report.read_text().replace(str(tmp_path / "etc" / "sudoers"), "sudoers").splitlines() == said


def test_what_is_in_no_file_is_lost(imports: Run, desk: str, folder: Path) -> None:
    """Status 1; Defaults and what stays are no loss."""
    for text, status in ((RULES, 1), ("Defaults env_reset\nann ALL = /bin/ls\n", 0)):
        (folder / "sudoers").write_text(text)
        ran = imports("--desk", desk, "--host", f"db1={folder}")
        assert ran.returncode == status
        assert ("    lost: SVC: because of line 1: " in ran.stderr) == (status == 1)


def test_the_byte_that_no_base_has(made: Make) -> None:
    said = made("ann ALL = /opt/x conf *, /opt/$HOME/x, /opt/y $HOME\nann ALL = /opt/d/*\n")[1]
    assert "    stays on the host: /opt/x conf *: a base compares arguments whole: none stands for several (`*`)" in said
    assert "    stays on the host: /opt/$HOME/x: a base has no such path (`$`); list full paths, or a directory" in said
    assert any("/opt/y $HOME: " in it and "(`$`)" in it for it in said)
    assert any("takes in names that begin with a dot: /opt/d/" in it for it in said)
    assert not any("list the arguments" in it or "arguments that are allowed" in it for it in said)


LOOSENS, TIGHTENS = "it lets the base's rules give more", "it holds back what the base's rules give too"


@pytest.mark.parametrize(
    ("line", "effect"),
    [
        ("Defaults closefrom_override", LOOSENS),
        ("Defaults setenv", LOOSENS),
        ("Defaults exempt_group=wheel", LOOSENS),
        ("Defaults !setenv", TIGHTENS),
        ("Defaults !env_reset", LOOSENS),
        ("Defaults:ann noexec", TIGHTENS),
        ("Defaults log_year", "it changes no right"),
    ],
)
def test_what_defaults_do(made: Make, line: str, effect: str) -> None:
    assert f"sudoers:1: stays on the host: {line}: {effect}" in made(f"{line}\nann ALL = /bin/ls\n", status=0)[1]


def test_an_item_is_quoted_as_it_stands(made: Make) -> None:
    """With its mark, and with a remedy that can work."""
    said = "\n".join(made("%:AD\\ Admins ALL = /bin/a\nann +fw = /bin/b\n", status=0)[1])
    assert ": %:AD\\ Admins: a plugin of sudo says who is in it; name the users" in said
    assert ": +fw: no netgroup of that name is listed, or it has a domain; name its members" in said
    assert "--host-list" not in said


def test_a_group_is_told_once(made: Make) -> None:
    """(It was told with each of its rules.)"""
    said = made("%wheel ALL = /bin/a\n%wheel ALL = /bin/b\n%ops ALL = /bin/c\n", status=0)[1]
    assert [it for it in said if ": note: " in it] == [
        "sudoers:1: note: %wheel is ann, bob now: who joins later is not in the base",
        "sudoers:3: note: %ops is kim now: who joins later is not in the base",
    ]


LDIF = """\
dn: cn=defaults,ou=SUDOers,dc=example
objectClass: sudoRole
cn: defaults
sudoOption: env_reset

dn: cn=ann,ou=SUDOers,dc=example
objectClass: sudoRole
cn: ann
sudoUser: ann
sudoHost: ALL
sudoCommand: /usr/bin/id
sudoCommand: !/usr/bin/id -u
sudoOption: !authenticate
sudoNotAfter: 20261231235959Z
"""


def test_rules_of_a_directory(made: Make, tmp_path: Path) -> None:
    """LDAP's sudoRoles, by the command of IMPORT.md."""
    with open(os.path.join(ROOT, "docs", "IMPORT.md"), encoding="utf-8") as file:
        [command] = re.findall(r"`(cvtsudoers -i ldif [^`]+)`", file.read())
    (tmp_path / "roles.ldif").write_text(LDIF)
    subprocess.run(command, shell=True, cwd=tmp_path, check=True)
    assert made((tmp_path / "sudoers").read_text(), status=0)[0] == (
        "ann db1 = (root) NOTAFTER=20261231235959Z NOPASSWD: /usr/bin/id\n"
        "ann db1 = (root) NOTAFTER=20261231235959Z NOPASSWD: !/usr/bin/id -u\n"
    )


def test_which_hosts_is_asked(made: Make, imports: Run, desk: str, folder: Path) -> None:
    """ALL in one host's file is that host; on all hosts it is said aloud."""
    (folder / "sudoers").write_text("ann db1 = /bin/ls\n\nann ALL = (ALL) ALL\n")
    path = str(folder / "sudoers")
    ran = imports("--desk", desk, path)
    assert ran.returncode == 2 and ran.stdout == ""
    assert ran.stderr.startswith(f"desk-import: {path}:3: ALL as host: say which host's file it is")
    base, said = made("ann ALL = (ALL) ALL\nann db1 = /bin/ls\n", "--all-hosts", status=0)
    assert base.startswith("ann ALL = (ALL) ALL\n")
    assert said[1] == "sudoers:1: note: it is for every host of the desk"
    assert said[-2] == "standing root: ann ALL = (ALL) ALL: it is everything"
    assert made("ann ALL = (ALL) ALL\n")[0] == "ann db1 = (ALL) ALL\n"
    (folder / "sudoers").write_text("ann db1, web1 = /bin/ls\n")
    assert imports("--desk", desk, path).stdout == "ann db1, web1 = (root) /bin/ls\n"


TWO = {
    "db1": "User_Alias OPS = ann\nCmnd_Alias A = /bin/a\nOPS ALL = A\nkim ALL = /bin/k\nann ALL = !/bin/a x\n",
    "web-1": "User_Alias OPS = ann, bob\nCmnd_Alias A = /bin/a\nkim ALL = /bin/k\nOPS ALL = A\nann ALL = !/bin/a x\n",
}


def test_several_hosts(imports: Run, desk: str, tmp_path: Path) -> None:
    """Equal rules and aliases become one, each host's own order stays, and what differs is said."""
    words = []
    for host, text in TWO.items():
        (tmp_path / host).mkdir()
        for name, it in (("sudoers", text), ("passwd", PASSWD), ("group", GROUP)):
            (tmp_path / host / name).write_text(it)
        words += ["--host", f"{host}={tmp_path / host}"]
    ran = imports("--desk", desk, "--rest", str(tmp_path / "rests"), *words)
    assert ran.returncode == 0, ran.stderr
    assert ran.stdout == (
        "Cmnd_Alias DESK_A = /bin/a\nUser_Alias DESK_OPS = ann\nUser_Alias DESK_OPS_WEB_1 = ann, bob\n"
        "DESK_OPS db1 = (root) DESK_A\nkim db1, web-1 = (root) /bin/k\n"
        "DESK_OPS_WEB_1 web-1 = (root) DESK_A\nann db1, web-1 = (root) !/bin/a x\n"
    )
    assert "only on db1: DESK_OPS .. = (root) DESK_A" in ran.stderr
    assert "the alias OPS of web-1 is DESK_OPS_WEB_1 in the base" in ran.stderr
    assert sorted(it.name for it in (tmp_path / "rests").iterdir()) == ["db1", "web-1"]


def test_a_group_of_another_host_is_that_hosts(imports: Run, desk: str, tmp_path: Path) -> None:
    words = []
    for host, member in (("db1", "ann"), ("web1", "kim")):
        (tmp_path / host).mkdir()
        (tmp_path / host / "sudoers").write_text("%sudo ALL = ALL\n")
        (tmp_path / host / "group").write_text(f"sudo:x:27:{member}\n")
        words += ["--host", f"{host}={tmp_path / host}"]
    base = imports("--desk", desk, *words).stdout
    assert base == "ann db1 = (root) ALL\nkim web1 = (root) ALL\n"


def test_a_denied_group_is_certain_in_files_alone(made: Make, folder: Path) -> None:
    """A directory may know more people than it lists: sssd and winbind list none."""
    (folder / "nsswitch.conf").write_text(MORE)
    for line in (
        "ALL, !%ops ALL = /bin/ls", "%ops ALL = !/bin/ls", "#2002 ALL = !/bin/ls", "ann ALL = (ALL, !%ops) /bin/ls",
    ):  # fmt: skip
        base, said = made(f"ann ALL = ALL\n{line}\n", status=0)
        assert base == "", (line, base)
        assert any("nsswitch.conf has more than files" in it for it in said), said
    base, said = made("%ops ALL = /bin/ls\n", status=0)
    assert base == "kim db1 = (root) /bin/ls\n" and said[0].startswith("sudoers:1: in part: ")
    # (whoever is not listed would keep what is given more freely)
    assert made("ALL ALL = NOPASSWD: /bin/ls\n%ops ALL = /bin/ls\n", status=0)[0] == ""


def test_netgroups_are_asked(imports: Run, desk: str, tmp_path: Path, monkeypatch: pytest.MonkeyPatch) -> None:
    getent = tmp_path / "bin" / "getent"
    getent.parent.mkdir()
    getent.write_text('#!/bin/sh\n[ "$1 $3" = "netgroup net" ] && echo "net (db1,eve,) (web1,kim,)" || exit 2\n')
    getent.chmod(0o755)
    monkeypatch.setenv("PATH", f"{getent.parent}:{os.environ['PATH']}")
    source = tmp_path / "sudoers"
    source.write_text("+net ALL = /opt/a\nann +net = /opt/b\nbob +other = /opt/c\n")
    ran = imports("--desk", desk, "--host", f"db1={source}")
    assert ran.stdout == "eve, kim db1 = (root) /opt/a\nann db1 = (root) /opt/b\n"
    assert "    lost: /opt/c: +other: no netgroup of that name is listed" in ran.stderr
    source.write_text("Defaults !use_netgroups\n+net ALL = /opt/a\n")
    assert imports("--desk", desk, "--host", f"db1={source}").stdout == ""


def test_target_groups_are_left_out_if_that_is_asked(made: Make) -> None:
    word = "--without-target-groups"
    text = "root ALL=(ALL:ALL) ALL\nann ALL = (op : !adm) /bin/ls\nann ALL = (op : adm) !/bin/kill\n"
    base, said = made(text, word, status=0)
    assert base == "root db1 = (ALL) ALL\n" and said[0].startswith("sudoers:1: in part: ")


def test_the_line_of_a_fault(made: Make, folder: Path) -> None:
    """sudo's own number, whatever comments, continuations and included files stand above."""
    text = "# one\n\nann ALL = \\\n  /bin/ls\n@includedir nothing\n# six\nbob ALL = bin/ls\n"
    for words in ((), ("--all-hosts",)):
        said = made(text, *words, status=2)[1]
        assert said == ["desk-import: sudo cannot read it: sudoers:7:11: expected a fully-qualified path name"]


def test_hosts_of_a_list(made: Make, tmp_path: Path) -> None:
    (tmp_path / "hosts").write_text("10.0.0.1 db1.example.org db1\n10.0.0.2 DB2\n192.0.2.7 web1\n")
    words = ("--all-hosts", "--host-list", str(tmp_path / "hosts"))
    text = "ann 10.0.0.0/24, !db1.example.org = /bin/a\nann db[12] = /bin/b\nbob 203.0.113.0/24 = ALL\n"
    assert made(text, *words)[0] == "ann db2, !db1 = (root) /bin/a\nann db1, db2 = (root) /bin/b\n"
    assert made(text, *words[1:])[0] == "ann db1 = (root) /bin/b\n"
    assert made(text)[0] == "ann db1 = (root) /bin/b\n"


def test_included_files(made: Make, folder: Path) -> None:
    (folder / "more.d").mkdir()
    files = {"b": "bob ALL = /bin/b\n", "a": "User_Alias A = ann\n\nA ALL = /bin/a, /bin/x*\n", "c.off": "c ALL = ALL\n", "d~": "d ALL = ALL\n"}
    for name, text in files.items():
        (folder / "more.d" / name).write_text(text)
    text = "root ALL = ALL\n@includedir more.d\nroot ALL = !/bin/su\n#includedir none\n"
    for words, host in (((), "db1"), (("--all-hosts",), "ALL")):
        found, said = made(text, *words)
        assert found == (
            f"User_Alias DESK_A = ann\nroot {host} = (root) ALL\nDESK_A {host} = (root) /bin/a\n"
            f"bob {host} = (root) /bin/b\nroot {host} = (root) !/bin/su\n"
        )
        assert f"sudoers:4: note: {folder}/none: there is no such directory, and sudo passes over it" in said
        assert f"{folder}/more.d/a:3: in part: A ALL = /bin/a, /bin/x*" in said


def test_aliases_have_a_prefix(made: Make) -> None:
    """So no name is defined twice on the host whose file it was."""
    name = "A" * 40
    base = made(f"User_Alias {name}1 = ann\nUser_Alias {name}2 = bob\n{name}1 ALL = ALL\n{name}2 ALL = ALL\n")[0]
    names = re.findall(r"User_Alias (\w+) ", base)
    assert len({*names}) == 2 and all(it.startswith("DESK_A") and len(it) <= 32 for it in names)
    assert made("User_Alias U = ann\nU ALL = ALL\n", "--prefix", "OURS_")[0].startswith("User_Alias OURS_U = ann")


def test_the_linter_takes_what_is_made(made: Make, lint: Run, desk: str, tmp_path: Path) -> None:
    """The linter had a warning for each alias of such a base."""
    base = tmp_path / "base.sudo"
    base.write_text(made("User_Alias A = ann\nCmnd_Alias B = /usr/bin/id\nA ALL = B, /usr/bin/du\n")[0])
    said = lint("--desk", desk, "--strict", str(base))
    assert (said.returncode, said.stdout) == (0, ""), said


LINKS = """\
ann ALL = /bin/ls, NOPASSWD: !/sbin/fdisk -l /dev/sda, /bin/, (op) /usr/bin/id
bob ALL = /bin/less -*, /binary/x
"""


def test_a_folder_that_is_a_link(imports: Run, lint: Run, desk: str, tmp_path: Path) -> None:
    """A program below /bin has its own name in the base: the linter warned of each."""
    if not os.path.islink("/bin"):
        pytest.skip("/bin is no link here")
    source, base, rest = (tmp_path / name for name in ("sudoers", "base.sudo", "rest"))
    source.write_text(LINKS)
    ran = imports("--desk", desk, "--host", f"db1={source}", "--rest", str(rest))
    found = ran.stdout.splitlines()
    assert found == [
        "ann db1 = (root) /usr/bin/ls",
        "ann db1 = (root) NOPASSWD: !/usr/sbin/fdisk -l /dev/sda",
        "ann db1 = (root) NOPASSWD: /bin/",
        "ann db1 = (op) NOPASSWD: /usr/bin/id",
        "bob db1 = (root) /binary/x",
    ], ran
    note = f"{source}:1: note: /bin/ls is /usr/bin/ls in the base: /bin is a link to /usr/bin here"
    assert note in ran.stderr.splitlines()
    assert rest.read_text().splitlines()[1:] == ["bob ALL = /bin/less -*"]
    base.write_text("".join(f"{line}\n" for line in found if not line.endswith("/")))
    assert "real-path" not in lint("--desk", desk, "--json", str(base)).stdout
    # (other hosts may have two folders)
    (tmp_path / "etc").mkdir()
    (tmp_path / "etc" / "sudoers").write_text(LINKS)
    for words in ((str(source), "--all-hosts"), ("--host", f"db1={tmp_path}/etc")):
        assert " = (root) /bin/ls\n" in imports("--desk", desk, *words).stdout


def test_a_copy_of_another_hosts_etc(made: Make, folder: Path) -> None:
    """What it includes is read there, and not on this machine."""
    (folder / "sudoers.d").mkdir()
    (folder / "sudoers.d" / "ops").write_text("kim ALL = /bin/k\n")
    text = "ann ALL = /bin/a\n@includedir /etc/sudoers.d\nann ALL = !/bin/a x\n"
    base, said = made(text, status=0)
    assert base == "ann db1 = (root) /bin/a\nkim db1 = (root) /bin/k\nann db1 = (root) !/bin/a x\n"
    assert said[0] == "sudoers:1: kept: ann ALL = /bin/a"
    assert said[1].endswith("sudoers.d/ops:1: kept: kim ALL = /bin/k")
    for name in ("include /srv/x", "includedir /etc/sudoers.e"):
        line = made(f"ann ALL = ALL\n@{name}\n", status=2)[1][0]
        assert line.endswith(f":2: {name.split()[1]} is not in the copy of the host's /etc"), line


def test_a_copy_by_a_relative_path(
    imports: Run, desk: str, folder: Path, monkeypatch: pytest.MonkeyPatch
) -> None:
    """What it includes is read: `--host db1=etc/db1` is how a loop over hosts names copies."""
    (folder / "sudoers.d").mkdir()
    (folder / "sudoers.d" / "ops").write_text("kim ALL = /bin/k\n")
    (folder / "sudoers").write_text("ann ALL = /bin/a\n@includedir /etc/sudoers.d\n")
    monkeypatch.chdir(folder.parent)
    ran = imports("--desk", desk, "--host", f"db1={folder.name}", "--rest", "rest")
    assert ran.stdout == "ann db1 = (root) /bin/a\nkim db1 = (root) /bin/k\n", ran.stderr
    rest = (folder.parent / "rest").read_text()
    assert "# in place of: /etc/sudoers.d/ops\n" in rest, rest


def test_what_stays_includes_the_desks_file(made: Make, folder: Path, tmp_path: Path) -> None:
    (folder / "sudoers.d").mkdir()
    (folder / "sudoers.d" / "ops").write_text("kim ALL = /bin/k*\n")
    made("Defaults env_reset\n@includedir /etc/sudoers.d\n", status=0)
    assert (tmp_path / "rest").read_text().splitlines()[1:] == [
        "# in place of: /etc/sudoers.d/ops",
        "Defaults env_reset", "kim ALL = /bin/k*", "@includedir /etc/sudoers.d",
    ]  # fmt: skip


REFUSALS = [
    ("# one\nann ALL = ALL\n@include none\n", ":3: .*/none cannot be read: No such file or directory"),
    ("ann ALL = ALL\n  @include for-%h\n", ":2: the name of the file has the host in it"),
    ("ann ALL = ALL\n@include sudoers\n", ":2: sudoers: the file includes itself"),
    ("ann ALL = ALL\n@include \"\"\n", ":2: an include of no file"),
    ("ann ALL = ALL\n@includedir sudoers\n", ":2: sudoers: it is no directory, so sudo does not read it"),
    ("ann ALL = ALL\n# \0\nann ALL = !ALL\n", ":2: a byte 0, behind which sudo reads nothing"),
    ("\nUser_Alias A = ann, B\nUser_Alias B = A\n", ":2: the alias A names itself"),
    ("Runas_Alias A = A\n", ":1: the alias A names itself"),
    ("Defaults unheard_of\nann ALL = ALL\n", ':1:20: unknown defaults entry "unheard_of"'),
    ('ann "ALL" = /bin/ls\n', ":1: ALL between quotes or with a backslash is a name"),
    ("\\x41LL ALL = /bin/ls\n", ":1: ALL between quotes or with a backslash is a name"),
    ("ann ALL = /bin/ls\\ -l\n", ":1: a blank in a command's path"),
    ("ann ALL = NOTAFTER=20260105093000 /bin/ls\n", ":1: a time without Z or an offset"),
    # (cvtsudoers tells of neither alone)
    ("ann ALL = ROLE=r /bin/ls\n", ":1: ROLE without TYPE"),
    ("ann ALL = /bin/ls, TYPE = t /bin/kill\n", ":1: ROLE without TYPE"),
]


@pytest.mark.parametrize(("text", "why"), REFUSALS)
def test_refusals(made: Make, text: str, why: str) -> None:
    """Whatever is not read, or not said as sudo means it, may be a denial: there is no base then."""
    found, said = made(text, status=2)
    assert found == "" and len(said) == 1
    assert re.fullmatch(f"desk-import: (sudo cannot read it: )?sudoers{why}.*", said[0]), said


def test_many_files_that_include_one_another(made: Make, folder: Path) -> None:
    for number in range(40):
        (folder / f"f{number}").write_text(f"@include f{number + 1}\n@include f{number + 1}\n")
    (folder / "f40").write_text("")
    began = time.monotonic()
    assert "too many files are included" in made("@include f0\n", status=2)[1][0]
    assert time.monotonic() - began < 60


def test_what_is_read_as_sudo_reads_it(made: Make, folder: Path) -> None:
    """What looks odd, and is no fault."""
    (folder / "more").write_text("kim ALL = /bin/kim")
    text = """\
  #include nothing
# it ends in a backslash \\
ann ALL = /bin/ls, \\
    /bin/kill # "so \\
\t@include more # its owner is root
Defaults passprompt = "a \\
     b # runas_default=op", !lecture
%#3002 ALL = /bin/echo a\\:b
"""
    base = (
        "ann db1 = (root) /bin/ls\nann db1 = (root) /bin/kill\nkim db1 = (root) /bin/kim\n"
        "kim db1 = (root) /bin/echo a\\:b\n"
    )
    assert made(text)[0] == base
    text = text.replace("%#3002", "kim")
    assert made(text, "--all-hosts")[0] == base.replace("db1", "ALL")


def test_no_byte_of_a_file_rules_a_terminal(
    made: Make, imports: Run, desk: str, tmp_path: Path
) -> None:
    odd = "\x1b[2J\u202e\x9b"
    _, said = made(f'"a{odd}" ALL = /bin/ls\nann ALL = "/bin/{odd}\n', status=2)
    said += made(f'"a{odd}" ALL = /bin/ls\nDefaults badpass_message="{odd}"\nann ALL = /bin/{odd}\n')[1]
    said += imports("--desk", desk, str(tmp_path / odd)).stderr.splitlines()
    said += imports("--desk", desk, "--no" + odd, "x").stderr.splitlines()
    assert len(said) > 6 and all(line.isprintable() for line in said), said
    assert any("\\x1b[2J\\u202e\\x9b" in line for line in said)


LIST = machine.hosts_of("10.0.0.1 db1.example.org db1\n10.0.0.2 DB2 other\n192.0.2.7 web1\n2001:db8::7 web1\n")


@pytest.mark.parametrize(
    ("form", "sure", "perhaps"),
    [
        ("10.0.0.0/24", "db1 db2", "db1 db2"),
        ("10.0.0.2/24", "db1 db2", "db1 db2"),
        ("10.0.0.0/255.255.255.0", "db1 db2", "db1 db2"),
        ("10.0.0.1", "db1", "db1"),
        # an address may be a network's
        ("10.0.0.0", "", "db1 db2"),
        ("2001:db8::/32", "web1", "web1"),
        ("2001:db8::7", "web1", "web1"),
        ("203.0.113.0/24", "", ""),
    ],
)
def test_hosts_by_address(form: str, sure: str, perhaps: str) -> None:
    matches = machine.by_address(form)
    assert matches and machine.meant(LIST, matches) == (sure.split(), perhaps.split())


@pytest.mark.parametrize("form", ["10.0.0.0/0", "0.0.0.0/0.0.0.0", "10.0.0.0/0.0.0.255", "10.0.0.0/0.255.255.0", "10.0.0.0/33", "::/0", "10.1", "x"])
def test_networks_that_mean_something_else(form: str) -> None:
    """sudo takes none of these as Python does."""
    assert machine.by_address(form) is None


@pytest.mark.parametrize(
    ("form", "sure", "perhaps"),
    [
        ("db1.example.org", "db1", "db1"),
        ("*.example.org", "db1", "db1"),
        # without a dot, a name is compared with the part before the first
        ("d*g", "", "db1"),
        ("db?", "db1 db2", "db1 db2"),
        # a host is known by its first name
        ("o*", "", "db2"),
        ("*.*", "db1", "db1"),
    ],
)
def test_hosts_by_name(form: str, sure: str, perhaps: str) -> None:
    matches = machine.by_name(form)
    assert matches and machine.meant(LIST, matches) == (sure.split(), perhaps.split())


def test_failures(made: Make, imports: Run, desk: str, tmp_path: Path) -> None:
    assert made("ann ALL = \n", status=2)[1][0].startswith("desk-import: sudo cannot read it: ")
    assert imports("--desk", desk, str(tmp_path / "none")).returncode == 2
    assert made("ann ALL = /bin/ls\n", "--host-list", "none", status=2)[1] == ["desk-import: none: No such file or directory"]
    assert made("ann ALL = /bin/ls\n", "--desk", "/none", status=2)[1] == ["desk-import: there is no program /none"]
    for words in (("--host", "db1"), ("--host", "DB1=x"), ("--host", "db1=x", "--all-hosts")):
        assert made("ann ALL = /bin/ls\n", *words, status=2)[0] == ""


COMPARED = """\
Defaults env_reset
Cmnd_Alias OK = /usr/bin/id, /usr/bin/du "", /opt/x *
nobody, daemon ALL = NOPASSWD: OK, PASSWD: /usr/bin/w, NOEXEC: /usr/bin/less
bin ALL = (ALL) ALL, !/usr/bin/tail *..*
root ALL = (ALL:ALL) ALL
"""
CHANGES = [
    ("", 0, "0 more, 0 less"),
    ("bin ALL = (ALL) NOPASSWD: /usr/bin/id\n", 3, "more: bin: (ALL) [Options: !authenticate] /usr/bin/id"),
    ("games ALL = /usr/bin/id\n", 3, "more: games: (root) /usr/bin/id"),
    ("nobody ALL = !/usr/bin/id\n", 1, "less: nobody: (root) /usr/bin/id"),
    ("Defaults:games !authenticate\ngames ALL = !ALL\n", 3, "more: games: other Defaults"),
]


def test_compare_asks_sudo(imports: Run, desk: str, tmp_path: Path) -> None:
    """The old file, and the base behind what stays: nothing more or less, and what a change does."""
    needs_sudo()
    host = platform.node().partition(".")[0].lower()
    old, rest, base = (tmp_path / name for name in ("old", "rest", "base"))
    old.write_text(COMPARED)
    made = imports("--desk", desk, "--host", f"{host}={old}", "--rest", str(rest))
    assert made.returncode == 0 and "DESK_OK" in made.stdout, made
    for more, status, said in CHANGES:
        base.write_text(made.stdout + more)
        words = ["compare", "--old", str(old), "--rest", str(rest), "--base", str(base), host]
        ran = imports(*words)
        assert (ran.returncode, said in ran.stdout) == (status, True), (more, ran)
    base.write_text(made.stdout)
    without = imports("compare", "--old", str(old), "--base", str(base), host)
    assert without.returncode == 3 and "less: nobody: (root) [Options: noexec] /usr/bin/less" in without.stdout


def test_compare_with_a_folder(imports: Run, desk: str, tmp_path: Path) -> None:
    """The old file includes the files that were kept with it, and not those of now."""
    needs_sudo()
    host = platform.node().partition(".")[0].lower()
    kept = tmp_path / "kept"
    (kept / "sudoers.d").mkdir(parents=True)
    (kept / "sudoers").write_text("Defaults env_reset\n@includedir /etc/sudoers.d\n")
    (kept / "sudoers.d" / "ops").write_text("nobody ALL = /usr/bin/id, /usr/bin/less -*\n")
    for path in (kept / "sudoers", kept / "sudoers.d" / "ops"):
        path.chmod(0o440)
    rest, base = tmp_path / "rest", tmp_path / "base"
    made = imports("--desk", desk, "--host", f"{host}={kept}", "--rest", str(rest))
    words = ["--rest", str(rest), "--base", str(base), host]
    for text, status, says in ((made.stdout, 0, "0 more, 0 less"), ("", 1, "less: nobody: (root) /usr/bin/id")):
        base.write_text(text)
        ran = imports("compare", "--old", str(kept), *words)
        assert (ran.returncode, says in ran.stdout) == (status, True), ran
    ran = imports("compare", "--old", str(tmp_path), *words)
    assert ran.returncode == 2 and ran.stderr == f"desk-import: {tmp_path}: it has no file sudoers\n"


def test_what_a_list_of_sudos_has() -> None:
    listing = """\
Matching Defaults entries for ann on db1:
    env_reset, !setenv

User ann may run the following commands on db1:

Sudoers entry: /etc/sudoers
    RunAsUsers: root, op
    RunAsGroups: adm
    Options: !authenticate, !setenv, !noexec
    NotAfter: 20260101000000Z
    Commands:
\t/usr/bin/id -u
\t!/usr/bin/su
"""
    how = "NotAfter: 20260101000000Z; Options: !authenticate, !setenv"
    assert comparing.rights(listing) == [
        comparing.Right(target, how, command)
        for command in ("/usr/bin/id -u", "!/usr/bin/su")
        for target in ("root", "op", ":adm")
    ]


def needs_sudo() -> None:
    path = f"{os.environ['PATH']}:/usr/sbin:/sbin"
    needed = ("sudo", "visudo", "cvtsudoers", "faketime", "unshare", "setpriv")
    lacks = [name for name in needed if shutil.which(name, path=path) is None]
    if os.geteuid() != 0 or lacks:
        assert not os.environ.get("WHOLE"), f"sudo cannot be asked here: it lacks root or {lacks}"
        pytest.skip(f"sudo cannot be asked here: it lacks root or {lacks}")


def ask_sudo(script: str, *words: str) -> None:
    needs_sudo()
    ran = subprocess.run([sys.executable, script, *words], stdout=subprocess.PIPE, stderr=subprocess.STDOUT, text=True, check=False)
    print(ran.stdout[-400:])
    assert ran.returncode == 0, ran.stdout[-6000:]


def test_random_files_beside_sudo(desk: str, pytestconfig: pytest.Config) -> None:
    ask_sudo(BESIDE, str(pytestconfig.getoption("sudoers")))


def test_no_base_gives_more_than_its_file(desk: str, pytestconfig: pytest.Config) -> None:
    """By sudo's own answers: the files of which a base once gave more, and random ones."""
    ask_sudo(NEVER_WIDER, str(pytestconfig.getoption("sudoers")))


def test_files_of_others_beside_sudo(desk: str) -> None:
    try:
        files = others_sudoers.fetched()
    except others_sudoers.NoNetwork as fault:
        assert not os.environ.get("WHOLE"), f"the sudoers files of Debian's packages cannot be fetched: {fault}"
        pytest.skip(f"LEFT OUT: the sudoers files of Debian's packages cannot be fetched: {fault}")
    assert len(files) > 25, files
    ask_sudo(BESIDE, "0", *files)
