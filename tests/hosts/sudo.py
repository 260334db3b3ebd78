"""What docs/HOSTS.md says of each sudo, by runs of the real one: for hosts.py."""

from __future__ import annotations

import calendar
import os
import re
import time

from tests.common import desk
from tests.common.replies import desk_of
from tests.hosts.fetch import GOOD, serving
from tests.hosts.prompt import line
from tests.hosts.root import FILE as FILE_OF_HOST
from tests.hosts.root import STATE, Host

DEFAULTS = os.path.join(desk.ROOT, "packaging", "host", "desk-defaults")
HOUR = 3600
# Five zones. Two of them a user makes up: it is summer there now, by two days' difference, and
# winter was and will be for long enough that mktime(3), which looks for it week by week, finds it.
DAY = time.gmtime().tm_yday
SUMMER = f"J{(DAY - 151) % 365 + 1}/0,J{(DAY + 29) % 365 + 1}/0"
MADE_UP = (f"XXX-24YYY24,{SUMMER}", f"XXX24YYY-24,{SUMMER}")
ZONES = ("UTC", "America/New_York", "Asia/Kolkata", *MADE_UP)
# a night of America/New_York in which an hour comes twice, and one in which one is left out
BOUNDS = ("20260308065959Z", "20261101060000Z", "20380119031407Z", "20991231235958Z")


def free(text: str) -> str:
    """Lines whose user is asked for no password."""
    return re.sub(r"([A-Z]=\d+Z) (?=[!/A-Z][^=]*$)", r"\1 NOPASSWD: ", text, flags=re.M)


def runs(host: Host, user: str, *command: str, zone: str = "UTC", sudo: str = "sudo") -> bool:
    """Whether the real sudo, started by the user, runs a command as root."""
    ran = host.as_user(user, "env", f"TZ={zone}", sudo, "-n", *command)
    return ran.returncode == 0


def zones(host: Host) -> None:
    """A user's TZ moves no moment of a line; before 1.9.9 it does."""
    host.put("desk", free(line("ann", -40 * HOUR + HOUR)))
    host.write("/usr/local/sbin/granted", "#!/bin/sh\ntrue\n")
    os.chmod(host.path("/usr/local/sbin/granted"), 0o755)
    first, last = desk.stamp(time.time() - 50 * HOUR), desk.stamp(time.time() - 39.5 * HOUR)
    command = "NOPASSWD: /usr/local/sbin/granted"
    over = f"ann ALL = (root) NOTBEFORE={first} NOTAFTER={last} {command}\n"
    host.put("desk", over)
    moved = [zone for zone in ZONES if runs(host, "ann", "granted", zone=zone)]
    host.check("a grant that was over 39 hours ago", bool(moved) != host.is_fit, str(moved))
    host.put("desk", free(line("ann", HOUR)))
    in_force = [zone for zone in ZONES if runs(host, "ann", "granted", zone=zone)]
    wanted = list(ZONES) if host.is_fit else in_force
    host.check("a grant that is in force", in_force == wanted, str(in_force))
    denial = f"ann ALL = (root) NOPASSWD: ALL\n{line('ann', HOUR, '!/usr/local/sbin/granted')}"
    host.put("desk", denial)
    escaped = [zone for zone in ZONES if runs(host, "ann", "granted", zone=zone)]
    host.check("a dated denial", bool(escaped) != host.is_fit, str(escaped))


def bounds(host: Host) -> None:
    """The first and the last second of a window, in each zone."""
    if not host.is_fit or not os.path.exists(host.path("/usr/bin/faketime")):
        return
    for zone in ZONES:
        for bound in BOUNDS:
            at = calendar.timegm(time.strptime(bound, "%Y%m%d%H%M%SZ"))
            for moment, kind, is_right in (
                (at - 1, "NOTBEFORE", False),
                (at, "NOTBEFORE", True),
                (at, "NOTAFTER", True),
                (at + 1, "NOTAFTER", False),
            ):
                host.put("desk", f"ann ALL = (root) {kind}={bound} /usr/bin/id\n")
                # (in seconds since 1970, which are the same in each zone)
                words = ["env", "FAKETIME_FMT=%s", f"TZ={zone}", "faketime", "-f", str(moment)]
                words += ["sudo", "-n", "-l", "-U", "ann", "-u", "root", "--", "/usr/bin/id"]
                ran = host.run(*words)
                is_it = (ran.returncode == 0) == is_right
                host.check(f"{zone}, {kind}={bound} at {moment}", is_it, ran.stdout)


def rust(host: Host) -> None:
    """sudo-rs drops lines with moments: a grant never comes, and a dated denial does not hold."""
    if not os.path.exists(host.path("/usr/bin/sudo-rs")):
        return
    host.put("desk", free(line("ann", HOUR)))
    is_granted = runs(host, "ann", "/usr/local/sbin/granted", sudo="sudo-rs")
    host.check("sudo-rs, a grant", not is_granted)
    host.put("desk", "ann ALL = (root) NOPASSWD: ALL\n")
    is_granted = runs(host, "ann", "/usr/local/sbin/granted", sudo="sudo-rs")
    host.check("sudo-rs, a line without a moment", is_granted)
    dated = line("ann", HOUR, "!/usr/local/sbin/granted")
    host.put("desk", f"ann ALL = (root) NOPASSWD: ALL\n{dated}")
    is_granted = runs(host, "ann", "/usr/local/sbin/granted", sudo="sudo-rs")
    host.check("sudo-rs, a dated denial", is_granted)
    refused = host.run("visudo-rs", "-c", "-f", FILE_OF_HOST)
    host.check("its visudo refuses the file", refused.returncode != 0, refused.stdout)


PLACE = "/usr/local/sbin/granted"
# other ways to the same file, or to the like: what makes each, and whether a line for the file, or
# a denial of it, is one for that too
ALWAYS, NEVER, BY_FILE = "always", "never", "where sudo compares files, and not their folders"
WAYS = (
    ("a symbolic link of its name", "/srv/soft/granted", "ln -s {} {}", BY_FILE),
    ("a hard link of its name", "/srv/hard/granted", "ln {} {}", BY_FILE),
    ("a file of its name in a folder that is a link", "/srv/folder/granted", "", ALWAYS),
    ("a symbolic link of another name", "/srv/soft/other", "ln -s {} {}", NEVER),
    ("a hard link of another name", "/srv/hard/other", "ln {} {}", NEVER),
    ("a copy of its name", "/srv/copy/granted", "cp -p {} {}", NEVER),
    ("a copy of another name", "/srv/copy/other", "cp -p {} {}", NEVER),
)
FOLDERS = (1, 9, 14)  # from here on folders are compared (seen: 1.9.13 does not, 1.9.16 does)


def links(host: Host) -> None:
    """Commands are compared by their last component, and by inode: their own or, in a later sudo,
    their folder's. So in what allows and in what denies."""
    host.write(PLACE, "#!/bin/sh\ntrue\n")
    os.chmod(host.path(PLACE), 0o755)
    for _, way, made, _ in WAYS:
        if made:
            os.makedirs(os.path.dirname(host.path(way)), exist_ok=True)
            host.does(f"{way} is made", *made.format(PLACE, way).split())
    host.does("a linked folder", "ln", "-sfT", os.path.dirname(PLACE), "/srv/folder")
    if os.path.islink(host.path("/bin")):
        host.put("desk", "ann ALL = (root) NOPASSWD: /bin/true\n")
        host.check("/bin/true is /usr/bin/true too", runs(host, "ann", "/usr/bin/true"))
    allowing = f"ann ALL = (root) NOPASSWD: {PLACE}\n"
    denying = f"ann ALL = (root) NOPASSWD: ALL\nann ALL = (root) !{PLACE}\n"
    for what, way, _, when in WAYS:
        is_same = when == ALWAYS or when == BY_FILE and host.version < FOLDERS
        host.put("desk", allowing)
        host.check(f"a line and {what}", runs(host, "ann", way) == is_same)
        host.put("desk", denying)
        host.check(f"a denial and {what}", runs(host, "ann", way) != is_same)


def names(host: Host) -> None:
    """Names are compared without case, unless the settings that are shipped say otherwise: every
    sudo reads these."""
    with open(host.path("/etc/passwd"), "a", encoding="utf-8") as file:
        file.write("ANN:*:4001:4001::/:/bin/sh\n")
    with open(host.path("/etc/group"), "a", encoding="utf-8") as file:
        file.write("ANN:x:4001:\n")
    host.put("desk", "ann ALL = (root) NOPASSWD: /usr/bin/true\n")
    host.check("another's account in capitals", runs(host, "ANN", "/usr/bin/true"))
    with open(DEFAULTS, encoding="utf-8") as file:
        host.put("desk-defaults", file.read())
    host.does("visudo takes the settings", "visudo", "-c", says="desk-defaults: parsed OK")
    host.check("and not with the settings", not runs(host, "ANN", "/usr/bin/true"))
    host.check("but its own", runs(host, "ann", "/usr/bin/true"))
    host.does("a prompt's time", "sudo", "-V", says="Password prompt timeout: 1.0 minutes")
    host.drop("desk-defaults")


def late(host: Host) -> None:
    """Moments up to the last that a desk writes."""
    host.put("desk", "ann ALL = (root) NOTAFTER=20991231235959Z NOPASSWD: /usr/bin/true\n")
    host.does("visudo takes a moment of 2099", "visudo", "-c")
    if host.is_fit:
        host.check("and it is in force", runs(host, "ann", "/usr/bin/true"))


BLANKS = " \t\\\nUser_Alias OPS = ann\nOPS ALL = (root) NOPASSWD: /usr/bin/true\n"


def continued(host: Host) -> None:
    """A line of blanks and a backslash before an alias: sudo refuses it, and the desk reads it and
    prints the alias on a line of its own, which every sudo reads."""
    host.put("desk", BLANKS)
    refused = host.run("visudo", "-c", "-f", FILE_OF_HOST)
    is_told = re.search("desk:[12].*(syntax error|line continuation)", refused.stdout) is not None
    host.check("blanks before an alias", refused.returncode == 1 and is_told, refused.stdout)
    program = os.environ.get("DESK", desk.PROGRAM[0])
    canonical = desk.run([program, "check", host.path(FILE_OF_HOST)]).stdout
    wanted = BLANKS.partition("\n")[2]
    host.check("the desk prints two lines", canonical == wanted, canonical)
    host.put("desk", canonical)
    host.does("visudo takes these", "visudo", "-c", "-f", FILE_OF_HOST)
    host.check("and they count", runs(host, "ann", "/usr/bin/true"))


# the last moment of 32 bits, and the second after it
LAST, PAST = "20380119031407Z", "20380119031408Z"


def narrow(host: Host) -> None:
    """The sudo of a 32-bit Debian 12 refuses a moment past January 2038; then the host's file
    stays as it was. Up to that moment all is as elsewhere."""
    said = host.run("dpkg", "--print-architecture").stdout.strip()
    host.check("it has 32 bits", said == "i386", said)
    for moment, is_taken in ((LAST, True), (PAST, False), ("20991231235959Z", False)):
        text = f"ann ALL = (root) NOTAFTER={moment} NOPASSWD: /usr/bin/true\n"
        host.drop(STATE)
        os.mkdir(host.path(STATE))
        host.put("desk", GOOD)
        with serving(host, desk_of(text.encode(), 1)):
            status, told = host.fetch()
        is_right = (status, host.held()) == ((0, text.encode()) if is_taken else (1, GOOD))
        host.check(f"a fetch of {moment}", is_right, f"{status} {told}")
        host.check(f"what it allows, {moment}", runs(host, "ann", "/usr/bin/true") == is_taken)
        host.put("desk", text)
        refused = host.run("visudo", "-c", "-f", FILE_OF_HOST)
        host.check(f"visudo of {moment}", (refused.returncode == 0) == is_taken, refused.stdout)


def is_refused(host: Host, text: str) -> bool:
    """Whether its visudo refuses a file."""
    host.put("desk", text)
    return host.run("visudo", "-c", "-f", FILE_OF_HOST).returncode != 0


def allows(host: Host, text: str, user: str, *command: str, zone: str = "UTC") -> bool:
    host.put("desk", text)
    return runs(host, user, *command, zone=zone)


def facts(host: Host) -> dict[str, bool]:
    """The rows of the table of docs/HOSTS.md that says what each sudo does, by this one."""
    over = desk.stamp(time.time() - 39.5 * HOUR)
    ended = f"ann ALL = (root) NOTAFTER={over} NOPASSWD: {PLACE}\n"
    allowing = f"ann ALL = (root) NOPASSWD: {PLACE}\n"
    denying = f"ann ALL = (root) NOPASSWD: ALL\nann ALL = (root) !{PLACE}\n"
    past = f"ann ALL = (root) NOTAFTER={PAST} ALL\n"
    return {
        "the user's `TZ` moves moments": any(
            allows(host, ended, "ann", PLACE, zone=zone) for zone in ZONES
        ),
        "a path through a linked folder matches a line": allows(host, allowing, "ann", WAYS[2][1]),
        "a link of the same name is the command": allows(host, allowing, "ann", WAYS[0][1]),
        "a denied command's copy runs": allows(host, denying, "ann", "/srv/copy/granted"),
        "`ANN` has the rights of `ann`": allows(host, allowing, "ANN", PLACE),
        "an alias behind a line of blanks and `\\` is refused": is_refused(host, BLANKS),
        "a moment past January 2038 is refused": is_refused(host, past),
    }


def page(host: Host) -> None:
    """The page's table is what this sudo does."""
    lines = desk.read("docs", "HOSTS.md").splitlines()
    rows = [[it.strip() for it in line.split(" | ")] for line in lines if line.startswith("| ")]
    rows = [[it.removeprefix("| ").removesuffix(" |") for it in row] for row in rows]
    head = next(row for row in rows if row[0] == "What it does")
    release = host.name.removeprefix("Debian ")
    if release not in head:
        release = host.read("/etc/debian_version").strip().partition(".")[0]
    if release not in head:
        print(f"{host.name} is Debian {release}, of which the page says nothing")
        return
    column = head.index(release)
    said = {row[0]: row[column] for row in rows if len(row) == len(head)}
    for fact, is_so in facts(host).items():
        told = said.get(fact)
        host.check(f"the page says of {fact!r}", told == ("yes" if is_so else "no"), str(told))


PARTS = (zones, bounds, rust, links, names, continued, late, page)
NARROW = (links, names, narrow, page)
