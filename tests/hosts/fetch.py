"""What `desk-host fetch` takes, and what it leaves: for hosts.py."""

from __future__ import annotations

import calendar
import contextlib
import os
import random
import re
from collections.abc import Callable

from steelnewt_host.lawful import unlawful
from tests.common import desk
from tests.common.random_policies import alias_policy
from tests.common.replies import NO_ROUTE, Replies, counted, desk_of, digest, of_a_host, reply
from tests.hosts.root import CHANGED, FILE, STATE, Host

GOOD = b"ann ALL = (root) /usr/bin/id\n"
MORE = b"ann ALL = (root) /usr/bin/id\nbob ALL = (root) /usr/bin/id\n"
UNFIT = 3

BOB = b"bob ALL = (root) ALL\n"
# desk-host under a clock of that second (by `faketime`, what Python waits for fails at times)
CLOCK = """\
import runpy, sys, time
time.time = lambda: {}
sys.argv[0] = "/usr/sbin/desk-host"
runpy.run_path(sys.argv[0], run_name="__main__")
"""
ODD_MOMENT = reply(b"T8 BadMoment\n", "400 Bad Request")
# replies to the question for the file that a host must not take
WHOLE = counted(BOB)
REPLIES = {
    "a 201": reply(b"", "201 Created"),
    "a 203": reply(WHOLE, "203 Non-Authoritative Information"),
    "a 204": b"HTTP/1.1 204 No Content\r\nConnection: close\r\n\r\n",
    "a 206": reply(WHOLE, "206 Partial Content"),
    "a 302": reply(b"", "302 Found", "Location: http://127.0.0.1:1/\r\n"),
    "a 304": b"HTTP/1.1 304 Not Modified\r\nConnection: close\r\n\r\n",
    "a 404 of a desk": NO_ROUTE,
    "a 503": reply(b"K5 NoMemory\n", "503 Service Unavailable"),
    "a 200 without a length": re.sub(b"Content-Length: [0-9]+\r\n", b"", reply(WHOLE)),
    "a 200 that is cut": reply(WHOLE + BOB * 9)[:-60],
    "an empty 200 without a length": b"HTTP/1.1 200 OK\r\nContent-Type: text/plain\r\n\r\n",
    "a 200 with two lengths": reply(WHOLE, more=f"Content-Length: {len(WHOLE)}\r\n"),
    "a 200 in chunks": b"HTTP/1.1 200 OK\r\nContent-Type: text/plain\r\nTransfer-Encoding: chunked"
    b"\r\n\r\n" + b"%x\r\n" % len(WHOLE) + WHOLE + b"\r\n0\r\n\r\n",
    "a 200 with an encoding": reply(WHOLE, more="Content-Encoding: gzip\r\n"),
    "a page": reply(WHOLE).replace(b"text/plain", b"text/html"),
    "a 200 without a type": reply(WHOLE).replace(b"Content-Type: text/plain\r\n", b""),
    "no reply": b"",
    "no HTTP": WHOLE,
}
# lines that no desk writes; sudo reads nearly all of them
LINES = [
    "@includedir /etc/other",
    "#includedir /etc/other",
    "@include /etc/other",
    "#include /etc/other",
    "Defaults !authenticate",
    "Defaults:bob !authenticate",
    "Defaults",
    "%sudo ALL = (root) ALL",
    "#1001 ALL = (root) ALL",
    "+net ALL = (root) ALL",
    "bob ALL=(root) ALL",
    "bob ALL = ALL",
    "bob ALL = (root)  ALL",
    "bob ALL = (ALL:ALL) ALL",
    "bob ALL = (root) NOPASSWD:ALL",
    "bob ALL = (root) SETENV: ALL",
    "bob ALL = (root) NOEXEC: /bin/ls",
    "bob ALL = (root) TIMEOUT=1h /bin/ls",
    "bob ALL = (root) NOTAFTER=2030010100Z /bin/ls",
    "bob ALL = (root) NOTAFTER=20300101000000 /bin/ls",
    "bob ALL = (root) NOTAFTER=20301301000000Z /bin/ls",
    "bob ALL = (root) CWD=/ /bin/ls",
    "bob ALL = (root) /bin/*",
    "bob ALL = (root) ^/bin/.*$",
    "bob ALL = (root) /bin/../bin/ls",
    "bob ALL = (root) bin/ls",
    "bob ALL = (root) sudoedit /etc/passwd",
    "bob ALL = (root) /usr/bin/sudoedit",
    "bob ALL = (root) sha256:00 /bin/ls",
    "bob ALL = (root) list",
    "bob ALL = (root) /bin/ls a*",
    "bob 127.0.0.1 = (root) ALL",
    "bob ALL = (root) /bin/ls : db1 = (root) ALL",
    "bob ALL = (root) /bin/ls, /bin/cat",
    'bob ALL = (root) "/bin/ls"',
    "User_Alias A = bob : B = ann",
    "User_Alias  A = bob",
    "bob ALL = (root) \\",
    "# a remark",
    "",
    "\tbob ALL = (root) ALL",
    "<html>",
]


@contextlib.contextmanager
def serving(host: Host, answer: Callable[[str], bytes], **settings: str):
    """A desk that the host is told of, and that answers so."""
    with Replies(answer) as server:
        host.conf(server.url, **settings)
        yield server


def begin(host: Host) -> None:
    """A host that has its file, and no record."""
    host.drop(STATE, *os.listdir(host.path("/etc/sudoers.d")))
    host.put("desk", GOOD)
    os.utime(host.path(FILE), (1, 1))


def keeps(host: Host, what: str, answer: Callable[[str], bytes], says: str = "") -> None:
    """A fetch that leaves the host as it was, and says so."""
    begin(host)
    with serving(host, answer):
        status, said = host.fetch()
    is_same = host.held() == GOOD and os.stat(host.path(FILE)).st_mtime == 1
    is_alone = os.listdir(host.path("/etc/sudoers.d")) == ["desk"]
    is_told = "stays as it is" in said and says in said
    host.check(what, status == 1 and is_same and is_alone and is_told, f"{status}: {said}")


def old_sudo(host: Host) -> None:
    """A sudo that would read the file otherwise gets none, and is named."""
    if host.is_fit:
        return
    begin(host)
    with serving(host, desk_of(MORE)) as server:
        status, said = host.fetch()
    is_named = "is too old (Sudo version 1.9.5p2): before 1.9.9 a user's TZ moves the dates" in said
    host.check("a sudo before 1.9.9", status == UNFIT and is_named, f"{status}: {said}")
    host.check("and nobody is asked", host.held() == GOOD and not server.asked)


def sudo_rs(host: Host) -> None:
    """sudo-rs in sudo's place."""
    if not os.path.exists(host.path("/usr/bin/sudo-rs")):
        return
    begin(host)
    for name in ("sudo", "visudo"):
        os.symlink(f"/usr/bin/{name}-rs", host.path(f"/usr/local/bin/{name}"))
        with serving(host, desk_of(MORE)) as server:
            status, said = host.fetch()
        is_named = f"/usr/local/bin/{name} is sudo-rs or unknown" in said
        host.check(f"{name} of sudo-rs", status == UNFIT and is_named, f"{status}: {said}")
        host.check("and nobody is asked", host.held() == GOOD and not server.asked)
        host.drop(f"/usr/local/bin/{name}")


def other_replies(host: Host) -> None:
    """Whatever is no whole 200 of a desk, with lines that a desk writes, leaves the old file: one
    fetch asks a desk for each of them, and takes none."""
    if not host.is_fit:
        return
    answers = {what: of_a_host(given) for what, given in REPLIES.items()}
    for what, text in (
        ("a byte past ASCII", BOB + b"# \xc3\xbc\n"),
        ("a carriage return", BOB.replace(b"\n", b"\r\n")),
        ("a zero byte", BOB + b"\0"),
        ("no last newline", BOB[:-1]),
    ):
        answers[what] = desk_of(text)
    digests = b"a" * 64 + b" " + digest(b"").encode()
    for count in (b"", b"x", b"-1 " + digests, b"1  " + digests, b"1 " + digests, b"01 " + digests):
        end = b"" if count == b"1 " + digests else b"\n"
        answers[f"a count {count[:9]!r}"] = of_a_host(reply(count + end + MORE))
    answers["a count that is cut"] = of_a_host(reply(counted(MORE)[:99] + b"\n" + MORE))
    none_of(host, answers, "")
    lines = {f"a line {line}": desk_of(GOOD + line.encode() + b"\n") for line in LINES}
    none_of(host, lines, "its file is none of a desk's: line 2 ")
    no_alias = desk_of(b"OPS ALL = (root) ALL\n")
    keeps(host, "an alias that nobody defines", no_alias, "visudo refuses it: ")


def none_of(host: Host, answers: dict[str, Callable[[str], bytes]], says: str) -> None:
    """Desks with these answers, of which none is taken."""
    begin(host)
    with contextlib.ExitStack() as stack:
        urls = {what: stack.enter_context(Replies(it)).url for what, it in answers.items()}
        host.conf(*urls.values())
        status, said = host.fetch()
    is_same = host.held() == GOOD and os.stat(host.path(FILE)).st_mtime == 1
    host.check("none is taken", status == 1 and is_same and "stays as it is" in said, said)
    host.check("none is left", os.listdir(host.path("/etc/sudoers.d")) == ["desk"])
    for what, url in urls.items():
        host.check(f"{what} is told of", f"desk-host: {url}: {says}" in said, said)


def own_lines(host: Host) -> None:
    """Every canonical text of the desk's is taken: of the examples, and of random policies."""
    program = [os.environ.get("DESK", desk.PROGRAM[0])]
    taken, rng = unlawful, random.Random(3)
    names = ("site.sudo", "base.sudo", "team.sudo")
    texts = [desk.read("examples", name) for name in names]
    texts += [alias_policy(rng) for _ in range(20)]
    wrong = []
    for text in texts:
        path = desk.write(host.folder, "policy", text)
        canonical = desk.run([*program, "check", path]).stdout.encode()
        wrong += [taken(canonical) or ""] if taken(canonical) or not canonical else []
    host.check(f"{len(texts)} canonical texts", not wrong, str(wrong[:3]))


def takes(host: Host) -> None:
    """What a desk sends is taken, with the right mode, by no way round; a file that loses all its
    lines is told of."""
    if not host.is_fit:
        return
    begin(host)
    with serving(host, desk_of(MORE)) as server:
        status, said = host.fetch()
        seen = os.stat(host.path(FILE))
        is_right = (seen.st_mode & 0o7777, seen.st_uid, seen.st_gid) == (0o440, 0, 0)
        host.check("a file is taken", status == 0 and host.held() == MORE and not said, said)
        host.check("its mode and owner", is_right, str(seen))
        asked = [re.sub("[0-9]+Z", "MOMENT", it) for it in server.asked]
        is_right = asked == ["/v1/hosts/db1/at/MOMENT", "/v1/history"]
        host.check("of a state that is new, its past is asked", is_right, str(server.asked))
        os.chmod(host.path(FILE), 0o644)
        status, said = host.fetch()
        mode = os.stat(host.path(FILE)).st_mode & 0o7777
        host.check("a mode is set right", (status, mode) == (0, 0o440), f"{mode:o} {said}")
        host.check("and else one question is put", len(server.asked) == 3, str(server.asked))
        server.answer = desk_of(b"")
        status, said = host.fetch()
        is_told = "loses all its 2 lines" in said
        host.check("an empty file is told of", status == 0 and is_told, f"{status}: {said}")
    host.check("it is empty", host.held() == b"")


def ways_round(host: Host) -> None:
    """A symbolic link in the file's place, a folder of others, and what a killed fetch left."""
    if not host.is_fit:
        return
    with serving(host, desk_of(MORE)):
        begin(host)
        host.write("/tmp/elsewhere", "as it was\n")
        host.drop("desk")
        os.symlink("/tmp/elsewhere", host.path(FILE))
        status, said = host.fetch()
        is_same = host.read("/tmp/elsewhere") == "as it was\n"
        is_link = os.path.islink(host.path(FILE))
        told = status == 1 and "symbolic link" in said
        host.check("a symbolic link", told and is_same and is_link, f"{status}: {said}")
        begin(host)
        os.chmod(host.path("/etc/sudoers.d"), 0o777)
        status, said = host.fetch()
        os.chmod(host.path("/etc/sudoers.d"), 0o755)
        host.check("a folder of others", status == 1 and host.held() == GOOD, f"{status}: {said}")
        left = "desk.new.0123456789abcdef"
        begin(host)
        host.put(left, BOB)
        status, said = host.fetch()
        is_gone = left not in os.listdir(host.path("/etc/sudoers.d"))
        host.check("what a killed fetch left", status == 0 and is_gone, f"{status}: {said}")


def aliases(host: Host) -> None:
    """An alias that the host defines too: sudo takes the first definition, and others gain rights;
    the old file comes back, with its time."""
    if not host.is_fit:
        return
    base = b"User_Alias OPS = bob\nOPS ALL = (root) /usr/bin/id\n"
    for own in ("aaa", "zzz"):
        begin(host)
        host.put(own, "User_Alias OPS = carl\nOPS ALL = (root) /usr/bin/env\n")
        with serving(host, desk_of(base)):
            status, said = host.fetch()
        is_told = re.search('sudo refuses or reads .*"OPS".* (already|previously) defined', said)
        host.check(f"an alias of {own}", status == 1 and is_told is not None, f"{status}: {said}")
        is_same = host.held() == GOOD and os.stat(host.path(FILE)).st_mtime == 1
        host.check("the old file is back", is_same and host.may("ann", "/usr/bin/id"), said)
        host.check("nobody gains", not host.may("carl", "/usr/bin/id"))
    host.drop("desk")
    with serving(host, desk_of(base)):
        status, said = host.fetch()
    host.check("and where there was none", status == 1 and host.held() is None, said)
    begin(host)
    host.put("aaa", "bob ALL = (root\n")
    with serving(host, desk_of(MORE)):
        status, said = host.fetch()
    is_told = "a fault that was there before" in said
    host.check("a fault of another file", status == 0 and is_told and host.held() == MORE, said)


@contextlib.contextmanager
def killing(host: Host):
    """A visudo that kills the fetch as it asks of everything for the second time: it does before it
    puts a file in place, and after it."""
    stub = '#!/bin/sh\n[ "$*$(cat /tmp/asked)" = -cx ] && kill -KILL $PPID\n'
    stub += '[ "$*" != -c ] || printf x >> /tmp/asked\nexec /usr/sbin/visudo "$@"\n'
    host.write("/usr/local/sbin/visudo", stub)
    host.write("/tmp/asked", "")
    os.chmod(host.path("/usr/local/sbin/visudo"), 0o755)
    try:
        yield
    finally:
        host.drop("/usr/local/sbin/visudo")


def killed(host: Host) -> None:
    """A fetch that is killed before it has asked visudo of everything: the next one does, though
    no desk answers. Both note that the rights are others, for prompts that are open."""
    if not host.is_fit:
        return
    base = b"User_Alias OPS = bob\nOPS ALL = (root) /usr/bin/id\n"
    begin(host)
    host.put("aaa", "User_Alias OPS = carl\nOPS ALL = (root) /usr/bin/env\n")
    host.drop(CHANGED)
    with serving(host, desk_of(base)), killing(host):
        status, said = host.fetch()
    host.check("it is killed in time", status == -9 and host.held() == base, f"{status}: {said}")
    host.check("it noted the change", os.path.exists(host.path(CHANGED)), said)
    host.drop(CHANGED)
    status, said = host.fetch()
    is_told = "the fetch before this one was killed: with it, sudo refuses" in said
    host.check("the next one puts it back", status == 1 and is_told and host.held() == GOOD, said)
    host.check("and notes the change", os.path.exists(host.path(CHANGED)), said)
    host.drop("aaa")


def far_date(host: Host) -> None:
    """A front's Date of a year that no calendar has: the file is taken all the same."""
    if not host.is_fit:
        return
    begin(host)
    date = "Date: Mon, 01 Jan 99999999999 00:00:00 GMT\r\n"
    with serving(host, of_a_host(reply(counted(MORE), more=date))):
        status, said = host.fetch()
    is_right = status == 0 and host.held() == MORE and not said
    host.check("a Date that is none", is_right, f"{status}: {said}")


def odd_clock(host: Host) -> None:
    """A clock that shows a year of which no desk has a moment: that is said, and the whole file is
    taken. A desk refuses such a moment."""
    if not host.is_fit:
        return

    def answer(target: str) -> bytes:
        is_whole = target.endswith("/at/19700101000000Z")
        return of_a_host(reply(counted(MORE)) if is_whole else ODD_MOMENT)(target)

    for year in (1969, 2105):
        begin(host)
        clock = CLOCK.format(calendar.timegm((year, 6, 1, 12, 0, 0)))
        with serving(host, answer):
            ran = host.run("/usr/bin/python3", "-c", clock, "fetch", "db1")
        is_taken = ran.returncode == 0 and host.held() == MORE
        host.check(f"the file is taken in {year}", is_taken, ran.stdout)
        is_told = f"this host's clock shows the year {year}: set it" in ran.stdout
        host.check(f"the year {year} is told", is_told, ran.stdout)


def uncounted(host: Host) -> None:
    """A desk that is too old to say what its file is made of, and one that says another thing."""
    if not host.is_fit:
        return
    keeps(host, "a desk without the route", lambda target: NO_ROUTE, "the desk is too old")
    refused = of_a_host(reply(b"P2 NoHost\n", "404 Not Found"))
    keeps(host, "a roster without the host", refused, "the desk's roster has no host db1")
    other = counted(MORE).replace(digest(b"").encode(), digest(GOOD + GOOD).encode())
    keeps(host, "another's count", of_a_host(reply(other)), "does not begin with the base that it")


PARTS = (
    old_sudo,
    sudo_rs,
    own_lines,
    takes,
    other_replies,
    ways_round,
    aliases,
    killed,
    far_date,
    odd_clock,
    uncounted,
)
