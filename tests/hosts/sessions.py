"""What runs under a sudo that no longer allows it, and what `desk-host end-sessions` leaves alone:
for hosts.py."""

from __future__ import annotations

import contextlib
import os
import signal
import time
from collections.abc import Iterator, Sequence

from pexpect import TIMEOUT

from tests.hosts.prompt import Terminal, line
from tests.hosts.root import Host, within

GRACE = 2


def ended(host: Host, *more: str) -> str:
    """What `desk-host end-sessions` says, with that grace."""
    host.conf("http://127.0.0.1:1", GRACE=str(GRACE), PROMPT="60", *more)
    said = host.does("end-sessions", "desk-host", "end-sessions").splitlines(keepends=True)
    # (where this machine gives none, that is told of each)
    return "".join(it for it in said if host.has_groups or "has no control group" not in it)


def words_of_all(host: Host) -> Iterator[tuple[int, list[bytes]]]:
    """Every process, with its words."""
    for name in os.listdir(host.path("/proc")):
        if not name.isdigit():
            continue
        try:
            with open(host.path(f"/proc/{name}/cmdline"), "rb") as file:
                words = file.read().split(b"\0")
        except OSError:
            continue
        yield int(name), words


def processes(host: Host, mark: str, but: bytes = b"") -> list[int]:
    """The processes whose words have the mark, but those of that program."""
    found = ((pid, it) for pid, it in words_of_all(host) if mark.encode() in it)
    return [pid for pid, words in found if words[0] != but]


def sleeping(host: Host, mark: str) -> list[int]:
    """The processes that are a sleep of that many seconds, and nothing else."""
    return [pid for pid, words in words_of_all(host) if words == [b"sleep", mark.encode(), b""]]


def there(host: Host, mark: str, is_there: bool = True, seconds: float = 180) -> bool:
    """Whether such a process is there, or gone, within some seconds. (It is there once sudo has
    started it, and gone once its sudo is.)"""
    but = b"sudo" if is_there else b""
    return within(lambda: bool(processes(host, mark, but)) == is_there, seconds)


def stop(host: Host, mark: str) -> None:
    """Kills such processes. (A sudo whose command was killed ends by itself.)"""
    for pid in processes(host, mark, b"sudo"):
        with contextlib.suppress(ProcessLookupError):
            os.kill(pid, signal.SIGKILL)
    host.check(f"{mark} is gone", there(host, mark, is_there=False))


# Each is a name, what the host lets ann run, what is typed, and the word by which its processes are
# known. They run at once, in two rounds: under ALL, and under lines for just these commands.
SIGNALS = {"7106": "STOP", "7111": "KILL"}  # what ann sends to her own sudo
EVERYTHING = ("(root) ALL", "(dba) ALL")
ROUNDS = [
    [
        ("sudo -i with children", EVERYTHING, "sudo -i sh -c 'sleep 7101 & sleep 7101; :'", "7101"),
        ("a command", EVERYTHING, "sudo sleep 7102", "7102"),
        ("one in the background", EVERYTHING, "sudo -b sleep 7104", "7104"),
        ("without SIGTERM", EVERYTHING, "sudo sh -c 'trap \"\" TERM; sleep 7105; :'", "7105"),
        ("one that is stopped", EVERYTHING, "sudo sleep 7106 &", "7106"),
        ("sudo -s", EVERYTHING, "sudo -s sleep 7107", "7107"),
        ("as another user", EVERYTHING, "sudo -u dba sleep 7108", "7108"),
        ("a numeric target", EVERYTHING, "sudo --user=\\#$(id -u dba) sleep 7109", "7109"),
        ("with a variable", EVERYTHING, "sudo A=b sleep 7110", "7110"),
        ("without its sudo", EVERYTHING, "sudo sleep 7111 &", "7111"),
    ],
    [
        ("one command", ("(root) /usr/bin/sleep",), "sudo sleep 7121", "7121"),
        ("its arguments", ("(root) /usr/bin/env a 7122",), "sudo -n -- env a 7122", ""),
        ("a login shell", ("(root) /bin/bash",), "sudo -i", "-bash"),
        ("a shell's command", ("(root) /bin/bash",), "sudo -i sleep 7124", "7124"),
    ],
]


def allowed(seconds: float, rules: Sequence[str]) -> str:
    """ann's lines, with a window to so many seconds from now."""
    return "".join(
        line("ann", seconds, rule.partition(" ")[2]).replace("(root)", rule.partition(" ")[0])
        for rule in rules
    )


def ends(host: Host) -> None:
    """What a grant allowed that is over is warned, and ended after the grace, with its children;
    before that nothing happens to it."""
    if not host.is_fit:
        return
    host.write("/usr/local/sbin/a", "#!/bin/sh\nsleep $1\n")
    os.chmod(host.path("/usr/local/sbin/a"), 0o755)
    host.put("password", "Defaults:ann !authenticate\n")
    for cases in ROUNDS:
        rules = list(dict.fromkeys(rule for _, each, _, _ in cases for rule in each))
        host.put("desk", allowed(3600, rules))
        with contextlib.ExitStack() as stack:
            terminals = [stack.enter_context(Terminal(host, "ann")) for _ in cases]
            for terminal, (what, _, typed, mark) in zip(terminals, cases):
                terminal.send(typed)
                host.check(f"{what} runs", there(host, mark or "7122"))
                if mark in SIGNALS:  # (of the sudo that she started, and not of its own child)
                    sudo = min(set(processes(host, mark)) - set(processes(host, mark, b"sudo")))
                    host.as_user("ann", "sh", "-c", f"kill -{SIGNALS[mark]} {sudo}")
            time.sleep(0.5)
            said = ended(host)
            host.check("all are left alone in their window", not said, said)
            all_end(host, cases, terminals, rules)
    host.drop("password")


def all_end(
    host: Host,
    cases: Sequence[tuple[str, Sequence[str], str, str]],
    terminals: Sequence[Terminal],
    rules: Sequence[str],
) -> None:
    """The window is over."""
    host.put("desk", allowed(-1, rules))
    began = time.monotonic()
    said = ended(host)
    took = time.monotonic() - began
    host.check("they have their grace", took >= GRACE, f"{took}")
    for terminal, (what, _, _, mark) in zip(terminals, cases):
        host.check(f"{what} is ended", there(host, mark or "7122", False), said)
        if mark == "7111":  # (the terminal that sudo made for it is gone with its sudo)
            continue
        is_warned = terminal.child.expect([f"it is ended in {GRACE} seconds", TIMEOUT], 60) == 0
        host.check(f"{what} is warned", is_warned, str(terminal.child.before))
    again = ended(host)
    host.check("nothing is left", not again, again)


# What is left alone: a line of the host's own for it, beside a grant that is over.
STANDING = [
    ("a standing right", "ann ALL = (root) /usr/bin/sleep\n", "sudo sleep 7201", "7201"),
    ("a shell of a standing right", "ann ALL = (root) ALL\n", "sudo -i sleep 7202", "7202"),
    ("a right by a group", "%ann ALL = (root) ALL\n", "sudo sleep 7203", "7203"),
]


def leaves(host: Host) -> None:
    """What was never under a grant, and what a standing right allows, goes on; so does what root
    started, and what sudo cannot be asked about, which is told of."""
    if not host.is_fit:
        return
    for what, own, typed, mark in STANDING:
        host.put("aaa", own)
        host.put("desk", line("ann", -1, "ALL") + line("bob", -1, "ALL"))
        host.put("password", "Defaults:ann !authenticate\n")
        with Terminal(host, "ann") as terminal:
            terminal.send(typed)
            host.check(f"{what} runs", there(host, mark))
            said = ended(host)
            host.check(f"{what} goes on", not said and there(host, mark), said)
            stop(host, mark)
    host.drop("aaa")
    with Terminal(host, "ann") as terminal:
        terminal.send("sleep 7204")
        root = host.run("sh", "-c", "sudo sleep 7205 > /dev/null 2>&1 &")
        said = ended(host)
        host.check("no sudo, and root's", there(host, "7204") and there(host, "7205"), said)
        host.check("nothing is said", root.returncode == 0 and not said, said)
    stop(host, "7205")
    unjudged(host)
    host.drop("password")


def unjudged(host: Host) -> None:
    """A command whose file is gone: sudo cannot be asked."""
    host.copy("/bin/sleep", "/usr/local/sbin/gone")
    for setting, is_there in (("warn", True), ("end", False)):
        host.copy(host.path("/usr/bin/sleep"), "/usr/local/sbin/gone")
        host.put("desk", line("ann", 3600, "/usr/local/sbin/gone"))
        with Terminal(host, "ann") as terminal:
            terminal.send("sudo gone 7206")
            host.check("a command runs", there(host, "7206"))
            host.drop("/usr/local/sbin/gone")
            host.conf("http://127.0.0.1:1", GRACE=str(GRACE), UNJUDGED=setting)
            said = host.does("end-sessions", "desk-host", "end-sessions")
            told = "cannot be judged, and is left alone" if is_there else "was ended"
            is_right = there(host, "7206", is_there) and told in said
            host.check(f"what cannot be judged, UNJUDGED={setting}", is_right, said)
            terminal.send("\x03")


# What an account may choose so that nothing is ended, its own or anybody else's: a name, who, what
# is typed, and the word by which its processes are known. What was started from a folder that is
# gone from /proc can't be entered; and a log takes neither such bytes nor such a number.
DEAD = "sleep 999 & cd /proc/$!; kill $!; wait"
HOSTILE = [
    ("a folder that cannot be entered", "ann", f"{DEAD}; sudo sleep 7501", "7501"),
    ("with a search path of its own", "ann", f"{DEAD}; PATH=.:$PATH; sudo sleep 7502", "7502"),
    ("bytes that are no UTF-8", "ann", "sudo sh -c 'sleep 7503; :' $'\\xff'", "7503"),
    ("a line end", "ann", "sudo sh -c 'sleep 7504; :' $'a\\n<5>desk-host: forged'", "7504"),
]
BESIDE = [
    ("such bytes without a sudo", "SUDO_UID=4242 SUDO_COMMAND=$'\\xff' sleep 7511", "7511"),
    ("a long number", "SUDO_UID=1$(printf %05000d 1) SUDO_COMMAND=x sleep 7512", "7512"),
    ("a command of no words", "SUDO_UID=4242 SUDO_COMMAND=' ' sleep 7513", "7513"),
]


def hostile(host: Host) -> None:
    """Whatever accounts choose, what sudo no longer allows is ended, and each line that is said is
    desk-host's own."""
    if not host.is_fit:
        return
    host.put("password", "Defaults:ann !authenticate\n")
    host.put("desk", line("ann", 3600, "ALL"))
    with contextlib.ExitStack() as stack:
        for what, typed, mark in BESIDE:
            stack.enter_context(Terminal(host, "bob")).send(typed)
            host.check(f"{what} runs", there(host, mark))
        for what, user, typed, mark in HOSTILE:
            stack.enter_context(Terminal(host, user)).send(typed)
            host.check(f"{what} runs", there(host, mark))
        host.put("desk", line("ann", -1, "ALL"))
        said = ended(host)
        for what, _, _, mark in HOSTILE:
            host.check(f"{what} is ended", there(host, mark, is_there=False, seconds=20), said)
        lines = said.splitlines()
        host.check("each line is its own", all(it.startswith("desk-host: ") for it in lines), said)
        for _, _, mark in BESIDE:
            stop(host, mark)
    host.drop("password")


def settings(host: Host) -> None:
    """SESSIONS=no does nothing, SESSIONS=warn only warns, and a right that comes back within the
    grace keeps what runs."""
    if not host.is_fit:
        return
    host.put("password", "Defaults:ann !authenticate\n")
    host.put("desk", line("ann", 3600, "ALL"))
    with Terminal(host, "ann") as terminal:
        terminal.send("sudo sleep 7301")
        host.check("a command runs", there(host, "7301"))
        host.put("desk", line("ann", -1, "ALL"))
        for setting, says in (("no", "^$"), ("warn", "the right to it has ended\n")):
            host.conf("http://127.0.0.1:1", SESSIONS=setting, GRACE="0")
            said = host.does(f"SESSIONS={setting}", "desk-host", "end-sessions", says=says)
            host.check(f"SESSIONS={setting} ends nothing", there(host, "7301"), said)
        host.conf("http://127.0.0.1:1", GRACE="6")
        with host.running("desk-host", "end-sessions"):
            is_warned = terminal.child.expect(["it is ended in 6 seconds", TIMEOUT], 60) == 0
            host.put("desk", line("ann", 3600, "ALL"))
            host.check("it is warned before its right comes back", is_warned)
        host.check("a right that comes back", there(host, "7301"))
        terminal.send("\x03")
    host.drop("password")


def second(host: Host) -> None:
    """A right that ends while another session has its grace: it is warned at once, and not when the
    first one is ended."""
    if not host.is_fit:
        return
    host.put("password", "Defaults !authenticate\n")
    rights = {user: line(user, 3600, "ALL") for user in ("ann", "bob")}
    host.put("desk", "".join(rights.values()))
    with Terminal(host, "ann") as first, Terminal(host, "bob") as later:
        for terminal, mark in ((first, "7401"), (later, "7402")):
            terminal.send(f"sudo sleep {mark}")
            host.check(f"{mark} runs", there(host, mark))
        host.conf("http://127.0.0.1:1", GRACE="60")
        host.put("desk", rights["bob"])
        with host.running("desk-host", "end-sessions"):
            is_warned = first.child.expect(["it is ended in 60 seconds", TIMEOUT], 60) == 0
            host.check("the first is warned", is_warned)
            host.drop("desk")
            is_warned = later.child.expect(["it is ended in 60 seconds", TIMEOUT], 30) == 0
            host.check("the second is warned within the first one's grace", is_warned)
            for mark in ("7401", "7402"):
                stop(host, mark)
    host.drop("password")


PARTS = (ends, leaves, hostile, settings, second)
