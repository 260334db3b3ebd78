"""A prompt that waits, and is stopped and continued, at a real sudo with PAM and a terminal: for
hosts.py."""

from __future__ import annotations

import contextlib
import os
import re
import time
from collections.abc import Sequence

import pexpect

from tests.common import desk
from tests.common.replies import desk_of
from tests.hosts.fetch import serving
from tests.hosts.root import TREE, Host, within

PROFILE = os.path.join(TREE, "packaging", "host", "pam-config")
PROMPT = 3  # the seconds that these tests give a prompt
OPENS = 12  # the seconds in which a slow machine opens three of them
RAN = "the command ran"
HOWS = ("awake", "stopped by its terminal", "stopped by its user")
USERS = ("ann", "bob", "carl")


def prepare(host: Host) -> None:
    """A command of the tests' own, and the step of PAM as pam-auth-update puts it in."""
    host.conf("http://127.0.0.1:1", PROMPT=str(PROMPT))
    host.write("/usr/local/sbin/granted", f"#!/bin/sh\necho {RAN}\n")
    os.chmod(host.path("/usr/local/sbin/granted"), 0o755)
    if os.path.exists(PROFILE):
        with open(PROFILE, encoding="utf-8") as file:
            filled = file.read().replace("@SBINDIR@", "/usr/sbin")
        host.write("/usr/share/pam-configs/desk-host", filled)
        host.does("pam-auth-update", "pam-auth-update", "--package")


class Terminal:
    """A user's shell at a terminal of its own."""

    def __init__(self, host: Host, user: str) -> None:
        words = [host.root, "/usr/bin/setpriv", "--reuid", user, "--regid", user, "--init-groups"]
        words += ["/usr/bin/env", "-i", "PATH=/usr/bin:/bin", f"HOME=/home/{user}", "TERM=dumb"]
        words += [f"USER={user}", "SHELL=/bin/bash", "/bin/bash", "--norc", "-i"]
        self.child = pexpect.spawn("chroot", words, encoding="utf-8", timeout=180, echo=False)
        self.user = user
        self.child.sendline("stty -echo; PS1=READY'> '")
        self.child.expect("READY> ")

    def __enter__(self) -> Terminal:
        return self

    def __exit__(self, *_: object) -> None:
        # (where a machine has much to do, a killed shell is there for longer than pexpect waits)
        with contextlib.suppress(pexpect.ExceptionPexpect):
            self.child.close(force=True)
        within(lambda: not self.child.isalive())

    def send(self, line: str) -> None:
        self.child.sendline(line)

    def asks(self) -> bool:
        """Whether it is asked for its password."""
        return self.child.expect(["password for [a-z]+: ?", pexpect.TIMEOUT, "READY> "]) == 0

    def said(self, seconds: float = 180) -> str:
        """What stands before the shell asks for its next line."""
        self.child.expect(["READY> ", pexpect.TIMEOUT], timeout=seconds)
        return self.child.before or ""

    def answers(self) -> str:
        """Gives its password, again where nobody hears it: a sudo that goes on drops what was typed
        before it reads. What is said then."""
        said = ""
        for _ in range(9):
            self.send(self.user)
            said += self.said(20)
            if self.child.after == "READY> ":
                break
        return said


def line(user: str, seconds: float, command: str = "/usr/local/sbin/granted") -> str:
    """A line with a window from an hour ago to so many seconds from now."""
    first, last = desk.stamp(time.time() - 3600), desk.stamp(time.time() + seconds)
    return f"{user} ALL = (root) NOTBEFORE={first} NOTAFTER={last} {command}\n"


def sudos(host: Host) -> list[int]:
    """The sudos that run."""
    found = []
    for name in os.listdir(host.path("/proc")):
        try:
            path = os.readlink(host.path(f"/proc/{name}/exe"))
        except OSError:
            continue
        if name.isdigit() and re.search("/usr/bin/sudo$", path):
            found.append(int(name))
    return found


def asked(host: Host, hows: Sequence[str]) -> list[tuple[str, Terminal]]:
    """A prompt for each user, that stays awake or is stopped."""
    found = []
    for user, how in zip(USERS, hows):
        terminal = Terminal(host, user)
        terminal.send("sudo -k; sudo /usr/local/sbin/granted")
        host.check(f"a prompt that will be {how}", terminal.asks())
        if how == "stopped by its terminal":
            terminal.child.send("\x1a")
        elif how == "stopped by its user":
            own = " ".join(map(str, sudos(host)))
            host.as_user(user, "sh", "-c", f"kill -STOP {own}")
        if how != "awake":
            terminal.child.expect("READY> ")
        found.append((how, terminal))
    return found


def old_prompts(host: Host) -> None:
    """A prompt that was opened inside the window, and is answered after it, or after a
    revocation: nothing starts."""
    if not host.is_fit:
        return
    prepare(host)
    for ends in ("by its date", "by a revocation"):
        seconds = OPENS if ends == "by its date" else 3600
        over = time.monotonic() + OPENS
        host.put("desk", "".join(line(user, seconds) for user in USERS))
        opened = asked(host, HOWS)
        if ends == "by a revocation":
            host.put("desk", "".join(line(user, -1) for user in USERS))
            over = time.monotonic()
        time.sleep(max(over, time.monotonic() + PROMPT) + 2.5 - time.monotonic())
        for how, terminal in opened:
            with terminal:
                if how != "awake":
                    terminal.send("fg")
                    terminal.child.expect("granted|password")
                    time.sleep(0.3)
                said = terminal.answers()
            is_told = "sudo was started too long ago" in said
            what = f"a prompt that waited, {how}, for a grant that ended {ends}"
            host.check(what, RAN not in said and is_told, said)


def by_the_step(host: Host) -> None:
    """The same by the step of PAM, where sudo does not load the plugin."""
    if not host.is_fit:
        return
    with host.unplugged():
        old_prompts(host)
        prompts(host)
        changed_meanwhile(host)
    left = os.listdir(host.path("/run/desk-host/asked"))
    host.check("it noted who asked", left != [], str(left))
    host.does("end-sessions", "desk-host", "end-sessions")
    left = os.listdir(host.path("/run/desk-host/asked"))
    host.check("no note is left of what has ended", not left, str(left))


def prompts(host: Host) -> None:
    """Within its time a prompt is good; and for no other service does the step ask anything."""
    if not host.is_fit:
        return
    prepare(host)
    host.conf("http://127.0.0.1:1", PROMPT="60")
    host.put("desk", line("ann", 3600))
    with Terminal(host, "ann") as terminal:
        terminal.send("sudo -k; sudo /usr/local/sbin/granted")
        asked = terminal.asks()
        terminal.send("ann")
        said = terminal.said()
        host.check("a prompt that is answered at once", asked and RAN in said, said)
        terminal.send("sudo /usr/local/sbin/granted")
        said = terminal.said()
        host.check("a password that counts for a while", RAN in said, said)
        host.put("desk", line("ann", 3600, "ALL"))
        terminal.send("sudo -i echo a shell; echo ended $?")
        said = terminal.said()
        host.check("sudo -i", "a shell" in said and "ended 0" in said, said)
        host.conf("http://127.0.0.1:1", PROMPT="soon")
        terminal.send("sudo /usr/local/sbin/granted")
        said = terminal.said()
        host.check("a slip in the settings", RAN in said, said)
    ran = host.run("su", "ann", "-c", f"echo {RAN}")
    host.check("another service", ran.returncode == 0 and RAN in ran.stdout, ran.stdout)


def changed_meanwhile(host: Host) -> None:
    """A revocation that is fetched while a prompt is open ends it, however young it is."""
    if not host.is_fit:
        return
    host.drop("/var/lib/desk-host")
    host.put("desk", line("ann", 3600))
    with Terminal(host, "ann") as terminal:
        terminal.send("sudo -k; sudo /usr/local/sbin/granted")
        asked = terminal.asks()
        with serving(host, desk_of(line("ann", -1).encode(), 1), PROMPT="60"):
            status, told = host.fetch()
        host.check("the revocation is fetched", status == 0, told)
        terminal.send("ann")
        said = terminal.said()
    is_told = "rights have changed since sudo was started" in said
    host.check("a prompt before a revocation", asked and RAN not in said and is_told, said)


PARTS = (old_prompts, prompts, changed_meanwhile, by_the_step)
