"""What `desk-host check` finds: for hosts.py."""

from __future__ import annotations

import os
import re
import time

from tests.hosts.prompt import prepare
from tests.hosts.root import FILE, STATE, Host

GIVES = b"ann ALL = (root) /usr/bin/id\nann ALL = (root) !/usr/bin/env\n"
GIVEN = "another file gives what the desk's denies: ann's `/usr/bin/env` as root"
SETTINGS = "Defaults !case_insensitive_user, !case_insensitive_group\n"


def finds(host: Host, what: str, says: str, mended: int = 1, status: int = 2) -> None:
    """One thing is to be mended, and this is said of it."""
    said = host.does(what, "desk-host", "check", status=status, says=says)
    host.check(f"{what}, alone", f": {mended} to mend: " in said, said)


def sound(host: Host, what: str) -> None:
    says = "^DESK HOST OK - .*: 0 to mend [|] desk_host_to_mend=0 desk_host_status=0 "
    host.does(what, "desk-host", "check", says=says)


def check(host: Host) -> None:
    """Each thing that is not as it has to be is found, by what sudo itself reads and loads."""
    if not host.is_fit or not host.has_groups:
        return
    prepare(host)
    host.conf("http://127.0.0.1:1")
    host.drop(*os.listdir(host.path("/etc/sudoers.d")), "/run/desk-host/looked")
    host.put("desk", GIVES)
    host.put("desk-defaults", SETTINGS)
    host.drop(f"{STATE}/self-test")
    says = "desk-host check --deep was never run"
    finds(host, "no self-test yet", says, 2)
    said = host.does("check --deep", "desk-host", "check", "--deep", status=2, says="not looked")
    host.check("check --deep, alone", ": 1 to mend: " in said, said)
    finds(host, "no look yet", "has not looked since this machine started")
    host.does("end-sessions", "desk-host", "end-sessions", says="^$")
    sound(host, "all as it has to be")
    host.put("aaa", "bob ALL = (root) ALL\n")
    host.put("zz-defaults", "Defaults !lecture\n")
    sound(host, "with files that take nothing from it")
    for what, text in (
        ("a file behind it", "ann ALL = (root) NOPASSWD: /usr/bin/env\n"),
        ("one that includes", "@include /etc/other\n"),
    ):
        host.write("/etc/other", "ann ALL = (root) ALL\n")
        os.chmod(host.path("/etc/other"), 0o440)
        host.put("zz-local", text)
        host.check(f"{what} gives it", host.may("ann", "/usr/bin/env"))
        finds(host, what, f"sudo reads rules behind those of {FILE}(.|\n)*{GIVEN}", 2)
        host.drop("zz-local")
    kept = host.read("/etc/sudoers")
    host.put_sudoers(kept + "ann ALL = (root) ALL\n")
    finds(host, "a rule of /etc/sudoers behind it", GIVEN, 2)
    host.put_sudoers(kept.replace("@includedir /etc/sudoers.d", "Defaults !case_insensitive_user"))
    finds(host, "a file that is not read", "sudo does not read /etc/sudoers.d/desk", 2)
    host.put_sudoers(kept)
    later = time.time() + 86_400 * 300
    os.utime(host.path(FILE), (later, later))
    finds(host, "a file from later", "seconds from now: is the clock right")
    os.utime(host.path(FILE))
    for name, setting in (("SESSIONS", "no"), ("SESSIONS", "warn"), ("UNJUDGED", "warn")):
        host.conf("http://127.0.0.1:1", **{name: setting})
        finds(host, f"{name}={setting}", f"what runs is not ended .*{name}={setting}")
    host.conf("http://127.0.0.1:1")
    others = host.read("/etc/nsswitch.conf")
    host.write("/etc/nsswitch.conf", f"{others}sudoers: files sss\n")
    finds(host, "rules from elsewhere", "has sudo read rules elsewhere too: sudoers: files sss")
    host.write("/etc/nsswitch.conf", others)
    sound(host, "all as it has to be again")
    with host.unplugged():
        finds(host, "no plugin", "sudo does not load desk-host's plugin")
        step = host.read("/etc/pam.d/sudo")
        host.write("/etc/pam.d/sudo", "auth required pam_permit.so\naccount required pam_unix.so\n")
        finds(host, "and no step of PAM", "/etc/pam.d/sudo has no account step", 3)
        host.write("/etc/pam.d/sudo", step)
    sound(host, "and at the end")
    host.drop("aaa", "zz-defaults", "desk-defaults")


PERMITS = "auth required pam_permit.so\naccount required pam_permit.so\n"
PERMITS += "session required pam_permit.so\n"
INCLUDED = ("common-account", "common-session-noninteractive")
NOTHING = "sudo starts nothing, also for root: the step of PAM, or another step of PAM, refuses"
NOT_HEEDED = "sudo starts what the step of PAM refuses: it is not asked, or not heeded"


def tries(host: Host, what: str, says: str, program: str = "desk-host") -> None:
    """What `check` names of the step of PAM, once `check --deep` has tried it."""
    host.run(program, "check", "--deep")
    ran = host.run(program, "check")
    named = [it for it in ran.stdout.splitlines() if re.match("desk-host: .* step of PAM", it)]
    is_right = named == ([f"desk-host: {says}"] if says else [])
    host.check(f"{what}, of which check names {says or 'nothing'}", is_right, ran.stdout)


def deep(host: Host) -> None:
    """Without the plugin, root's own sudo tries whether PAM asks the step, and heeds it."""
    if not host.is_fit:
        return
    host.conf("http://127.0.0.1:1", PROMPT="900")
    with host.unplugged():
        prepare(host)
        tries(host, "the step as the package puts it in", "")
        host.write("/etc/pam.d/other-sudo", PERMITS)
        for what, defaults in (
            ("another service of PAM", "pam_service=other-sudo"),
            ("no account and no session", "!pam_acct_mgmt, !pam_session"),
        ):
            host.put("zz-pam", f"Defaults {defaults}\n")
            tries(host, what, NOT_HEEDED)
            host.drop("zz-pam")
        stack = host.read("/etc/pam.d/sudo")
        first = "account sufficient pam_permit.so\nsession sufficient pam_permit.so\n"
        host.write("/etc/pam.d/sudo", first + stack)
        tries(host, "a step behind another's end", NOT_HEEDED)
        host.write("/etc/pam.d/sudo", stack)
        kept = {name: host.read(f"/etc/pam.d/{name}") for name in INCLUDED}
        for name, text in kept.items():
            text = re.sub(r"required(\s+pam_exec.so .*desk-host)", r"optional\1", text)
            host.write(f"/etc/pam.d/{name}", text)
        tries(host, "a step that is optional", NOT_HEEDED)
        for name, text in kept.items():
            host.write(f"/etc/pam.d/{name}", text)
        host.run("mv", "/usr/sbin/desk-host", "/usr/sbin/desk-host-gone")
        tries(host, "a step whose program is missing", NOTHING, "desk-host-gone")
        host.run("mv", "/usr/sbin/desk-host-gone", "/usr/sbin/desk-host")
        tries(host, "all as it has to be", "")
    host.drop("/etc/pam.d/other-sudo")


PARTS = (check, deep)
