"""`desk-host check --deep`: has root's own sudo go through PAM and the plugin, once as it should be
let through and once as it should be refused, and makes and kills a control group of a start.

It is run when the package is installed, and each night (desk-check.timer). sudo logs it as root's
`desk-host self-test`."""

from __future__ import annotations

import os
import subprocess
import sys
import time
from collections.abc import Iterator

from steelnewt_host.faults import Fault
from steelnewt_host.finding import CRITICAL, WARNING, Finding
from steelnewt_host.groups import groups_of, has_groups, lives
from steelnewt_host.plugin import is_loaded
from steelnewt_host.records import clear, starts
from steelnewt_host.session import Session
from steelnewt_host.settings import Settings
from steelnewt_host.state import read_some, state_folder, write_state
from steelnewt_host.sudo import program, run
from steelnewt_host.telling import say

PASSED = "desk-host: the self-test went through"
NIGHTS = 2 * 86_400  # the seconds after which the last one is too old
SOON = 10.0  # the seconds within which a start has to be seen, and to end


def self_test(what: str) -> int:
    """What root's sudo starts for it."""
    print(PASSED, flush=True)
    if what == "scope":
        with subprocess.Popen(["setsid", "sleep", "60"]) as child:
            child.wait()
    return 0


def words(what: str) -> list[str]:
    return [program("sudo"), "-n", "--", os.path.realpath(sys.argv[0]), "self-test", what]


def goes_through(what: str) -> bool:
    return PASSED in run(*words(what)).stdout


def tried_scope(settings: Settings) -> Iterator[str]:
    """Why a start's control group does not end as a whole."""
    with subprocess.Popen(
        words("scope"), stdin=subprocess.DEVNULL, stdout=subprocess.DEVNULL, start_new_session=True
    ) as sudo:
        until = time.monotonic() + SOON
        mine: list[Session] = []
        while not mine and time.monotonic() < until:
            mine = [it for it in starts(settings) if it.name[0] == sudo.pid and it.group]
            time.sleep(0.1)
        if not mine:
            sudo.terminate()
            yield "sudo's plugin writes no start down, or gives it no control group"
            return
        group = mine[0].group
        if os.path.basename(group) not in groups_of(sudo.pid):
            yield f"a start is not in its control group {group}"
        with open(os.path.join(group, "cgroup.kill"), "w", encoding="ascii") as file:
            file.write("1\n")
        while lives(group) and time.monotonic() < until:
            time.sleep(0.1)
        if lives(group):
            yield f"what is in {group} does not end"
        sudo.wait()
        clear(mine[0].record, group)


def faults(settings: Settings) -> Iterator[str]:
    """What does not work."""
    is_on = is_loaded()
    by = "sudo's plugin" if is_on else "the step of PAM"
    if not goes_through("passed"):
        yield f"sudo starts nothing, also for root: {by}, or another step of PAM, refuses"
        return
    if goes_through("refused"):
        yield f"sudo starts what {by} refuses: it is not asked, or not heeded"
    if is_on and has_groups():
        yield from tried_scope(settings)


def note_of(settings: Settings) -> str:
    return os.path.join(settings.state, "self-test")


def deep(settings: Settings) -> None:
    """Runs it, and notes what it found."""
    if os.geteuid() != 0:
        raise Fault("check --deep has to be run as root: it has sudo start something")
    state_folder(settings.state)
    os.makedirs(settings.run, mode=0o755, exist_ok=True)
    found = list(faults(settings))
    for line in found:
        say(line)
    told = "".join(f"{line}\n" for line in found).encode("ascii", "replace").decode()
    write_state(note_of(settings), told)


def wrong_since_then(settings: Settings) -> Iterator[Finding]:
    """What the last self-test found."""
    text = read_some(note_of(settings), 1 << 16)
    if text is None:
        yield Finding(WARNING, "desk-host check --deep was never run: desk-check.timer")
        return
    for line in text.decode("ascii", "replace").splitlines():
        yield Finding(CRITICAL, line)
    old = time.time() - os.stat(note_of(settings)).st_mtime
    if old > NIGHTS:
        told = f"desk-host check --deep was last run {old / 86_400:.0f} days ago: desk-check.timer"
        yield Finding(WARNING, told)
