"""The step of PAM."""

from __future__ import annotations

import os
from typing import Optional

from steelnewt_host.changes import last_change, since_boot
from steelnewt_host.faults import FAULT, Fault
from steelnewt_host.plugin import plugin_line
from steelnewt_host.processes import TICK, Process, is_sudo, read_process, started, words_of
from steelnewt_host.settings import Settings
from steelnewt_host.state import write_state
from steelnewt_host.sudo import sudo_files
from steelnewt_host.telling import log


def own_sudo() -> Optional[Process]:
    """The sudo that this step is a child of: the first that its user started. (sudo opens a
    session in a process of its own.)"""
    files, found = sudo_files(), None
    here = read_process(os.getppid())
    for _ in range(8):
        if here is None:
            return found
        if is_sudo(here, files) and (found is None or words_of(here) == words_of(found)):
            found = here
        elif found is not None:
            return found
        here = read_process(here.parent)
    return found


def asked_file(settings: Settings, sudo: Process) -> str:
    """Where it is noted when a sudo began to ask for a password."""
    return os.path.join(settings.run, "asked", f"{sudo.pid}-{sudo.start}")


def began(settings: Settings, sudo: Process, is_noted: bool) -> Optional[float]:
    """When a sudo began to ask for a password; nothing where it asked for none. Where the stack has
    no step that notes it, nobody knows, and it is its process's start."""
    if not is_noted:
        return started(sudo)
    try:
        with open(asked_file(settings, sudo), encoding="ascii") as file:
            return float(file.read())
    except FileNotFoundError:
        return None


def prompt(settings: Settings, is_noted: bool) -> int:
    """Refuses a sudo that has asked for its password for too long, or from before this host's
    rights last changed: it decided before it asked. Stopped meanwhile, it is no younger. As a step
    of `auth`, before the one that asks, it notes the moment."""
    kind = os.environ.get("PAM_TYPE")
    if kind == "close_session" or plugin_line():
        return 0
    sudo, user = own_sudo(), os.environ.get("PAM_RUSER") or os.environ.get("PAM_USER")
    if sudo is None:
        raise Fault("this step is no child of a sudo, so nobody knows when that was started")
    if kind == "auth":
        os.makedirs(os.path.join(settings.run, "asked"), mode=0o700, exist_ok=True)
        write_state(asked_file(settings, sudo), f"{since_boot()}\n")
        return 0
    if sudo.user == 0 and words_of(sudo)[-2:] == ("self-test", "refused"):
        return FAULT
    since = began(settings, sudo, is_noted)
    if since is None:
        return 0
    old = since_boot() - since
    told = f"the sudo of {user}, which began {old:.0f} seconds ago, starts nothing"
    if old > settings.prompt:
        log(f"{told}: its prompt was open for too long (PROMPT={settings.prompt})")
        print("sudo was started too long ago: start it again.")
        return FAULT
    if last_change(settings) >= since - TICK:
        log(f"{told}: this host's rights have changed since")
        print("This host's rights have changed since sudo was started: start it again.")
        return FAULT
    return 0
