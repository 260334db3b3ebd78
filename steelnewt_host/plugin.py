"""Sudo's plugin (packaging/host/desk_host.c): whether sudo loads it."""

from __future__ import annotations

import contextlib
import math
import os
import re
import stat
import subprocess
import sys
from typing import Optional

from steelnewt_host.changes import since_boot
from steelnewt_host.faults import Fault
from steelnewt_host.settings import Settings
from steelnewt_host.state import read_some, write_state
from steelnewt_host.sudo import fit_sudo, program, run

SUDO_CONF = "/etc/sudo.conf"
PLUGIN = "desk_host"
LINE_OF_PLUGIN = re.compile(rf"^[ \t]*Plugin[ \t]+{PLUGIN}[ \t]+.*$", re.M | re.I)
PLUGIN_SAYS = "desk-host's plugin, records of form 1"


def plugin_line() -> Optional[str]:
    """The line of sudo's settings that names the plugin; nothing where there is none. Where there
    is one, each sudo loads it, or starts nothing."""
    text = read_some(SUDO_CONF, 1024 * 1024) or b""
    found = LINE_OF_PLUGIN.search(text.decode("latin-1"))
    return found[0] if found else None


def is_loaded() -> bool:
    """Whether sudo says that it loads the plugin, and works."""
    ran = run(program("sudo"), "-V")
    if ran.returncode != 0:
        said = ran.stderr.strip().splitlines() or ["it says nothing"]
        raise Fault(f"sudo does not work: {said[0]}")
    return PLUGIN_SAYS in ran.stdout.splitlines()


def put_settings(text: str) -> None:
    """Puts a text in the place of sudo's settings, in one step, with the mode that they have."""
    path = os.path.realpath(SUDO_CONF)
    mode = stat.S_IMODE(os.stat(path).st_mode) if os.path.exists(path) else 0o644
    with open(f"{path}.desk-host", "w", encoding="latin-1") as file:
        os.fchmod(file.fileno(), mode & 0o644)
        file.write(text)
        file.flush()
        os.fsync(file.fileno())
    os.replace(f"{path}.desk-host", path)


def plugin(settings: Settings, is_on: bool) -> int:
    """Puts the plugin's line into sudo's settings, or takes it out, and asks sudo whether it then
    works: where it does not, what stood there comes back."""
    if os.geteuid() != 0:
        raise Fault("it has to be run as root: it changes sudo's settings")
    fit_sudo()
    here = os.path.dirname(os.path.realpath(sys.argv[0]))
    path = os.path.join(os.path.dirname(here), "libexec", "steelnewt", f"{PLUGIN}.so")
    if is_on and not os.path.exists(path):
        raise Fault(f"{path} is not there: it is of the package steelnewt-host-plugin")
    before = (read_some(SUDO_CONF, 1024 * 1024) or b"").decode("latin-1")
    text = LINE_OF_PLUGIN.sub("", before).rstrip("\n")
    lines = [text] if text else []
    lines += [f"Plugin {PLUGIN} {path}"] if is_on else []
    put_settings("".join(f"{line}\n" for line in lines))
    try:
        if is_loaded() != is_on:
            raise Fault(f"sudo does not heed {SUDO_CONF}")
    except (Fault, OSError, subprocess.SubprocessError) as why:
        put_settings(before)
        raise Fault(f"{why}; {SUDO_CONF} is as it was") from why
    with contextlib.suppress(FileNotFoundError):
        os.unlink(os.path.join(settings.run, "since"))
    if is_on:
        note_since(settings)
    return 0


def note_since(settings: Settings) -> None:
    """Notes that each sudo that starts from now on writes down what it starts. (The plugin does
    too, where it makes the folder.)"""
    os.makedirs(settings.run, mode=0o755, exist_ok=True)
    os.makedirs(os.path.join(settings.run, "starts"), mode=0o700, exist_ok=True)
    write_state(os.path.join(settings.run, "since"), f"{math.ceil(since_boot())}\n")


def plugin_since(settings: Settings) -> Optional[float]:
    """Since when each sudo writes down what it starts; nothing where it does not."""
    text = read_some(os.path.join(settings.run, "since"), 64)
    is_known = text is not None and re.fullmatch(rb"[0-9]{1,15}\n", text)
    return float(text) if text and is_known and plugin_line() else None
