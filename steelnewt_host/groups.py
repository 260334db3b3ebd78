"""The control group of a session."""

from __future__ import annotations

import contextlib
import os
import re
from typing import Optional

from steelnewt_host.state import read_some

TREES = ("/sys/fs/cgroup", "/sys/fs/cgroup/unified")


def lives(group: str) -> bool:
    """Whether a control group, or one below it, has a process."""
    text = read_some(os.path.join(group, "cgroup.events"), 4096) if group else None
    return text is not None and b"populated 1" in text


def is_of(group: str, start: str) -> bool:
    """Whether a path is that of the control group of a start."""
    is_below = any(group.startswith(f"{it}/") for it in TREES) and "/../" not in group
    return is_below and os.path.basename(group) == f"desk-{start}"


def members(group: str) -> set[int]:
    """The processes of a group and of those below it."""
    found: set[int] = set()
    for path, _, _ in os.walk(group) if group else ():
        with contextlib.suppress(OSError), open(f"{path}/cgroup.procs", encoding="ascii") as file:
            found |= {int(line) for line in file}
    return found


def groups_of(pid: int) -> list[str]:
    """The names of the control groups that a process is in, from the outermost."""
    text = read_some(f"/proc/{pid}/cgroup", 1024 * 1024) or b""
    found = re.search(rb"^0::(.*)$", text, re.M)
    return os.fsdecode(found[1]).split("/") if found else []


def enter(group: str, pid: int) -> bool:
    """Puts a process into a group."""
    try:
        with open(f"{group}/cgroup.procs", "w", encoding="ascii") as file:
            file.write(f"{pid}\n")
    except OSError:
        return False
    return True


def has_groups() -> bool:
    """Whether this host has control groups of the second version."""
    return without_groups() is None


def without_groups() -> Optional[str]:
    """Why a start can have no control group; nothing where it can."""
    found = [it for it in TREES if os.path.exists(f"{it}/cgroup.procs")]
    if not found:
        return "this host has no control groups of version 2"
    if not os.access(f"{found[0]}/cgroup.procs", os.W_OK):
        return f"{found[0]} cannot be written to"
    return None
