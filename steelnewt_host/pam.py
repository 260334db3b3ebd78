"""The step of PAM in sudo's stacks, where sudo does not load the plugin."""

from __future__ import annotations

import contextlib
import os
import re
from collections.abc import Iterator

from steelnewt_host.finding import CRITICAL, Finding


def pam_lines(path: str, depth: int = 8) -> Iterator[str]:
    """The lines of a service of PAM, with those that it includes."""
    with contextlib.suppress(OSError), open(path, encoding="utf-8", errors="replace") as file:
        for line in file:
            words = line.split("#", 1)[0].split()
            if words[:1] == ["@include"] and depth:
                yield from pam_lines(os.path.join("/etc/pam.d", words[1]), depth - 1)
            elif words:
                yield " ".join(words)


def without_step() -> Iterator[Finding]:
    """The services of sudo that do not ask desk-host."""
    for service in ("sudo", "sudo-i"):
        path = f"/etc/pam.d/{service}"
        steps = [line for line in pam_lines(path) if "pam_exec" in line and "desk-host" in line]
        for kind in ("account", "session"):
            is_there = any(re.match(rf"{kind}\b.* prompt( --asked)?$", it) for it in steps)
            if os.path.exists(path) and not is_there:
                told = f"{path} has no {kind} step of desk-host: a prompt outlives the right to it"
                yield Finding(CRITICAL, told)
