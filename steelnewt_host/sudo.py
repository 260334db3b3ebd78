"""This host's sudo and its own programs."""

from __future__ import annotations

import contextlib
import os
import re
import shutil
import subprocess
from typing import Optional

from steelnewt_host.faults import UNFIT, Fault
from steelnewt_host.settings import PATH

OLDEST = (1, 9, 9)  # before it, a user's TZ moves the dates of a line


def run(*words: str, patience: int = 60) -> subprocess.CompletedProcess[str]:
    """Runs one of sudo's own programs."""
    return subprocess.run(
        words,
        stdin=subprocess.DEVNULL,
        stdout=subprocess.PIPE,
        stderr=subprocess.PIPE,
        text=True,
        errors="replace",
        check=False,
        timeout=patience,
        env={"PATH": PATH, "LC_ALL": "C"},
    )


def found_program(name: str) -> Optional[str]:
    return shutil.which(name, path=PATH)


def program(name: str) -> str:
    path = found_program(name)
    if path is None:
        raise Fault(f"this host has no {name}: install Debian's package sudo", UNFIT)
    return path


def fit_sudo() -> str:
    """The version of this host's sudo and visudo, where both read a desk's file as it is meant."""
    for name in ("sudo", "visudo"):
        said = run(program(name), "-V").stdout.partition("\n")[0]
        found = re.fullmatch(rf"{name} version (\d+)\.(\d+)(?:\.(\d+))?(\S*)", said, re.IGNORECASE)
        version = tuple(int(it or 0) for it in found.groups()[:3]) if found else (0, 0, 0)
        if version < (1,):
            why = "it knows no dates in a line, so grants never come and dated denials vanish"
            raise Fault(f"{program(name)} is sudo-rs or unknown ({said}): {why}", UNFIT)
        if version < OLDEST:
            why = "before 1.9.9 a user's TZ moves the dates of a line, so grants do not end"
            raise Fault(f"{program(name)} is too old ({said}): {why}", UNFIT)
    return said.rpartition(" ")[2]


def visudo(*words: str) -> list[str]:
    """What visudo finds wrong: its lines; none where it accepts."""
    ran = run(program("visudo"), "-c", *words)
    if ran.returncode == 0:
        return []
    lines = [line for line in f"{ran.stdout}\n{ran.stderr}".splitlines() if line.strip()]
    told = [line for line in lines if not line.endswith("parsed OK") and line.strip(" ^")]
    return told or [f"visudo ended with {ran.returncode}"]


def sudo_files() -> dict[tuple[int, int], str]:
    """This host's sudos, each that its users may find: their paths by device and inode."""
    program("sudo")
    found = {}
    for path in (os.path.join(folder, "sudo") for folder in PATH.split(":")):
        with contextlib.suppress(OSError):
            seen = os.stat(path)
            found[seen.st_dev, seen.st_ino] = os.path.realpath(path)
    return found
