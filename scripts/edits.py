#!/usr/bin/env python3
"""Tries the edits of crates/NAME/more-edits/, of the crates that are named or of all: the prover
has to refuse each.

`rt must-fail` tries what stands in must-fail/, so it runs over a copy of the repository in which
these edits stand there, and those of must-fail/ do not. A crate below them is taken as `make desk`
or `rt check` proved it, and else proved first. Prints each edit that is not refused, and the
counts; a crate of which all are refused gets its line of docs/proof/refused-edits.txt (refused.py).
"""

from __future__ import annotations

import os
import re
import subprocess
import sys
import tempfile
from collections.abc import Mapping
from concurrent.futures import ThreadPoolExecutor

import refused
import repository

# the memory that one check takes at most
MEMORY = 11 << 29


def jobs() -> int:
    """How many checks the machine has room for: of the processors, those that CORES grants."""
    cores = int(os.environ.get("CORES") or len(os.sched_getaffinity(0)))
    with open("/proc/meminfo", encoding="utf-8") as file:
        [free] = re.findall(r"MemAvailable:\s+(\d+)", file.read())
    return max(1, min(cores, (int(free) << 10) // MEMORY))


def said_of(wanted: Mapping[str, list[str]]) -> str:
    """What `rt must-fail` says of these edits, crate by crate."""
    with tempfile.TemporaryDirectory(prefix="edits-") as room:
        refused.copy_crates(repository.ROOT, room, ("must-fail", "more-edits", "incremental"))
        for crate, edits in wanted.items():
            refused.add_edits(room, crate, edits)

        def said(crate: str) -> str:
            words = ["rt", "must-fail", crate]
            return subprocess.run(
                words, cwd=room, stdout=subprocess.PIPE, stderr=subprocess.STDOUT, text=True
            ).stdout

        with ThreadPoolExecutor(jobs()) as pool:
            return "".join(pool.map(said, wanted))


def all_tried(wanted: Mapping[str, list[str]]) -> bool:
    """Tries these edits, and prints what is not refused: whether all are. A crate of which all are
    refused gets its line of the record."""
    digests = {crate: refused.basis(repository.ROOT, crate) for crate in wanted}
    said = said_of(wanted)
    every = refused_in_all = 0
    for crate, edits in wanted.items():
        lines = re.findall(rf"^rt: must-fail {crate}/\S+: .*$", said, re.M)
        well = [line for line in lines if ": refused, as it must be" in line]
        # what is refused for another cause than a clause says little, and is shown
        is_all_shown = bool(os.environ.get("VERBOSE"))
        for line in lines:
            if is_all_shown or line not in well or "says little" in line:
                print(line)
        if len(lines) != len(edits):
            print(f"{crate}: {len(edits) - len(lines)} edits were not tried:\n{said[-2000:]}")
        every, refused_in_all = every + len(edits), refused_in_all + len(well)
        is_same = refused.basis(repository.ROOT, crate) == digests[crate]
        if len(well) == len(edits) and is_same:
            refused.keep(crate, len(well), digests[crate])
    print(f"{every} edits: {refused_in_all} refused, {every - refused_in_all} not refused")
    return refused_in_all == every


def main() -> int:
    crates = refused.crates(repository.ROOT)
    unknown = [name for name in sys.argv[1:] if name not in crates]
    if unknown:
        sys.exit(f"crates.txt names no crate {' '.join(unknown)}")
    names = [name for name in crates if name in (sys.argv[1:] or crates)]
    found = {name: refused.edits_of(repository.ROOT, name) for name in names}
    return 0 if all_tried({name: it for name, it in found.items() if it}) else 1


if __name__ == "__main__":
    sys.exit(main())
