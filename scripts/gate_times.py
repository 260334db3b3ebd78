#!/usr/bin/env python3
"""Runs `rt ci`, passes on what it prints, and then prints what it cost: a table of
docs/change/GATE.md.

It runs over a copy of the crates in which ten further edits, which the tree's checksum chooses,
stand in must-fail/ (refused.py): so the prover has to refuse these as well, in the lanes of the
same run. The programs that it built then stand in crates/NAME/out. First it names the crates whose
further edits were not seen refused as the tree is now.

The processor time of a crate's proof, of its tests' proof and of its edits, and the memory that one
check of it holds at most, are read twice a second from /proc, of each run of the prover that this
script started: so a figure lacks at most half a second a run. The status is that of `rt ci`.
"""

import collections
import contextlib
import os
import re
import shutil
import subprocess
import sys
import tempfile
import threading
import time
from collections.abc import Iterator

import refused
import repository

# a crate, and the kind of work
Work = tuple[str, str]

MARK = "STEELNEWT_GATE"
# what a check with one job takes of memory at most, with a little room: 5.2 GB for `desk_audit_cli`
MEMORY = 11 << 29
TICKS = os.sysconf("SC_CLK_TCK")
PAGE = os.sysconf("SC_PAGE_SIZE")
KINDS = ("proof", "tests", "edits")
# how many further edits are tried
SAMPLE = 10


def read(path: str) -> bytes:
    with open(path, "rb") as file:
        return file.read()


def work_of(pid: str) -> Work | None:
    """What a process proves: a crate's name and the kind of work; None where it is no run of the
    prover under this script."""
    words = read(f"/proc/{pid}/cmdline").decode(errors="replace").split("\0")
    if "--crate-name" not in words or f"{MARK}={os.getpid()}".encode() not in read(
        f"/proc/{pid}/environ"
    ).split(b"\0"):
        return None
    name = words[words.index("--crate-name") + 1]
    if "/rt-edit-" in os.readlink(f"/proc/{pid}/cwd"):
        return name, "edits"
    return name, "tests" if "--test" in words else "proof"


class Meter(threading.Thread):
    """Reads the processor time of the runs of the prover while they last."""

    def __init__(self) -> None:
        super().__init__(daemon=True)
        self.done = threading.Event()
        self.begins = time.monotonic()
        self.works: dict[tuple[str, bytes], Work] = {}
        self.seconds: dict[tuple[str, bytes], float] = {}
        self.ends: dict[Work, float] = collections.defaultdict(float)
        self.memory: dict[str, int] = collections.defaultdict(int)

    def run(self) -> None:
        while not self.done.wait(0.5):
            for pid in filter(str.isdigit, os.listdir("/proc")):
                try:
                    self.look(pid)
                except (OSError, ValueError, IndexError):
                    continue  # it has ended, or is not ours to read

    def look(self, pid: str) -> None:
        # behind the name in parentheses: the time in user mode and in the system is the 12th and
        # the 13th field, the beginning the 20th
        fields = read(f"/proc/{pid}/stat").rpartition(b")")[2].split()
        key = pid, fields[19]
        # (a process that was just started becomes the prover only then, so what is no work now is
        # looked at again)
        work = self.works.get(key) or work_of(pid)
        if work:
            self.works[key] = work
            self.seconds[key] = (int(fields[11]) + int(fields[12])) / TICKS
            self.ends[work] = time.monotonic() - self.begins
            # behind them: the pages that are resident, the 22nd field
            pages = int(fields[21])
            self.memory[work[0]] = max(self.memory[work[0]], pages * PAGE)

    def minutes(self) -> dict[Work, float]:
        """The processor minutes of each crate and kind of work."""
        sums: dict[Work, float] = collections.defaultdict(float)
        for key, seconds in self.seconds.items():
            sums[self.works[key]] += seconds / 60
        return sums


def show(meter: Meter, wall: float) -> None:
    """Prints the table, in the order of crates.txt."""
    minutes = meter.minutes()
    with open("crates.txt") as file:
        names = [
            line.partition(":")[0] for line in file if ":" in line and not line.startswith("#")
        ]
    print("\n| crate | proof | proof of its tests | edits | all | done at minute | GB |")
    print("|---|---|---|---|---|---|---|")
    for name in names:
        each = [minutes[name, kind] for kind in KINDS]
        ends = max(meter.ends[name, kind] for kind in KINDS) / 60
        cells = [f"{it:.1f}" if it else "" for it in (*each, sum(each))]
        memory = meter.memory[name] / (1 << 30)
        print(f"| `{name}` | {' | '.join(cells)} | {ends:.0f} | {memory:.1f} |")
    jobs, processors = os.environ["RT_JOBS"], len(os.sched_getaffinity(0))
    slowest = max(names, key=lambda name: minutes[name, "proof"])
    print(
        f"\nProcessor minutes. `rt ci` took {wall / 60:.1f} minutes in {jobs} lanes on"
        f" {processors} processors, {sum(minutes.values()):.0f} processor minutes in all."
    )
    print(
        (
            f"The slowest proof is that of `{slowest}`: {minutes[slowest, 'proof']:.1f} processor"
            " minutes.\n"
        ),
        flush=True,
    )


def lanes() -> int:
    """How many checks go side by side, each with one job. Left to itself `rt ci` sets aside twice
    or three times the memory that a check takes, and so lets the proofs of the longest chain wait
    for the edits of other crates."""
    with open("/proc/meminfo") as file:
        [memory] = re.findall(r"MemTotal:\s+(\d+)", file.read())
    return max(1, min(len(os.sched_getaffinity(0)), (int(memory) << 10) // MEMORY))


@contextlib.contextmanager
def copy_with_sample() -> Iterator[str]:
    """A copy of what `rt ci` reads, with the chosen further edits among those of must-fail/. At the
    end the programs that it built stand in each crate's out/ here."""
    with tempfile.TemporaryDirectory(prefix="gate-") as room:
        refused.copy_crates(repository.ROOT, room)
        for crate, edits in refused.sample(repository.ROOT, SAMPLE).items():
            names = [os.path.basename(it).removesuffix(".edit") for it in edits]
            print(f"further edits chosen of {crate}: {', '.join(names)}", flush=True)
            refused.add_edits(room, crate, edits)
        yield room
        for crate in refused.crates(repository.ROOT):
            made = os.path.join(room, "crates", crate, "out")
            kept = os.path.join(repository.ROOT, "crates", crate, "out")
            if os.path.isdir(made):
                shutil.rmtree(kept, ignore_errors=True)
                shutil.move(made, kept)


def main() -> None:
    os.chdir(repository.ROOT)
    if old := " ".join(refused.old()):
        print("further edits that were not tried since something changed:", flush=True)
        print(f'make edits CRATES="{old}"', flush=True)
    meter = Meter()
    meter.start()
    os.environ.setdefault("RT_JOBS", str(lanes()))
    environment = dict(os.environ, **{MARK: str(os.getpid())})
    with copy_with_sample() as room:
        status = subprocess.run(["rt", "ci"], cwd=room, env=environment, check=False).returncode
    wall = time.monotonic() - meter.begins
    meter.done.set()
    meter.join()
    show(meter, wall)
    sys.exit(status)


if __name__ == "__main__":
    main()
