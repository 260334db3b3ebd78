#!/usr/bin/env python3
"""Prints what each function of a crate cost in its last check: `scripts/costs.py CRATE [MINUTES]`,
of the last so many minutes (30).

A check writes a file into the crate's `out/` as each part of a proof ends, one after the other
where it has one job. So a part took the time since the file before it. The part `Lts` is the borrow
checker's, which grows with the values that a function owns over its exits; `Proof` is the search,
and `Answers` are the written answers.
"""

import glob
import os
import sys
import time

import repository


def function_and_part(name: str) -> tuple[str, str]:
    """`desk.Desk.deliver` and `Lts`, of `Rattle-desk-proofs.desk.Desk.deliver.Lts.oantt`."""
    parts = name.removesuffix(".oantt").split(".")[1:]
    return ".".join(parts[:-1]), parts[-1].split("-")[0] if parts else ""


def main() -> None:
    crate, minutes = sys.argv[1], float(sys.argv[2]) if len(sys.argv) > 2 else 30
    files = glob.glob(
        os.path.join(repository.ROOT, "crates", crate, "out", "incremental", "*", "*.oantt")
    )
    written = sorted((os.stat(file).st_mtime, os.path.basename(file)) for file in files)
    written = [(moment, name) for moment, name in written if moment >= time.time() - 60 * minutes]
    costs: dict[str, dict[str, float]] = {}
    for (before, _), (moment, name) in zip(written, written[1:]):
        function, part = function_and_part(name)
        parts = costs.setdefault(function, {})
        parts[part] = parts.get(part, 0) + moment - before
    for function, parts in sorted(costs.items(), key=lambda cost: -sum(cost[1].values())):
        dear = " ".join(
            f"{part} {seconds:.1f}"
            for part, seconds in sorted(parts.items(), key=lambda part: -part[1])
            if seconds >= 0.5
        )
        print(f"{sum(parts.values()):7.1f} {function}: {dear}")


main()
