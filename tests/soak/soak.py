#!/usr/bin/env python3
"""Changes a million inputs at random, always the same ones, and gives each to the reader that it
is for: messages and rosters to `deliver`, requests to `serve`, policies to `check` and `decide`,
and the file of a desk to `review`.

No run may end by a signal or with another status than 0, 1 and 2, none may take more than twenty
seconds, and no answer may be another than a second reading of the rules makes. What the second
reading is stands in soak_texts.py, soak_http.py and soak_stores.py. The last line has the counts.

`python3 -m tests.soak.soak WORDS..` runs another program than build/desk. Before them may stand
`--short` (one input in fifty), `--only READER..`, `--batch NUMBER` (one batch alone, as a line of
the output names it), `--jobs N`, and `--minutes N`, after which no more batches begin.
"""

from __future__ import annotations

import argparse
import multiprocessing
import os
import sys
import tempfile
import time
from collections.abc import Callable
from typing import NamedTuple

from tests.common import desk
from tests.common.tally import Tally, program
from tests.soak import soak_http, soak_stores, soak_texts

SEED = 20_260_105
SHORT = 50


class Reader(NamedTuple):
    """What changes inputs and compares the answers, how many in all and in one batch, and answers
    that must come, or the inputs would try little: in the short form too, or among all alone."""

    soak: Callable[[list[str], str, int, str], Tally]
    inputs: int
    batch: int
    often: str
    seldom: str = ""


READERS = {
    "messages": Reader(
        soak_texts.messages,
        340_000,
        250,
        "ack;M2 NotCanonical;M3 BadField;A1 UnknownPerson;A4 HostOutside;A8 WindowBackwards",
        "M1 TooLong;A2 UnknownCeiling;A3 NotAsker;A5 RunasOutside;A6 CommandOutside;"
        "A7 WindowTooLong",
    ),
    "requests": Reader(
        soak_http.requests, 600_000, 250, "200;T1;T2;T3;T4;T5;T6;T7;T8;M2;P1;P2", "M3;A3;A4"
    ),
    "rosters": Reader(
        soak_texts.rosters,
        20_000,
        50,
        "read;O1 NotToml;O2 UnknownKey;O3 WrongType;O4 BadName;O5 UnknownName",
        "O6 SelfConflict;O7 OutOfRange",
    ),
    "policies": Reader(
        soak_texts.policies, 20_000, 50, "read;S2;S3;S4;S5;S9", "S1;S6;S7;S8"
    ),
    "stores": Reader(
        soak_stores.stores,
        20_000,
        50,
        "as before, the file;F1 FileFailed, the file;K2 NotADesk, the file;as before, the log",
        "K4 Storage, the file;K1 RosterChanged, the file;by its rows, the log;by its rows, SQL;"
        "K1 RosterChanged, SQL;K2 NotADesk, SQL;K3 OldSchema, SQL;K4 Storage, SQL",
    ),
}


class Batch(NamedTuple):
    words: list[str]
    reader: str
    number: int
    inputs: int
    until: float


def soak(batch: Batch) -> tuple[Batch, Tally]:
    """The findings of a batch; none if it would begin too late."""
    if time.monotonic() > batch.until:
        return batch, Tally()
    with tempfile.TemporaryDirectory(dir=desk.MEMORY) as folder:
        seed = f"{SEED} {batch.reader} {batch.number}"
        return batch, READERS[batch.reader].soak(batch.words, seed, batch.inputs, folder)


def batches(given: argparse.Namespace, words: list[str]) -> list[Batch]:
    """All readers' batches, so that a beginning of them has its share of each."""
    until = time.monotonic() + 60 * given.minutes
    made = []
    for name in given.only:
        reader = READERS[name]
        inputs = reader.inputs // (SHORT if given.short else 1)
        for number, start in enumerate(range(0, inputs, reader.batch)):
            if given.batch in (None, number):
                batch = Batch(words, name, number, min(reader.batch, inputs - start), until)
                made.append((start / inputs, batch))
    return [batch for _, batch in sorted(made, key=lambda it: it[0])]


def lacking(reader: Reader, tally: Tally, is_part: bool) -> list[str]:
    """The answers that must come and did not."""
    names = reader.often.split(";") + ([] if is_part else reader.seldom.split(";"))
    return [name for name in names if name and name not in tally.answers]


def main() -> int:
    parser = argparse.ArgumentParser(usage="soak.py [OPTIONS] [WORDS..]")
    parser.add_argument("--short", action="store_true")
    parser.add_argument("--only", action="append", choices=[*READERS], default=None)
    parser.add_argument("--batch", type=int)
    cores = int(os.environ.get("CORES") or os.cpu_count() or 1)
    parser.add_argument("--jobs", type=int, default=cores)
    parser.add_argument("--minutes", type=float, default=float("inf"))
    given, words = parser.parse_known_args()
    given.only = given.only or [*READERS]
    words = program(words) or desk.PROGRAM
    tempfile.tempdir = desk.MEMORY
    begun, all_of, by_reader = time.monotonic(), Tally(), {name: Tally() for name in given.only}
    with multiprocessing.Pool(given.jobs) as workers:
        for batch, tally in workers.imap_unordered(soak, batches(given, words)):
            by_reader[batch.reader].add(tally)
            all_of.add(tally)
            if tally.wrong:
                print(
                    f"{batch.reader}, batch {batch.number}:", *tally.shown, sep="\n  ", flush=True
                )
    for name, tally in by_reader.items():
        print(f"{name}: {tally.inputs} inputs; {dict(tally.answers.most_common())}")
        is_part = tally.inputs < READERS[name].inputs
        missing = lacking(READERS[name], tally, is_part)
        if missing and given.batch is None:
            all_of.denied += 1
            print(f"{name}: nothing was answered {'; '.join(missing)}")
    print(f"in {time.monotonic() - begun:.0f} seconds")
    print(
        f"soak: {all_of.inputs} inputs of seed {SEED}: {all_of.stops} stops, {all_of.hangs} hangs,"
        f" {all_of.denied} answers that a second reading denies"
    )
    return 1 if all_of.wrong else 0


if __name__ == "__main__":
    sys.exit(main())
