#!/usr/bin/env python3
"""Counts how often the calls that take no memory ask for some: never.

The program crates/allocation_counts makes each of these calls in each of its rounds: over the
example's roster and base, its messages, and an invocation. With one round and with a thousand it
has to ask for memory as often; where it also copies a text in each round, a thousand times more
often, so the count is seen to miss nothing. `python3 -m tests.cases.allocation_counts PROGRAM` runs
another program than the one that `rt run` leaves in that crate.
"""

import os
import subprocess
import sys
import tempfile

from tests.common import desk

CRATE = os.path.join(desk.ROOT, "crates", "allocation_counts")
PROGRAM = os.path.join(CRATE, "out", "allocation_counts")
SHIM = os.path.join(os.path.dirname(__file__), "fail_alloc.c")
MESSAGES = ("approved", "refused", "revoked", "audited")
INVOCATION = "ann db1 root 20260105093000Z /usr/bin/systemctl restart postgresql"
ROUNDS = 1000


def given(word: str, rounds: int) -> str:
    """The program's input: of one length for all counts of rounds."""
    messages = "".join(desk.read("examples", f"{name}.messages") for name in MESSAGES)
    parts = (desk.read("examples", "roster.toml"), desk.read("examples", "site.sudo"), messages)
    return "%%\n".join((f"{word} {rounds:010}\n", *parts, INVOCATION + "\n"))


def requests(folder: str, program: str, word: str, rounds: int) -> tuple[int, int]:
    """How often the program asks for memory, and how much its calls said."""
    count = os.path.join(folder, "count")
    environment = dict(os.environ, LD_PRELOAD=os.path.join(folder, "shim.so"), COUNT_ALLOC=count)
    done = subprocess.run(
        [program],
        input=given(word, rounds),
        env=environment,
        stdout=subprocess.PIPE,
        text=True,
        check=True,
        timeout=60,
    )
    with open(count, encoding="ascii") as file:
        return int(file.read()), int(done.stdout)


def main() -> None:
    program = next(iter(sys.argv[1:]), PROGRAM)
    if not os.path.exists(program):
        subprocess.run(["rt", "run"], cwd=CRATE, check=True, stdout=subprocess.DEVNULL)
    with tempfile.TemporaryDirectory() as folder:
        shim = os.path.join(folder, "shim.so")
        subprocess.run(["cc", "-shared", "-fPIC", "-O1", "-o", shim, SHIM], check=True)
        once, said = requests(folder, program, "lend", 1)
        often, said_often = requests(folder, program, "lend", ROUNDS)
        copied, _ = requests(folder, program, "copy", ROUNDS)
    more = often - once
    is_right = more == 0 and copied - once == ROUNDS and said > 0 and said_often == ROUNDS * said
    print(
        f"{ROUNDS - 1} further rounds of the calls that take no memory asked for it {more} times;"
        f" {ROUNDS} copies of a text, {copied - once} times"
    )
    sys.exit(0 if is_right else 1)


if __name__ == "__main__":
    main()
