"""How many signed messages a second go through broker and doors to three desks, and through the
broker to the same desks without doors, in alternating rounds. In memory as in main.py, or on the
disk of `--folder`."""

from __future__ import annotations

import argparse
import pathlib

from tests.common.desk import PROGRAM
from tests.several import rates
from tests.several.doored import DoorBench, Place
from tests.several.plan import WHOLE
from tests.several.programs import Programs
from tests.several.signed import APPROVERS, ASKERS, message_of
from tests.several.sites import Post

NAMES = ["a", "b", "c"]
ROUNDS, COUNT = 3, 1_500
# messages a second in memory, and the share of the bare desks' rate on a disk
LEAST, SHARE = 200, 0.5


def bare(posts: list[Post]) -> list[Post]:
    return [Post(post.relay, message_of(post)) for post in posts]


def round_of(bench: DoorBench, is_signed: bool) -> float:
    """Messages a second that all three desks hold, of one round."""
    for name in NAMES:
        address = bench.desks[name].address
        bench.consume(name, bench.doors[name].place if is_signed else Place(name, address))
    posts = bench.people.revocations(COUNT)
    return rates.through(bench, posts if is_signed else bare(posts))[1]


def run(words: argparse.Namespace, folder: pathlib.Path, started: Programs) -> int:
    """Prints the middle of the rounds; 1 where a figure is too low."""
    bench = DoorBench(WHOLE, words.seed, words.desk or PROGRAM, folder, started)
    bench.cluster.start()
    bench.begin(NAMES, [*ASKERS, *APPROVERS])
    round_of(bench, True)
    found: dict[bool, list[float]] = {True: [], False: []}
    for _ in range(ROUNDS):
        for is_signed in (False, True):
            found[is_signed].append(round_of(bench, is_signed))
            bench.tell(f"{'with' if is_signed else 'without'} doors: {found[is_signed][-1]:.0f}")
    alone, behind = (sorted(found[it])[ROUNDS // 2] for it in (False, True))
    is_in_memory = words.folder is None
    holds = behind >= LEAST if is_in_memory else behind >= SHARE * alone
    least = f"at least {LEAST}" if is_in_memory else f"at least {SHARE * alone:.0f}, half"
    print(
        f"signed, through broker and doors to each of 3 desks, messages a second: {behind:.0f}, of"
        f" {alone:.0f} without doors, {behind / alone:.2f} of that; {least}:"
        f" {'holds' if holds else 'FAILS'}"
    )
    return 0 if holds else 1
