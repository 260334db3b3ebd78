#!/usr/bin/env python3
"""Asks both of the functions that decide: `decide` of the crate sudo_decide, which follows each
alias where it meets it, and the one of sudo_compiled, which the desk's program calls.

The program crates/sudo_decisions asks both: of all of cases/decide.toml, where both have to say
what stands there, and of 100,000 invocations by 2,000 random policies, where both have to say the
same. The seed is fixed. The last line has the counts. `python3 -m tests.cases.decisions PROGRAM`
runs another program than the one that `rt run` leaves in that crate.
"""

import os
import random
import subprocess
import sys
import tomllib
from collections.abc import Iterator
from typing import NamedTuple

from tests.cases.cases import text_of, words_of
from tests.common import desk
from tests.common.random_policies import FILES, HOSTS, TARGETS, USERS, alias_policy

CRATE = os.path.join(desk.ROOT, "crates", "sudo_decisions")
PROGRAM = os.path.join(CRATE, "out", "sudo_decisions")
POLICIES, EACH = 2000, 50
NOON = "20260105120000Z"
MOMENTS = ("20260105115959Z", NOON, "20260105120001Z")
DATES = ("", f"NOTBEFORE={NOON} ", f"NOTAFTER={NOON} ", f"NOTBEFORE={NOON} NOTAFTER={NOON} ")
TAGS = ("", "NOPASSWD: ", "PASSWD: ")
ARGUMENTS = ("", "", " -l", " -a", " -l -a")


class Asked(NamedTuple):
    """A policy, the words of each invocation, and the wanted decision, where that is known."""

    policy: str
    runs: list[tuple[str, str | None]]


def question(words: list[str]) -> str:
    """The words of an invocation, without the first `--`, which is no argument."""
    at = words.index("--") if "--" in words else len(words)
    return " ".join([*words[:at], *words[at + 1 :]])


def of_cases() -> Iterator[Asked]:
    """What stands in cases/decide.toml."""
    for case in tomllib.loads(desk.read("cases", "decide.toml"))["case"]:
        runs = [(question(words_of(line)), decision) for line, decision in case["runs"]]
        yield Asked(text_of(case["text"]), runs)


def dated_rule(rng: random.Random) -> str:
    """A rule with bounds and a tag."""
    sign, path = rng.choice(("", "", "!")), rng.choice((*FILES, "/srv/bin/", "ALL"))
    user, host, target = rng.choice(USERS), rng.choice(HOSTS), rng.choice(TARGETS)
    return f"{user} {host} = ({target}) {rng.choice(DATES)}{rng.choice(TAGS)}{sign}{path}\n"


def at_random() -> Iterator[Asked]:
    """Random policies, with aliases nested in aliases and with rules that are dated or tagged, and
    random invocations."""
    rng = random.Random(20260105)
    for _ in range(POLICIES):
        rules = [dated_rule(rng) for _ in range(rng.randint(0, 4))]
        runs: list[tuple[str, str | None]] = []
        for _ in range(EACH):
            words = (rng.choice(USERS), rng.choice(HOSTS), rng.choice(TARGETS), rng.choice(MOMENTS))
            runs.append((f"{' '.join(words)} {rng.choice(FILES)}{rng.choice(ARGUMENTS)}", None))
        yield Asked(alias_policy(rng) + "".join(rules), runs)


def given(asked: list[Asked]) -> str:
    """The program's input."""
    return "%%\n".join(
        f"{policy}\n" + "".join(f"? {words}\n" for words, _ in runs) for policy, runs in asked
    )


def main() -> None:
    program = sys.argv[1:] or [PROGRAM]
    if not os.path.exists(program[0]):
        subprocess.run(["rt", "run"], cwd=CRATE, check=True, stdout=subprocess.DEVNULL)
    cases = list(of_cases())
    asked = [*cases, *at_random()]
    runs = [(policy, *run) for policy, runs in asked for run in runs]
    done = desk.run(program, given(asked))
    *answers, last = done.stdout.splitlines()
    wrong = 0
    for (policy, words, wanted), answer in zip(runs, answers, strict=True):
        if answer.startswith("OTHERWISE") or wanted not in (None, answer):
            wrong += 1
            print(f"{policy}{words}: {answer}, wanted: {wanted or 'the same of both'}")
    denied = answers.count("deny")
    told = sum(len(case.runs) for case in cases)
    print(
        f"both were asked {told} times by cases/decide.toml and {len(runs) - told} times at random:"
        f" {denied} denied, {len(runs) - denied - wrong} allowed, {wrong} otherwise"
    )
    counted = f"{len(runs)} asked, 0 otherwise"
    sys.exit(1 if wrong or done.returncode or last != counted else 0)


if __name__ == "__main__":
    main()
