"""Random policies: aliases nested in aliases, with signs at every depth."""

import random
from collections.abc import Sequence

USERS, HOSTS, TARGETS = ("ann", "bob", "eve", "kim"), ("db1", "db2", "web1"), ("root", "op", "dba")
FILES = ("/srv/bin/ls", "/srv/bin/kill", "/srv/lib/tool", "/srv/lib/deep/tool")
COMMANDS = (*FILES, "/srv/bin/", "/srv/lib/", '/srv/bin/ls ""', "/srv/bin/ls -l")
KINDS = (
    ("User_Alias", USERS),
    ("Host_Alias", HOSTS),
    ("Runas_Alias", TARGETS),
    ("Cmnd_Alias", COMMANDS),
)


def signed(rng: random.Random, word: str) -> str:
    return rng.choice(("", "", "", "!", "!!")) + word


def some_of(rng: random.Random, words: Sequence[str], aliases: list[str], most: int) -> str:
    """A list of words and aliases, some of them negated."""
    return ", ".join(
        signed(rng, rng.choice([*words, "ALL", *aliases * 3])) for _ in range(rng.randint(1, most))
    )


def alias_policy(rng: random.Random) -> str:
    """Aliases of each kind, each over those above it, and rules over all of them."""
    lines: list[str] = []
    names: dict[str, list[str]] = {}
    for kind, words in KINDS:
        names[kind] = []
        for number in range(rng.randint(1, 5)):
            name = f"{kind[0]}{number}"
            lines.append(f"{kind} {name} = {some_of(rng, words, names[kind], 3)}")
            names[kind].append(name)
    for _ in range(rng.randint(1, 3)):
        users, hosts, targets, commands = (
            some_of(rng, words, names[kind], 2) for kind, words in KINDS
        )
        lines.append(f"{users} {hosts} = ({targets}) {commands}")
    return "".join(f"{line}\n" for line in lines)
