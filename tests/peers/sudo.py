#!/usr/bin/env python3
"""Asks sudo itself what the desk decides.

Each policy under examples/ that the desk accepts and its canonical text, and each text of
cases/check.toml and its canonical text there, must pass `visudo -cf`, and so must the canonical
text of each random text of odd words that the desk accepts; each invocation of
examples/peers/invocations must be answered by `sudo -l` as `desk decide` answers it
(tests/common/sudo_peer.py says how sudo is asked). `sudo -l` says nothing of NOPASSWD: only allow
and deny are compared.
"""

import os
import random
import sys
import tempfile
import tomllib
from collections.abc import Callable, Mapping, Sequence
from typing import NoReturn

from tests.common import desk
from tests.common.sudo_peer import accepts, allows, clear, enter_namespace, furnish

PEERS = os.path.join(desk.EXAMPLES, "peers")
USERS = ("ann", "bob", "eve", "op", "dba")
# where sudo really differs, by choice of the desk (docs/change/DECISIONS.md, "Beside sudo"): it
# refuses these, and the desk reads them
DIFFERS = ("ann db1 = ALL \\\n",)
COMMANDS = ("bin/ls", "bin/kill", "bin/echo", "lib/tool", "lib/danger", "lib/deep/tool")
# words that mean something to sudo, in whatever place, and some that do not
ODD_WORDS = (
    "sudoedit sha224 sha256 sha384 sha512 list all include includedir defaults regex root sudo"
    " visudo sudoers localhost any none yes no notbefore notafter timeout cwd chroot role type"
    " privs limitprivs apparmor_profile passwd nopasswd exec noexec setenv nosetenv log_input"
    " log_output mail nomail follow nofollow intercept nointercept user_alias host_alias"
    " runas_alias cmnd_alias cmd_alias ann db1 _ e e1 sha sha1 md5"
).split()
ODD_TEXTS = 1500


def accepted_rows() -> list[tuple[str, str]]:
    """The pairs of a text and its canonical text among the cases; those that tests/cases/cases.py
    makes of pieces are left out."""
    groups = tomllib.loads(desk.read("cases", "check.toml"))["group"]
    rows = [row for group in groups for row in group["rows"]]
    return [
        (row["text"], row.get("out", row["text"])) for row in rows if isinstance(row["text"], str)
    ]


def check_policies(visudo: str, folder: str) -> tuple[int, int]:
    """Every policy that the desk accepts, and its canonical text."""
    texts, wrong = 0, 0
    for row in accepted_rows():
        for text in row:
            if text in DIFFERS:
                continue
            texts += 1
            wrong += not accepts(visudo, f"the row {text!r}", text, folder)
    for where, _, names in sorted(os.walk(desk.EXAMPLES)):
        for name in sorted(names):
            if not name.endswith(".sudo"):
                continue
            path = os.path.join(where, name)
            shown = os.path.relpath(path, desk.ROOT)
            canonical = desk.run([*desk.PROGRAM, "check", path])
            if canonical.returncode != 0:
                if name != "left_out.sudo":
                    print(f"the desk refuses {shown}: {canonical.stderr}")
                    wrong += 1
                continue
            with open(path) as file:
                text = file.read()
            for what, each in ((shown, text), (f"the canonical text of {shown}", canonical.stdout)):
                texts += 1
                wrong += not accepts(visudo, what, each, folder)
    return texts, wrong


def odd_word(rng: random.Random, letters: Sequence[str], upper: bool = False) -> str:
    """A word that means something to sudo, as it stands or with a letter more or less."""
    word = rng.choice(ODD_WORDS)
    if upper and rng.random() < 0.3:
        word = word.upper()
    change = rng.randrange(8)
    if change == 0:
        word += rng.choice(letters)
    elif change == 1:
        word = rng.choice(letters) + word
    elif change == 2:
        place = rng.randrange(len(word) + 1)
        word = word[:place] + rng.choice(letters) + word[place:]
    elif change == 3 and len(word) > 1:
        place = rng.randrange(len(word))
        word = word[:place] + word[place + 1 :]
    return word


def odd_list(rng: random.Random, item: Callable[[], str]) -> str:
    """One to three items, some of them negated."""
    return ", ".join(
        rng.choice(("", "", "", "!")) + item() for _ in range(rng.choice((1, 1, 1, 2, 3)))
    )


def odd_names(rng: random.Random, letters: str) -> str:
    return odd_list(rng, lambda: "ALL" if rng.random() < 0.05 else odd_word(rng, letters))


def odd_command(rng: random.Random) -> str:
    """A file or a directory, and arguments."""
    path = "".join(
        "/" + odd_word(rng, "az09AZ._+-", upper=True) for _ in range(rng.choice((1, 2, 2, 3)))
    )
    kind = rng.randrange(6)
    if kind == 0:
        return path + "/"
    if kind == 1:
        return path + ' ""'
    if kind == 2:
        return path + "".join(" " + odd_argument(rng) for _ in range(rng.choice((1, 2, 3))))
    return path


def odd_argument(rng: random.Random) -> str:
    front = rng.choice(("", "", "-", "--", "/", "@", "%", "+", "\\:", "\\=", "\\,"))
    return front + odd_word(
        rng, ("a", "9", "Z", ".", "_", "/", "+", "-", "@", "%", "\\,", "\\:", "\\="), upper=True
    )


def odd_text(rng: random.Random) -> str:
    """A line of odd words: an alias or a user specification."""
    user, host = "az09._-", "az09-"
    kind = rng.randrange(10)
    if kind < 4:
        names = {0: user, 1: user, 2: host}
        items = (
            odd_list(rng, lambda: odd_command(rng)) if kind == 3 else odd_names(rng, names[kind])
        )
        return f"{('User_Alias', 'Runas_Alias', 'Host_Alias', 'Cmnd_Alias')[kind]} X = {items}\n"
    commands = odd_list(rng, lambda: odd_command(rng))
    tags = rng.choice(("", "", "NOPASSWD: ", "PASSWD: "))
    return (
        f"{odd_names(rng, user)} {odd_names(rng, host)} = ({odd_names(rng, user)})"
        f" {tags}{commands}\n"
    )


def check_odd_texts(visudo: str, folder: str) -> tuple[int, int]:
    """What the desk accepts of random texts of odd words, sudo has to accept: a file that it
    refuses would leave a host at its old one."""
    rng, path = random.Random(1), os.path.join(folder, "odd")
    read, wrong = 0, 0
    for _ in range(ODD_TEXTS):
        text = odd_text(rng)
        with open(path, "w") as file:
            file.write(text)
        canonical = desk.run([*desk.PROGRAM, "check", path])
        if canonical.returncode != 0:
            continue
        read += 1
        wrong += not accepts(visudo, f"the odd text {text!r}", canonical.stdout, folder)
    return read, wrong


def desk_allows(policy: str, words: Sequence[str]) -> bool:
    answer = desk.run([*desk.PROGRAM, "decide", policy, *words[:5], "--", *words[5:]])
    if answer.returncode not in (0, 1):
        sys.exit(f"the desk fails on {' '.join(words)}: {answer.stdout}{answer.stderr}")
    return answer.returncode == 0


def compare(programs: Mapping[str, str], sudoers: str) -> tuple[int, int, int, int]:
    """Asks both, policy by policy."""
    asked, allowed, wrong, policies = 0, 0, 0, set()
    with open(os.path.join(PEERS, "invocations")) as file:
        lines = [line.split() for line in file if line.strip() and not line.startswith("#")]
    for name, *words in lines:
        policy = os.path.join(PEERS, f"{name}.sudo")
        if name not in policies:
            policies.add(name)
        with open(policy) as source, open(sudoers, "w") as target:
            target.write(source.read())
        theirs, ours = allows(programs, words), desk_allows(policy, words)
        asked += 1
        allowed += theirs
        if theirs != ours:
            wrong += 1
            print(
                f"{name}: {' '.join(words)}: sudo {'allows' if theirs else 'denies'}, the desk"
                f" {'allows' if ours else 'denies'}"
            )
    return asked, allowed, len(policies), wrong


def inside() -> NoReturn:
    programs = {name: desk.tool(name) for name in ("sudo", "visudo", "faketime")}
    desk.check_built()
    with tempfile.TemporaryDirectory() as folder:
        sudoers = furnish(folder, USERS, COMMANDS)
        texts, refused = check_policies(programs["visudo"], folder)
        print(f"visudo accepts {texts - refused} of {texts} texts")
        odd, odd_refused = check_odd_texts(programs["visudo"], folder)
        print(
            f"of {ODD_TEXTS} random texts of odd words the desk reads {odd}, and visudo accepts"
            f" {odd - odd_refused} of them"
        )
        asked, allowed, policies, wrong = compare(programs, sudoers)
        print(
            f"sudo was asked {asked} times over {policies} policies: {allowed} allowed,"
            f" {asked - allowed} denied, {wrong} otherwise than the desk"
        )
        clear()
    sys.exit(1 if refused or odd_refused or wrong else 0)


if __name__ == "__main__":
    if sys.argv[1:] == ["--inside"]:
        inside()
    enter_namespace()
