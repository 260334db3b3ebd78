"""What a sudo that wrote nothing down runs, by its words."""

from __future__ import annotations

import os
import pwd
import re
from collections.abc import Sequence
from typing import Optional

from steelnewt_host.faults import Unclear
from steelnewt_host.processes import Process, environment

# sudo's own options that take a word, and those that take none, by their letters; and its long
# ones. What is missing here cannot be judged.
WITH_WORD, ALONE = set("CDgpRrTtuUac"), set("ABbEeHiKklNnPSsVv")
LONG = {
    "askpass": "A", "background": "b", "bell": "B", "chdir": "D", "chroot": "R",
    "close-from": "C", "command-timeout": "T", "edit": "e", "group": "g", "list": "l",
    "login": "i", "no-update": "N", "non-interactive": "n", "other-user": "U",
    "preserve-env": "E", "preserve-groups": "P", "prompt": "p", "remove-timestamp": "K",
    "reset-timestamp": "k", "role": "r", "set-home": "H", "shell": "s", "stdin": "S",
    "type": "t", "user": "u", "validate": "v", "version": "V",
}  # fmt: skip


def long_option(word: str) -> tuple[str, Optional[str]]:
    """The letter of a long option, which may be cut short, and the word after its `=`."""
    name, is_given, value = word[2:].partition("=")
    letters = {LONG[name]} if name in LONG else {LONG[it] for it in LONG if it.startswith(name)}
    if len(letters) != 1:
        raise Unclear(f"the option {word}")
    return letters.pop(), value if is_given else None


def sudo_words(words: Sequence[str]) -> tuple[dict[str, str], list[str]]:
    """sudo's options, by their letters, and the command, as sudo itself reads its words."""
    found: dict[str, str] = {}
    rest = list(words[1:])

    def take(letter: str, value: Optional[str]) -> None:
        if letter in WITH_WORD and value is None:
            if not rest:
                raise Unclear(f"-{letter} without its word")
            value = rest.pop(0)
        found[letter] = value or ""

    while rest:
        word = rest[0]
        if word == "--":
            return found, rest[1:]
        if word.startswith("--"):
            rest.pop(0)
            take(*long_option(word))
        elif word.startswith("-") and len(word) > 1:
            rest.pop(0)
            letters = word[1:]
            while letters:
                letter, letters = letters[0], letters[1:]
                if letter not in WITH_WORD | ALONE:
                    raise Unclear(f"the option -{letter}")
                take(letter, letters if letter in WITH_WORD and letters else None)
                letters = "" if letter in WITH_WORD else letters
        elif "=" in word and not word.startswith("/"):
            if words[len(words) - len(rest) - 1] == "--":  # (sudo may take that for its last)
                raise Unclear(f"the word {word} behind an option's --")
            rest.pop(0)  # a variable of the command's
        else:
            break
    return found, rest


def shell_of(options: dict[str, str], user: str, held: dict[str, str]) -> str:
    """The shell that `sudo -i` or `sudo -s` starts."""
    if "i" not in options:
        return held.get("SHELL") or pwd.getpwnam(user).pw_shell or "/bin/sh"
    target = options.get("u") or ("" if options.get("g") else "root") or user
    if target.startswith("#"):
        return pwd.getpwuid(int(target[1:])).pw_shell or "/bin/sh"
    return pwd.getpwnam(target).pw_shell or "/bin/sh"


def question(process: Process, words: Sequence[str], user: str) -> tuple[str, ...]:
    """The words in which sudo is asked whether it still allows what it runs; none where it runs
    nothing."""
    if not words:
        raise Unclear("they cannot be read, or are too many")
    options, command = sudo_words(words)
    if options.keys() & set("lvKV") or not command and not options.keys() & set("is"):
        return ()
    if "R" in options:
        raise Unclear("a root of its own (-R)")
    if "e" in options or os.path.basename(words[0]) == "sudoedit":
        command = ["sudoedit", *command]
    elif options.keys() & set("is"):
        shell = shell_of(options, user, environment(process))
        spaced = (re.sub(r"(\s)", r"\\\1", word) for word in command)
        command = [shell, "-c", " ".join(spaced)] if command else [shell]
    target = [word for it in "ug" if options.get(it) for word in (f"-{it}", options[it])]
    if "--" in target:
        raise Unclear("its target has the name --")
    return (*target, "--", *command)


def folders_of(question: Sequence[str], path: str, process: Process) -> tuple[str, ...]:
    """Where sudo is asked about words: in its user's folder only where its command is found by
    that, and at / where root cannot enter it, since its user may have chosen one for that."""
    command, *rest = question[question.index("--") + 1 :]
    named = rest if command == "sudoedit" else [command] if "/" in command else path.split(":")
    if all(each.startswith("/") for each in named):
        return ("/",)
    return f"/proc/{process.pid}/cwd", "/"
