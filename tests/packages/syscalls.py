"""The system calls of a program that was traced, beside those that a unit's SystemCallFilter lets
through."""

import re
import subprocess


def group(name: str) -> set[str]:
    """The calls of one of systemd's groups, through the groups that it names."""
    words = ["systemd-analyze", "syscall-filter", "--no-pager", name]
    listed = subprocess.run(words, stdout=subprocess.PIPE, check=True, text=True).stdout
    calls: set[str] = set()
    for line in listed.splitlines()[1:]:
        word = line.strip()
        if word.startswith("@"):
            calls |= group(word)
        elif word and not word.startswith("#"):
            calls.add(word)
    return calls


def allowed(filters: list[str]) -> set[str]:
    """The calls that the filters let through: the first lists, and each later one adds or takes
    away."""
    calls: set[str] = set()
    for line in filters:
        named: set[str] = set()
        for word in line.lstrip("~").split():
            named |= group(word) if word.startswith("@") else {word}
        calls = calls - named if line.startswith("~") else calls | named
    return calls


def traced(path: str) -> set[str]:
    """The calls of a file that `strace -f -o` wrote."""
    with open(path, encoding="utf-8", errors="replace") as file:
        found = (re.match(r"\d+ +([a-z0-9_]+)\(", line) for line in file)
        return {each[1] for each in found if each}
