#!/usr/bin/env python3
"""Runs desk-demo, as README.md has it, over build/desk or the program that DESK names, and compares
its output with README.md: other moments, and `..` for lines left out. The commands of CONCEPTS.md
are those of the demo, but for `--yes`, and each `make` of README.md is a target. (README's `apt
install` is run by tests/packages/release.py.)"""

import os
import re
import subprocess
import sys

from tests.common import desk

PROGRAM = os.environ.get("DESK", os.path.join(desk.ROOT, "build", "desk"))
# moments, as a person, the relay and sudoers write them
MOMENTS = re.compile(r"\b[A-Z][a-z]{2} \d{4}-\d\d-\d\d \d\d:\d\d:\d\d UTC|\b\d{14}Z")


def shown(text: str) -> list[str]:
    """What the page shows, in the pieces between which lines are left out."""
    section = text.split("\n## Two commands\n", 1)[1].split("\n## ", 1)[0]
    block = section.split("```\n")[-2]
    pieces = re.split(r"^\.\.\n|\n(?=\n)", MOMENTS.sub("MOMENT", block), flags=re.MULTILINE)
    return [piece.strip("\n") + "\n" for piece in pieces]


def not_run(ran: str) -> list[str]:
    """Commands of CONCEPTS.md that the demo does not run."""
    done = {line.partition("$ ")[2].replace(" --yes", "") for line in ran.splitlines()}
    words = re.findall(r"`(ssh desk [^`]+)`", " ".join(desk.read("docs", "CONCEPTS.md").split()))
    assert len(words) >= 2, "CONCEPTS.md shows no commands"
    return [it for it in words if it not in done]


def no_targets() -> list[str]:
    """What README.md has made that no target of the Makefile makes."""
    made = re.findall(r"^make (\w+) ", desk.read("README.md"), re.MULTILINE)
    assert len(made) >= 4, "README.md makes nothing"
    targets = {it[1] for it in re.finditer(r"^([\w-]+):", desk.read("Makefile"), re.MULTILINE)}
    return [it for it in made if it not in targets]


def main() -> None:
    ran = subprocess.run(
        [os.path.join(desk.ROOT, "relays", "desk-demo"), "--desk", PROGRAM],
        capture_output=True,
        text=True,
        check=False,
    )
    if ran.returncode:
        sys.exit(f"desk-demo ended with {ran.returncode}: {ran.stdout}{ran.stderr}")
    rest = MOMENTS.sub("MOMENT", ran.stdout)
    for piece in shown(desk.read("README.md")):
        _, found, rest = rest.partition(piece)
        if not found:
            sys.exit(f"README.md: desk-demo does not print, at its place:\n{piece}")
    if wrong := not_run(ran.stdout):
        sys.exit(f"CONCEPTS.md: desk-demo does not run {wrong}")
    if wrong := no_targets():
        sys.exit(f"README.md: no target of the Makefile is {wrong}")
    print("desk-demo prints what README.md shows of it, and runs the commands of CONCEPTS.md")


main()
