#!/usr/bin/env python3
"""Prints a document as an installed desk has it, where all documents are in one folder, with the
examples: a link leads to where its page is installed, and of a page that only the repository has
its name is left. `installed.py PAGE`
"""

import os
import re
import sys
from collections.abc import Iterator

import picture
import repository
from markdown_to_mdoc import INSTALLED, PAGES

LINK = re.compile(r"\[([^\]]*)\]\(([^)#:]+)(#[^)]*)?\)")
# the documents of the repository that have the names of installed ones, and are not these
OTHERS = ("docs/README.md", "cases/README.md")


def place(path: str) -> str | None:
    """Where a file of the repository is installed, beside the documents; None if it is not."""
    name = os.path.basename(path)
    if path == picture.PICTURE:
        return name
    if path.endswith(".md"):
        is_there = name in PAGES or name in INSTALLED
        return name if is_there and path not in OTHERS else None
    return path if path.startswith("examples/") else None


def text_of(page: str) -> str:
    """The text of a page, with its links as an installed desk has them."""

    def link(found: re.Match[str]) -> str:
        path = os.path.normpath(os.path.join(os.path.dirname(page), found[2]))
        there = place(path)
        if there is None:
            return f"{path if found[1].endswith('.md') else found[1]} of the repository"
        label = re.sub(r"^docs/(?:proof/)?(?=[A-Z])", "", found[1])
        return f"[{label}]({there}{found[3] or ''})"

    return LINK.sub(link, repository.read(page))


def faults() -> Iterator[str]:
    """Documents that a link takes for installed and scripts/install.sh does not install."""
    script = repository.read("scripts/install.sh")
    (texts,) = re.findall(r"^for text in (README\.md[^;]*);", script, re.MULTILINE)
    pages = repository.run(["bash", "-c", f"echo {texts}"]).stdout.split()
    names = {os.path.basename(page) for page in pages}
    for page in pages:
        for _, path, _ in LINK.findall(text_of(page)):
            if path.endswith(".md") and path not in names:
                yield f"{page}: it has a link to {path}, which scripts/install.sh does not install"


def main() -> int:
    sys.stdout.write(text_of(sys.argv[1]))
    return 0


if __name__ == "__main__":
    sys.exit(main())
