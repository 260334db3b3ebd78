#!/usr/bin/env python3
"""Draws docs/concepts.svg of docs/concepts.dot, by Debian's package graphviz.

The SVG has both colour schemes, and its own background: it is readable wherever a page shows it. It
names the digest of the text that it was drawn of, which `make quick` compares.
"""

import hashlib
import re
import subprocess
import sys
from collections.abc import Iterator

import repository

SOURCE, PICTURE = "docs/concepts.dot", "docs/concepts.svg"
WIDTH = 480  # pixels, where the page has so many
LIGHT = """\
.graph > polygon { fill: #ffffff; stroke: none }
text { fill: #1f2328; font-family: system-ui, sans-serif }
.node path { fill: #ffffff; stroke: #57606a }
.person path { fill: #ddf4ff; stroke: #0969da }
.python path { fill: #fff8c5; stroke: #9a6700 }
.proved path { fill: #dafbe1; stroke: #1a7f37; stroke-width: 2.5 }
.edge path { fill: none; stroke: #57606a }
.edge polygon { fill: #57606a; stroke: #57606a }
"""
DARK = """\
.graph > polygon { fill: #0d1117 }
text { fill: #e6edf3 }
.node path { fill: #161b22; stroke: #8b949e }
.person path { fill: #0c2d6b; stroke: #58a6ff }
.python path { fill: #3d2e00; stroke: #d29922 }
.proved path { fill: #0f3d20; stroke: #3fb950 }
.edge path { stroke: #8b949e }
.edge polygon { fill: #8b949e; stroke: #8b949e }
"""
STYLE = f"<style>\n{LIGHT}@media (prefers-color-scheme: dark) {{\n{DARK}}}\n</style>\n"


def mark() -> str:
    """What the picture says of the text that it was drawn of."""
    digest = hashlib.sha256(repository.read(SOURCE).encode()).hexdigest()
    return f"<!-- drawn of {SOURCE}, SHA-256 {digest} -->\n"


def drawn() -> str:
    """The picture: graphviz says where everything stands, and the style how it looks."""
    ran = subprocess.run(
        ["dot", "-Tsvg"], input=repository.read(SOURCE), capture_output=True, text=True, check=True
    )
    svg = re.sub(r"<!--.*?-->\n|<\?xml.*?\?>\n|<!DOCTYPE.*?>\n", "", ran.stdout, flags=re.DOTALL)
    svg = re.sub(r' (?:fill|stroke|font-family)="[^"]*"', "", svg)
    head, svg = re.sub(r'<svg width="\d+pt" height="\d+pt"', f'<svg width="{WIDTH}"', svg).split(
        ">\n", 1
    )
    return f"{mark()}{head}>\n<title>The life of a request</title>\n{STYLE}{svg}"


def faults() -> Iterator[str]:
    """Whether the text changed since the picture was drawn."""
    if not repository.read(PICTURE).startswith(mark()):
        yield f"{PICTURE}: it is not drawn of {SOURCE}: run make picture"


def main() -> int:
    try:
        repository.write(repository.ROOT, PICTURE, drawn())
    except FileNotFoundError:
        print("it needs the program dot, of Debian's package graphviz")
        return 1
    return 0


if __name__ == "__main__":
    sys.exit(main())
