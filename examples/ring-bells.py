#!/usr/bin/python3 -I
"""ring-bells FILE PROGRAM WORDS..

What `[notify]` of a relay runs where the roster has the ceiling break-glass. It hands each event of
desk-relay's, one JSON on the standard input, to PROGRAM. An event of that ceiling, or of the person
glass, is for everybody whom FILE lists (a name and an address a line), and its subject says so.
"""

import json
import re
import subprocess
import sys

CEILING, PERSON = "break-glass", "glass"
NAME = re.compile(rb"[a-z_][a-z0-9._-]*")


def listed(path: str) -> list[str]:
    """The names of a file. A line that begins with none costs itself alone, and is named."""
    with open(path, "rb") as file:
        lines = file.read().splitlines()
    found = []
    for number, line in enumerate(lines, 1):
        name = (line.split() or [b"#"])[0]
        if NAME.fullmatch(name):
            found.append(name.decode("ascii"))
        elif not name.startswith(b"#"):
            said = f"ring-bells: {path}, line {number}, begins with no name, and is left out"
            print(said, file=sys.stderr)
    return found


def main(words: list[str]) -> int:
    event, status = json.load(sys.stdin), 0
    if event.get("ceiling") == CEILING or event.get("by") == PERSON:
        event["subject"] = f"BREAK-GLASS: {event['subject']}"
        try:
            event["to"] = sorted({*event["to"], *listed(words[0])})
        except OSError as fault:
            # (who is told anyway is told, and the relay tries the bells again)
            print(f"ring-bells: {fault}", file=sys.stderr)
            status = 1
    ran = subprocess.run(words[1:], input=json.dumps(event), text=True, check=False)
    return ran.returncode or status


if __name__ == "__main__":
    sys.exit(main(sys.argv[1:]))
