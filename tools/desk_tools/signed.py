"""Who signed what: what `desk-verify` says of a door's journal, of its signers and of the messages
that a desk holds (docs/SIGNING.md, 'The journal')."""

import json
import os
import re
import shutil
from collections.abc import Iterator
from dataclasses import dataclass
from typing import Any

from desk_tools.served import Failed, file_digest
from steelnewt_client.places import place

Data = dict[str, Any]
FILE = re.compile(r"journal-[0-9]{12}\.jsonl")
MOMENT = re.compile(r"[0-9]{14}Z")
# The files of a version of the signers.
NAMES = ("allowed_signers", "revoked_keys", "revoked.krl", "change", "signatures")
LINE = re.compile(r"([A-Z ]+): (.*)")
MESSAGE = re.compile(r'(.*): (\{"at":.*\})')
# What is said where all is well: the last lines.
COUNTS = re.compile(r"[0-9]+ (rows|signatures|messages|approvals)\b.*|the last row is .*|\(.*\)")


@dataclass(frozen=True)
class Door:
    """A door's files, as an auditor has them."""

    site: str
    journal: str
    signers: str
    changes_by: str = "1"

    def words(self, messages: str, requests: str) -> list[str]:
        """What looks at them."""
        program = place("door/desk-verify", "bin/desk-verify")
        path = program if os.path.exists(program) else shutil.which("desk-verify")
        if path is None:
            raise Failed("it needs the program desk-verify of the package steelnewt-door")
        words = [path, "--site", self.site, "--journal", self.journal, "--signers", self.signers]
        words += ["--messages", messages, "--requests", requests]
        return [*words, "--changes-by", self.changes_by]

    def files(self) -> Iterator[tuple[str, str]]:
        """The journal's files, each with its SHA-256."""
        try:
            for name in sorted(filter(FILE.fullmatch, os.listdir(self.journal))):
                yield file_digest(os.path.join(self.journal, name)), name
        except OSError as fault:
            raise Failed(f"{self.journal}: {fault.strerror}") from None

    def versions(self) -> Iterator[tuple[str, bytes]]:
        """The files of all versions of the signers, each by its version's moment."""
        try:
            for moment in sorted(filter(MOMENT.fullmatch, os.listdir(self.signers))):
                for name in NAMES:
                    path = os.path.join(self.signers, moment, name)
                    if os.path.exists(path):
                        with open(path, "rb") as file:
                            yield f"{moment}/{name}", file.read()
        except OSError as fault:
            raise Failed(f"{self.signers}: {fault.strerror}") from None


def row_of(line: str) -> Data:
    """A line about what was found: what it is, why, and the message, where it is about one that can
    be read. (In a row that somebody changed may stand anything.)"""
    it = LINE.fullmatch(line)
    if not it:
        return {"kind": "OTHER", "why": line}
    if message := MESSAGE.fullmatch(it[2]):
        try:
            found = json.loads(message[2])
            names = {key: str(found[key]) for key in ("at", "by", "kind", "no")}
            told = names | {"of": str(found.get("of", found["by"]))}
            return {"kind": it[1], "why": message[1], "message": told}
        except (ValueError, KeyError, TypeError, AttributeError, RecursionError):
            pass
    return {"kind": it[1], "why": it[2]}


def told(text: str, first: str, last: str) -> Data:
    """What desk-verify said, in parts: of messages, those of a time."""
    lines = text.splitlines()
    counts = [it for it in lines if COUNTS.fullmatch(it)]
    rows = [row_of(it) for it in lines if not COUNTS.fullmatch(it)]
    found = [it for it in rows if first <= it.get("message", {}).get("at", first) <= last]
    return {"found": found, "of_other_times": len(rows) - len(found), "counts": counts}
