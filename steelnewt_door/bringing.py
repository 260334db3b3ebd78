"""A copy of what a door kept, on a machine of the auditors': it only grows. What came here once is
not asked for again, so nobody at the door's machine can take it back or write it anew."""

import base64
import json
import os
import re
from collections.abc import Callable, Iterator

from steelnewt_client.moments import FORM as MOMENT
from steelnewt_door.journal import files_of
from steelnewt_door.shown import NAMES, NUMBER

Ask = Callable[[str], bytes]
BEGUN = re.compile(rb'"row":"begun"')
EARLIEST = "19700101000000Z"
MOST_PAGES = 10_000  # of a run


class BadCopy(Exception):
    """What comes is none of a door's; the text says why."""


class Copy:
    """The copy in a folder: `journal`, and `signers`."""

    def __init__(self, folder: str) -> None:
        self.journal, self.signers = (os.path.join(folder, it) for it in ("journal", "signers"))
        for path in (self.journal, self.signers):
            os.makedirs(path, 0o750, exist_ok=True)
        self.last, self.line = self.read_last()

    def read_last(self) -> tuple[int, bytes]:
        """The last row that is here. (A part of one, which a kill left, is taken away.)"""
        files = files_of(self.journal)
        if not files:
            return 0, b""
        begins, path = files[-1]
        with open(path, "r+b") as file:
            lines = file.read().splitlines(keepends=True)
            if lines and not lines[-1].endswith(b"\n"):
                lines.pop()
                file.truncate(sum(map(len, lines)))
        if not lines:
            os.unlink(path)
            return self.read_last()
        last = begins - 1
        for line in lines:
            last = number_of(line, last + 1)
        return last, lines[-1]

    def bring(self, ask: Ask) -> Iterator[str]:
        """Takes what is new of the journal, and says where the door no longer has what is here."""
        if self.last:
            found = ask(f"/v1/journal/after/{self.last - 1}").splitlines(keepends=True)
            if found[:1] != [self.line]:
                told = "is here, and at the door it is not, or is another"
                yield f"TAKEN BACK: row {self.last} {told}"
        for _ in range(MOST_PAGES):
            page = ask(f"/v1/journal/after/{self.last}")
            if not page:
                return
            self.add(page)
        raise BadCopy("the journal has no end")

    def add(self, page: bytes) -> None:
        """Puts a page of rows behind those that are here."""
        if not page.endswith(b"\n"):
            raise BadCopy("the last row of a page has no end")
        for line in page.splitlines(keepends=True):
            no = number_of(line, self.last + 1)
            if no <= self.last:
                raise BadCopy(f"row {no} comes behind row {self.last}")
            files = files_of(self.journal) if not BEGUN.search(line) else []
            name = files[-1][1] if files else os.path.join(self.journal, f"journal-{no:012d}.jsonl")
            with open(name, "ab") as file:
                file.write(line)
            self.last, self.line = no, line

    def bring_signers(self, ask: Ask) -> None:
        """Takes the versions of the signers that are new."""
        for _ in range(MOST_PAGES):
            last = max(self.moments(), default=EARLIEST)
            page = ask(f"/v1/signers/after/{last}")
            if not page:
                return
            for line in page.splitlines():
                self.add_version(line)
        raise BadCopy("the versions of the signers have no end")

    def moments(self) -> list[str]:
        return [it for it in os.listdir(self.signers) if MOMENT.fullmatch(it)]

    def add_version(self, line: bytes) -> None:
        """Puts a version of the signers behind those that are here."""
        try:
            told = json.loads(line)
            at, files = str(told["at"]), dict(told["files"])
            parts = {str(it): base64.b64decode(files[it], validate=True) for it in files}
        except (ValueError, KeyError, TypeError) as fault:
            raise BadCopy(f"this is no version of signers: {fault!r}") from None
        is_new = MOMENT.fullmatch(at) and at > max(self.moments(), default=EARLIEST)
        if not is_new or not parts.keys() <= set(NAMES):
            raise BadCopy(f"this is no version of signers behind the last: {at[:40]!r}")
        new = os.path.join(self.signers, ".new")
        os.makedirs(new, exist_ok=True)
        for name in os.listdir(new):
            os.unlink(os.path.join(new, name))
        for name, data in parts.items():
            with open(os.path.join(new, name), "wb") as file:
                file.write(data)
        os.rename(new, os.path.join(self.signers, at))


def number_of(line: bytes, otherwise: int) -> int:
    """A row's number; that of its place where somebody changed it so that it has none."""
    found = NUMBER.search(line)
    return int(found[1]) if found else otherwise
