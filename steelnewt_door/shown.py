"""What auditors get of the door's own files, a page at a time: rows of the journal behind a number,
and versions of the signers behind a moment, as they stand on the disk. Nobody has to be at the
door's machine to verify what it kept (`desk-verify`)."""

import base64
import os
import re
from collections.abc import Iterable, Iterator

from steelnewt_client.messages import canonical
from steelnewt_door.journal import files_of
from steelnewt_door.signers import ALLOWED, CHANGE, KRL, PASSKEYS, REVOKED, YESES
from steelnewt_door.signers import Signers, Version

MOST_PAGE = 1 << 20  # bytes of a page, which has one line at least
NAMES = (ALLOWED, REVOKED, KRL, PASSKEYS, CHANGE, YESES)
# (a text of a row has no such bytes: each of its quotes has a backslash before it)
NUMBER = re.compile(rb',"no":([0-9]{1,12}),')


def page(lines: Iterable[bytes]) -> bytes:
    """As many lines as have room."""
    found, size = list[bytes](), 0
    for line in lines:
        size += len(line)
        if found and size > MOST_PAGE:
            break
        found.append(line)
    return b"".join(found)


def lines_behind(path: str, begins: int, no: int) -> Iterator[bytes]:
    """The lines of a file with rows behind a number. (One that is no row, for somebody changed it,
    goes by its place, so that auditors see it.)"""
    with open(path, "rb") as file:
        for place, line in enumerate(file, begins):
            found = NUMBER.search(line)
            if (int(found[1]) if found else place) > no and line.endswith(b"\n"):
                yield line


def rows_after(folder: str, no: int) -> bytes:
    """A page of rows behind a number; empty behind the last."""
    files = files_of(folder)
    first = max((at for at, (begins, _) in enumerate(files) if begins <= no + 1), default=0)
    return page(line for begins, path in files[first:] for line in lines_behind(path, begins, no))


def version_line(version: Version) -> bytes:
    """A version of the signers with all of its files, on a line."""
    names = [it for it in NAMES if version.has(it)]
    files = {it: base64.b64encode(version.bytes(it)).decode("ascii") for it in names}
    return canonical({"at": version.at, "files": files}).encode("ascii") + b"\n"


def versions_after(folder: str, at: str) -> bytes:
    """A page of versions behind a moment; empty behind the last."""
    if not os.path.isdir(folder):
        return b""
    signers = Signers(folder)
    return page(version_line(signers.version(it)) for it in signers.moments() if it > at)
