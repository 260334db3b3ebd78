"""The program `desk`, which the tools ask about base policies."""

import os
import shutil

from steelnewt_client.places import CLONE


class NoDesk(Exception):
    """The program is not there, or does not answer."""


def program(said: str | None) -> str:
    """The program that is named, or the one on the path, or that of a clone."""
    built = os.path.join(CLONE, "build", "desk")
    for path in (said,) if said else (shutil.which("desk"), built):
        if path and os.path.exists(path):
            return path
    raise NoDesk(f"there is no program {said}" if said else "it needs the program desk: --desk PROGRAM")
