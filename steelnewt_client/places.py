"""Where the files are that belong to the programs beside the desk."""

import os

HERE = os.path.dirname(os.path.realpath(__file__))
CLONE = os.path.dirname(HERE)
# (PREFIX/lib/python3/dist-packages/steelnewt_client)
PREFIX = os.path.normpath(os.path.join(HERE, *[os.pardir] * 4))


def place(in_clone: str, installed: str) -> str:
    """A file by its name in a clone, where that is what runs; else by its name below the prefix."""
    found = os.path.join(CLONE, in_clone)
    return found if os.path.exists(found) else os.path.join(PREFIX, installed)
