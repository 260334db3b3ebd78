"""What a look notes in /run/desk-host for `check`, and for the looks that follow. Where /run is
full, it is told of, and holds nothing up."""

from __future__ import annotations

import contextlib
import os

from steelnewt_host.changes import since_boot
from steelnewt_host.kept import boot
from steelnewt_host.plugin import note_since, plugin_line
from steelnewt_host.settings import Settings
from steelnewt_host.state import read_some, write_state
from steelnewt_host.telling import log

MOST = 64 * 1024  # the bytes of such a note
STALE = ("changed", "since", "looked", "lost", "unclear", "clock", "told", "heard", "refused")


class Notes:
    """The notes of one run."""

    def __init__(self, settings: Settings) -> None:
        self.folder = settings.run
        self.is_whole = True  # whether each could be written

    def read(self, name: str) -> str:
        text = read_some(os.path.join(self.folder, name), MOST) or b""
        return text.decode("ascii", "replace")

    def put(self, name: str, text: str) -> None:
        """Writes a note; an empty one is none."""
        path = os.path.join(self.folder, name)
        try:
            if text:
                write_state(path, text[:MOST].encode("ascii", "replace").decode())
            else:
                with contextlib.suppress(FileNotFoundError):
                    os.unlink(path)
        except OSError as why:
            if self.is_whole:
                log(f"{path} cannot be written: {why.strerror}; free space in /run")
            self.is_whole = False

    def looked(self) -> None:
        """Notes that a look was whole."""
        self.put("looked", f"{since_boot()}\n")


def is_of_another_start(settings: Settings) -> bool:
    """Whether what is noted is of another start of the machine: then /run was kept over it."""
    text = read_some(os.path.join(settings.run, "boot"), 64)
    return text is not None and text.decode("ascii", "replace").strip() != boot()


def forget_another_start(settings: Settings) -> None:
    """Takes away what is noted of another start of the machine. (What has ended of what sudo wrote
    down then is cleared by each look: no process has such a number and start.)"""
    notes = Notes(settings)
    if is_of_another_start(settings):
        log(f"{settings.run} is of another start of this machine: mount a tmpfs on /run")
        for name in STALE:
            notes.put(name, "")
        notes.put("boot", "")
        if plugin_line():
            note_since(settings)
    if not notes.read("boot"):
        notes.put("boot", f"{boot()}\n")
