"""The host's file, and how another takes its place."""

from __future__ import annotations

import contextlib
import json
import os
import re
import secrets
import stat
from collections.abc import Callable, Sequence
from typing import NamedTuple, Optional

from steelnewt_host.changes import tell_change
from steelnewt_host.faults import Fault
from steelnewt_host.settings import Settings
from steelnewt_host.state import fill, is_full, spares, write_state
from steelnewt_host.sudo import visudo
from steelnewt_host.telling import say


class Held(NamedTuple):
    """A file as it stands."""

    text: bytes
    seen: os.stat_result


class Place:
    """The host's file: its folder held open, so that no name leads elsewhere meanwhile."""

    def __init__(self, path: str, room: str = "") -> None:
        """`room` is the folder whose spare files a full disk may take."""
        folder, self.name = os.path.split(os.path.abspath(path))
        self.path, self.room = path, room
        try:
            flags = os.O_RDONLY | os.O_DIRECTORY | os.O_NOFOLLOW | os.O_CLOEXEC
            self.folder = os.open(folder, flags)
        except OSError as why:
            raise Fault(f"{folder} cannot be opened, or is a symbolic link: {why}") from why
        seen = os.fstat(self.folder)
        if seen.st_uid != os.geteuid() or seen.st_mode & 0o022:
            raise Fault(f"{folder} has to be root's, and nobody else may write to it")
        self.where = folder
        if self.name.endswith("~") or "." in self.name and folder == "/etc/sudoers.d":
            raise Fault(f"sudo skips a file of the name {self.name}: take one without a dot or ~")

    def close(self) -> None:
        os.close(self.folder)

    def read(self) -> Optional[Held]:
        """What stands there; nothing where there is none."""
        try:
            handle = os.open(
                self.name, os.O_RDONLY | os.O_NOFOLLOW | os.O_NONBLOCK, dir_fd=self.folder
            )
        except FileNotFoundError:
            return None
        except OSError as why:
            raise Fault(f"{self.path} is a symbolic link, or cannot be read: {why}") from why
        with os.fdopen(handle, "rb") as file:
            seen = os.fstat(file.fileno())
            if not stat.S_ISREG(seen.st_mode):
                raise Fault(f"{self.path} is no plain file")
            return Held(file.read(), seen)

    def write(self, text: bytes) -> str:
        """The text in a new file beside it, which sudo skips for the dot in its name. A full disk
        gives up the room that is kept for that."""
        try:
            return self.written(text)
        except OSError as why:
            kept = spares(self.room) if is_full(why) else []
            if not kept or os.stat(self.room).st_dev != os.fstat(self.folder).st_dev:
                raise
        os.unlink(kept[0])
        return self.written(text)

    def written(self, text: bytes) -> str:
        name = f"{self.name}.new.{secrets.token_hex(8)}"
        flags = os.O_WRONLY | os.O_CREAT | os.O_EXCL | os.O_NOFOLLOW
        handle = os.open(name, flags, 0o400, dir_fd=self.folder)
        try:
            seen = os.fstat(handle)
            if (seen.st_uid, seen.st_gid) != (0, 0):
                os.fchown(handle, 0, 0)
            os.fchmod(handle, 0o440)
            fill(handle, text)
        except OSError:
            os.unlink(name, dir_fd=self.folder)
            raise
        return name

    def put(self, name: str) -> None:
        """Takes the file of that name for the host's, in one step."""
        os.rename(name, self.name, src_dir_fd=self.folder, dst_dir_fd=self.folder)
        os.fsync(self.folder)

    def put_back(self, old: Optional[bytes], time_of: int) -> None:
        """What stood there before, with its time; nothing, where nothing did."""
        if old is None:
            with contextlib.suppress(FileNotFoundError):
                os.unlink(self.name, dir_fd=self.folder)
            os.fsync(self.folder)
            return
        name = self.write(old)
        os.utime(name, ns=(time_of, time_of), dir_fd=self.folder)
        self.put(name)

    def clear(self) -> None:
        """Takes away what a fetch that was killed left."""
        for name in os.listdir(self.folder):
            if re.fullmatch(re.escape(self.name) + r"\.new\.[0-9a-f]{16}", name):
                os.unlink(name, dir_fd=self.folder)


def faults_alone(lines: Sequence[str]) -> set[str]:
    """What the lines say, wherever it stands."""
    return {re.sub(r":[0-9]+(:[0-9]+)?:|near line [0-9]+.*", "", line) for line in lines}


class Trial:
    """What stood in the file's place while a new one is tried, kept in the state's folder: a fetch
    that is killed meanwhile leaves it there, and the next one ends the trial."""

    def __init__(self, folder: str) -> None:
        self.path = os.path.join(folder, "trial.json")

    def begin(self, old: Optional[Held], before: set[str]) -> None:
        text = None if old is None else old.text.decode("latin-1")
        time_of = 0 if old is None else old.seen.st_mtime_ns
        write_state(self.path, json.dumps({"old": text, "time": time_of, "before": sorted(before)}))

    def is_begun(self) -> bool:
        return os.path.exists(self.path)

    def end(self, place: Place) -> None:
        """Asks visudo of all that sudo reads; what stood there comes back if that is worse than
        it was before."""
        try:
            with open(self.path, encoding="ascii") as file:
                held = json.load(file)
        except FileNotFoundError:
            return
        after = visudo()
        worse = [line for line in after if faults_alone([line]) - set(held["before"])]
        if worse:
            old = held["old"]
            place.put_back(None if old is None else old.encode("latin-1"), held["time"])
        os.unlink(self.path)
        if worse:
            raise Fault(f"with it, sudo refuses or reads otherwise what this host has: {worse[0]}")
        if after:
            say(f"visudo -c finds a fault that was there before: {after[0]}")


def install(settings: Settings, place: Place, new: bytes, keep: Callable[[], None]) -> None:
    """Puts the text in place where it is another, and what stood there back if sudo does not read
    all that it reads as before. `keep` notes what it was made of, before it stands there: a fetch
    that is killed between both refuses too much, and never takes an older file. That the rights are
    others is noted before visudo is asked again, which may take its time, or be killed."""
    old, trial = place.read(), Trial(settings.state)
    if old is not None and old.text == new and is_sound(old.seen):
        keep()
        os.utime(place.name, dir_fd=place.folder)
        return
    before = faults_alone(visudo())
    name = place.write(new)
    try:
        wrong = visudo("-s", "-f", os.path.join(place.where, name))
        if wrong:
            raise Fault(f"visudo refuses it: {wrong[0].replace('.' + name.split('.', 1)[1], '')}")
        trial.begin(old, before)
        keep()
        place.put(name)
        tell_change(settings)
    finally:
        with contextlib.suppress(FileNotFoundError):
            os.unlink(name, dir_fd=place.folder)
    trial.end(place)
    if old is not None and count_lines(old.text) and not count_lines(new):
        say(f"{place.path} loses all its {count_lines(old.text)} lines: the desk gives no right")


def count_lines(text: bytes) -> int:
    return sum(1 for line in text.splitlines() if line.strip())


def is_sound(seen: os.stat_result) -> bool:
    return stat.S_IMODE(seen.st_mode) == 0o440 and seen.st_uid == 0 and seen.st_gid == 0
