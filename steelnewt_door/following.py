"""Several doors have one history of signers: what is changed at one is taken over at the others,
version by version, by root, and never where the two histories differ."""

import os
import time
from contextlib import suppress

from steelnewt_client.moments import stamp_of
from steelnewt_client.signed import DIGEST
from steelnewt_door.changes import AGREED, Two, digest_of
from steelnewt_door.changing import Changing, emptied, synced, written
from steelnewt_door.shown import NAMES
from steelnewt_door.signers import BadSigners, Signers, Version

NEW = ".taken"


def new_versions(mine: Signers, theirs: Signers) -> list[Version]:
    """The versions of another folder behind those that are here, which have to be there too."""
    here, there = mine.moments(), theirs.moments()
    for at in here:
        if at > max(there, default=""):
            break  # (the other one lags)
        if at not in there:
            raise BadSigners(f"{theirs.folder} lacks the version {at}: the histories differ")
        if digest_of(mine.version(at)) != digest_of(theirs.version(at)):
            raise BadSigners(f"{theirs.folder} has another version {at}: the histories differ")
    last = max(here, default="")
    if missing := [it for it in there if it < last and it not in here]:
        raise BadSigners(f"{theirs.folder} has a version {missing[0]} that was never here")
    return [theirs.version(it) for it in there if it > last]


def check_new(versions: list[Version], two: Two) -> None:
    """Refuses versions that cannot be read, of a moment that has not come, or that too few people
    said yes to."""
    for version in versions:
        if version.at > stamp_of(time.time() + 5):
            raise BadSigners(f"the version {version.at} is ahead of the clock here")
        version.signers()
        version.revoked()
        two.check(version)


def take(changing: Changing, versions: list[Version]) -> None:
    """Makes versions of another folder hold here too, the oldest first, each whole."""
    folder = changing.signers.folder
    new = os.path.join(folder, NEW)
    try:
        for version in versions:
            emptied(new)
            os.mkdir(new, 0o755)
            for name in filter(version.has, NAMES):
                written(os.path.join(new, name), version.bytes(name))
            synced(new)
            os.rename(new, os.path.join(folder, version.at))
        synced(folder)
    except OSError as fault:
        raise BadSigners(f"{folder} cannot be written: {fault.strerror}") from None


def take_agreed(changing: Changing, source: str) -> None:
    """Takes over what people said of rosters and bases. (It is judged each time that it is used.)"""
    theirs, mine = (os.path.join(it, AGREED) for it in (source, changing.signers.folder))
    with suppress(FileNotFoundError):
        names = [it for it in os.listdir(theirs) if DIGEST.fullmatch(it)]
        os.makedirs(mine, 0o755, exist_ok=True)
        for name in names:
            path = os.path.join(mine, name)
            if not os.path.lexists(path):
                with open(os.path.join(theirs, name), "rb") as file:
                    written(path, file.read())
