"""The settings of the backup: /etc/desk/backup.toml, and the words of the command line over it."""

from __future__ import annotations

import os
import tomllib
from dataclasses import dataclass

from steelnewt_backup.faults import Failed
from steelnewt_backup.seal import Seal

CONF = "/etc/desk/backup.toml"
KINDS = {"dir": str, "keep": int, "recipients": list, "seal": str, "also": list}


@dataclass(frozen=True)
class Settings:
    """Where backups are, for how many days they stay, to whom they are sealed, and what a site
    takes besides."""

    folder: str = ""
    keep: int = 30
    recipients: tuple[str, ...] = ()
    seal: str = "secret"
    also: tuple[str, ...] = ()

    def sealing(self) -> Seal:
        return Seal(self.recipients, self.seal == "all")


def read_settings(path: str, must_be: bool = False) -> Settings:
    try:
        with open(path, "rb") as file:
            found = tomllib.load(file)
    except FileNotFoundError:
        if must_be:
            raise Failed(f"there are no settings {path}") from None
        return Settings()
    except (OSError, ValueError) as fault:
        raise Failed(f"{path}: {fault}") from None
    for name, value in found.items():
        if name not in KINDS:
            raise Failed(f"{path}: no setting is named {name}")
        if type(value) is not KINDS[name]:
            raise Failed(f"{path}: {name} has another kind: man desk-backup")
    lists = {name: tuple(map(str, found.get(name, ()))) for name in ("recipients", "also")}
    folder, keep, seal = found.get("dir", ""), found.get("keep", 30), found.get("seal", "secret")
    return checked(path, Settings(folder, keep, lists["recipients"], seal, lists["also"]))


def checked(path: str, found: Settings) -> Settings:
    if found.keep < 1:
        raise Failed(f"{path}: keep is a number of days, 1 or more")
    if found.seal not in ("secret", "all"):
        raise Failed(f'{path}: seal is "secret" or "all"')
    for name in (found.folder, *found.also):
        if name and (not name.startswith("/") or os.path.normpath(name) != name):
            raise Failed(f"{path}: {name!r} is no whole path")
    return found
