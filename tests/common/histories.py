"""A desk's history of some moments, as packaging/desk-history writes it on each of them."""

import hashlib
import os
import subprocess
from typing import NamedTuple


class Moment(NamedTuple):
    """What a desk is served with since a moment, and what was said of the change."""

    roster: str
    base: str
    said: str = ""


def digest(text: bytes) -> str:
    return hashlib.sha256(text).hexdigest()


def canonical(desk: str, base: str) -> bytes:
    """A base's canonical form, whose digest a desk names; nothing for what is no base."""
    return subprocess.run([desk, "check", base], capture_output=True, check=False).stdout


def write_history(folder: str, desk: str, moments: dict[str, Moment]) -> None:
    """Puts a history into a folder."""
    lines = ""
    for at, it in sorted(moments.items()):
        room = os.path.join(folder, at)
        os.makedirs(room, exist_ok=True)
        for name, text in zip(("roster.toml", "base.sudo", "change"), it, strict=True):
            with open(os.path.join(room, name), "w", encoding="utf-8") as file:
                file.write(text)
        base = canonical(desk, os.path.join(room, "base.sudo"))
        lines += f"{at} {digest(it.roster.encode())} {digest(base)}\n"
    with open(os.path.join(folder, "moments"), "w", encoding="ascii") as file:
        file.write(lines)
