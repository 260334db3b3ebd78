"""What nobody else may read is sealed to a recipient, by age or by gpg."""

from __future__ import annotations

import shutil
import subprocess
from collections.abc import Sequence
from dataclasses import dataclass

from steelnewt_backup.faults import Failed

GPG = "gpg:"  # before the fingerprint of a recipient's key; all others are age's
PROGRAMS = {"age": "Debian's package age", "gpg": "Debian's package gpg"}


def run(words: Sequence[str], given: bytes) -> bytes:
    """What one of the two programs prints."""
    name = words[0]
    if shutil.which(name) is None:
        raise Failed(f"it needs the program {name} ({PROGRAMS[name]})")
    ran = subprocess.run(words, input=given, capture_output=True, check=False)
    if ran.returncode:
        said = " ".join(ran.stderr.decode("utf-8", "replace").split())
        raise Failed(f"{name}: {said or f'status {ran.returncode}'}")
    return ran.stdout


@dataclass(frozen=True)
class Seal:
    """To whom is sealed: secrets alone, or all. Without a recipient nothing is."""

    recipients: tuple[str, ...] = ()
    seals_all: bool = False

    @property
    def kind(self) -> str:
        if not self.recipients:
            return ""
        return "gpg" if self.recipients[0].startswith(GPG) else "age"

    def check(self) -> None:
        """Refuses recipients of two kinds, and one that is none: nothing is taken then."""
        if len({it.startswith(GPG) for it in self.recipients}) > 1:
            raise Failed("all recipients are age's, or all are gpg's (gpg:FINGERPRINT)")
        if self.kind:
            self.sealed(b"")

    def covers(self, is_secret: bool) -> bool:
        return bool(self.kind) and (is_secret or self.seals_all)

    def sealed(self, data: bytes) -> bytes:
        if self.kind == "age":
            return run(["age", *(it for to in self.recipients for it in ("-r", to))], data)
        words = ["gpg", "--batch", "--quiet", "--trust-model", "always", "--compress-algo", "none"]
        named = [it for to in self.recipients for it in ("-r", to.removeprefix(GPG))]
        return run([*words, "--encrypt", *named], data)


def opened(kind: str, data: bytes, identity: str) -> bytes:
    """What was sealed. `identity` is age's file of a key; gpg looks in root's own ring."""
    if kind == "gpg":
        return run(["gpg", "--batch", "--quiet", "--decrypt"], data)
    if not identity:
        raise Failed("it is sealed: name the file of its key (--identity)")
    return run(["age", "--decrypt", "--identity", identity], data)
