"""Whose key is whose, and since when: a folder of versions, which only root writes.

    /etc/desk/signers/20260105090000Z/allowed_signers   ssh-keygen(1), ALLOWED SIGNERS
                                      revoked_keys      public keys that count no more, lost ones
                                      revoked.krl       a site's own list, ssh-keygen(1), KRL
                                      passkeys          the keys of browsers, and lost ones of these
                                      change            who changed what, in a line
                                      signatures        of the people who said yes to it

A version never changes: a change is a new one, by the moment from which it holds; the newest one
holds now. So a signature is judged again, years later, by what held when it came.
"""

import base64
import os
import re
from collections.abc import Iterator
from dataclasses import dataclass, replace

from steelnewt_client.moments import FORM as MOMENT
from steelnewt_client.names import PERSON
from steelnewt_client.signed import CHANGES, LIST, NAMESPACE, ORIGIN, PASSKEY
from steelnewt_door.passkeys import Passkey, passkey_of
from steelnewt_door.wire import BadSignature

SIGNERS = "/etc/desk/signers"
ALLOWED, REVOKED, CHANGE = "allowed_signers", "revoked_keys", "change"
KRL, YESES, PASSKEYS = "revoked.krl", "signatures", "passkeys"
KINDS = (
    r"ssh-ed25519|ssh-rsa|ecdsa-sha2-nistp(?:256|384|521)"
    r"|sk-ssh-ed25519@openssh\.com|sk-ecdsa-sha2-nistp256@openssh\.com"
)
# (a key that people sign messages with enrols by itself, before it is in here)
PURPOSES = f"{NAMESPACE},{LIST},{CHANGES}"
SPAN = r'valid-after="([0-9]{14}Z)"(?:,valid-before="([0-9]{14}Z)")?'
LINE = re.compile(
    rf'({PERSON}|\*) (cert-authority,)?namespaces="{re.escape(PURPOSES)}",{SPAN}'
    rf" ({KINDS}) ([A-Za-z0-9+/]+={{0,2}})"
)
PASSKEY_LINE = re.compile(
    rf'({PERSON}) {SPAN},origin="({ORIGIN})"(,verify-required)? {PASSKEY} ([A-Za-z0-9+/]+={{0,2}})'
)
LOST_LINE = re.compile(rf"revoked ({PASSKEY} [A-Za-z0-9+/]+={{0,2}})")


class BadSigners(Exception):
    """The folder of signers cannot be used, or not changed so; the text says why."""


@dataclass(frozen=True)
class Signer:
    """A key, whose it is, and from when until when it counts; `last` is empty while it has no end.
    An authority's signs certificates in everybody's name: its name is `*`. A passkey has the origin
    of the page that may ask for it, and whether it has to know its owner each time."""

    name: str
    kind: str
    key: str
    first: str
    last: str = ""
    is_authority: bool = False
    origin: str = ""
    is_verified: bool = False

    @property
    def is_passkey(self) -> bool:
        return self.kind == PASSKEY

    def passkey(self) -> Passkey:
        return passkey_of(self.blob, self.origin, self.is_verified)

    def line(self) -> str:
        span = f'valid-after="{self.first}"' + (f',valid-before="{self.last}"' if self.last else "")
        if self.is_passkey:
            where = f'origin="{self.origin}"' + ",verify-required" * self.is_verified
            return f"{self.name} {span},{where} {self.public}"
        what = "cert-authority," if self.is_authority else ""
        return f'{self.name} {what}namespaces="{PURPOSES}",{span} {self.kind} {self.key}'

    @property
    def public(self) -> str:
        return f"{self.kind} {self.key}"

    @property
    def blob(self) -> bytes:
        return base64.b64decode(self.key)

    def counts_at(self, at: str) -> bool:
        return self.first <= at and (not self.last or at <= self.last)


@dataclass(frozen=True)
class Version:
    """One version: its moment, and where it is."""

    at: str
    folder: str

    def path(self, name: str) -> str:
        return os.path.join(self.folder, name)

    def has(self, name: str) -> bool:
        return os.path.lexists(self.path(name))

    def bytes(self, name: str) -> bytes:
        try:
            with open(self.path(name), "rb") as file:
                return file.read()
        except OSError as fault:
            raise BadSigners(f"{self.path(name)} cannot be read: {fault.strerror}") from None

    def text(self, name: str) -> str:
        try:
            return self.bytes(name).decode("ascii")
        except ValueError as fault:
            raise BadSigners(f"{self.path(name)} cannot be read: {fault}") from None

    def state(self) -> tuple[object, ...]:
        """Marks of the version's files, which differ if somebody changed one, against the rules."""
        found: list[object] = [self.folder]
        for name in (ALLOWED, REVOKED, *(it for it in (KRL, PASSKEYS) if self.has(it))):
            try:
                it = os.stat(f"{self.folder}/{name}")
            except OSError as fault:
                raise BadSigners(f"{self.path(name)} cannot be read: {fault.strerror}") from None
            found += [it.st_ino, it.st_mtime_ns, it.st_size]
        return tuple(found)

    def seen(self) -> "Seen":
        return Seen(self.at, self.folder, self.state())

    def signers(self) -> list[Signer]:
        """Each line, by the file's order: a line of another form is refused, for ssh-keygen might
        read it otherwise."""
        found = []
        for number, line in enumerate(self.text(ALLOWED).splitlines(), 1):
            if not (said := LINE.fullmatch(line)):
                raise BadSigners(f"{self.path(ALLOWED)}: line {number} is none of desk-signer's")
            name, authority, first, last, kind, key = said.groups()
            found.append(Signer(name, kind, key, first, last or "", bool(authority)))
        return [*found, *self.passkeys()]

    def passkeys(self) -> list[Signer]:
        """The passkeys, by their file's order."""
        found = []
        for number, line in enumerate(self.passkey_lines(), 1):
            said = PASSKEY_LINE.fullmatch(line)
            if not said and not LOST_LINE.fullmatch(line):
                raise BadSigners(f"{self.path(PASSKEYS)}: line {number} is none of desk-signer's")
            if said:
                name, first, last, origin, is_verified, key = said.groups()
                where = origin, bool(is_verified)
                found.append(Signer(name, PASSKEY, key, first, last or "", False, *where))
        try:
            for it in found:
                it.passkey()
        except (BadSignature, ValueError) as fault:
            raise BadSigners(f"{self.path(PASSKEYS)}: {fault}") from None
        return found

    def passkey_lines(self) -> list[str]:
        return self.text(PASSKEYS).splitlines() if self.has(PASSKEYS) else []

    def revoked(self) -> list[str]:
        """The public keys that count no more, those of passkeys too."""
        lost = [it[1] for line in self.passkey_lines() if (it := LOST_LINE.fullmatch(line))]
        return [*self.text(REVOKED).splitlines(), *lost]

    def krl(self) -> str:
        """The site's own list, in base64; empty where it has none."""
        return base64.b64encode(self.bytes(KRL)).decode("ascii") if self.has(KRL) else ""


@dataclass(frozen=True)
class Seen(Version):
    """A version whose files were looked at just now."""

    marks: tuple[object, ...] = ()

    def state(self) -> tuple[object, ...]:
        return self.marks


class Copied(Version):
    """A version in a copy of a site's folders, which nobody changes while one program reads it."""

    def state(self) -> tuple[object, ...]:
        return (self.folder,)


class Signers:
    """The versions of a folder."""

    def __init__(self, folder: str) -> None:
        self.folder = folder

    def version(self, at: str) -> Version:
        return Version(at, os.path.join(self.folder, at))

    def now(self) -> Version:
        """The version that holds now."""
        moments = self.moments()
        if not moments:
            raise BadSigners(f"{self.folder} has no version of the signers")
        return self.version(moments[-1])

    def moments(self) -> list[str]:
        """The moment of each version, rising."""
        try:
            return sorted(it for it in os.listdir(self.folder) if MOMENT.fullmatch(it))
        except OSError as fault:
            raise BadSigners(f"{self.folder} cannot be read: {fault.strerror}") from None

    def before(self, version: Version) -> Version | None:
        """The version before one; None before the first."""
        earlier = [it for it in self.moments() if it < version.at]
        return self.version(earlier[-1]) if earlier else None

    def held_at(self, at: str) -> Version:
        """The version that held at a moment."""
        earlier = [it for it in self.moments() if it <= at]
        if not earlier:
            raise BadSigners(f"{self.folder} has no version of {at} or before")
        return self.version(earlier[-1])

    def versions(self) -> Iterator[Version]:
        return (self.version(at) for at in self.moments())


def ended(signers: list[Signer], gone: list[Signer], last: str) -> list[Signer]:
    """The same signers, where those that are gone count until a moment at most."""
    return [replace(it, last=min(last, it.last or last)) if it in gone else it for it in signers]
