"""Enrols a key in person: its owner signs a word that was made for them here, so nobody brings a
key of somebody else's."""

import base64
import os
import secrets
import time
from contextlib import suppress
from dataclasses import dataclass

from steelnewt_client.signed import ENROLS, PASSKEY, enrolling
from steelnewt_door.assertions import Assertion
from steelnewt_door.changing import KEY, emptied, plainly, written
from steelnewt_door.signers import BadSigners, Signer
from steelnewt_door.wire import BadSignature, check, parts_of

FOLDER, LASTS = "enrolling", 900  # seconds that somebody may take, who is here


def nonce_for(signers: str, name: str) -> str:
    """A word that a person signs, who is here now."""
    nonce = secrets.token_hex(8)
    room = os.path.join(signers, FOLDER, name)
    try:
        emptied(room)
        os.makedirs(room, 0o700)
        written(os.path.join(room, nonce), b"")
    except OSError as fault:
        raise BadSigners(f"{room} cannot be written: {fault.strerror}") from None
    return nonce


def nonces(signers: str, name: str) -> list[str]:
    """The words that were made for a person and are not old."""
    room = os.path.join(signers, FOLDER, name)
    with suppress(FileNotFoundError):
        found = [(os.stat(os.path.join(room, it)).st_mtime, it) for it in os.listdir(room)]
        return [it for made, it in found if time.time() - made <= LASTS]
    return []


def enrolled_in(given: bytes, name: str, changing: "Enrolling") -> Signer:
    """The signer of a line that mydesk wrote, KIND KEY ssh:SIGNATURE, or the door's page, which is
    webauthn KEY webauthn:ASSERTION."""
    text = given.decode("utf-8", "replace").strip()
    is_passkey = text.startswith(f"{PASSKEY} ")
    key, _, proof = text.rpartition(f" {PASSKEY if is_passkey else 'ssh'}:")
    waiting = nonces(changing.signers, name)
    if not waiting:
        raise BadSigners(f"nobody is enrolling as {name}: desk-signer enrol {name}")
    words = enrolling(changing.site, name, waiting[0])
    try:
        if is_passkey:
            return changing.passkey(name, key, proof, words)
        return changing.ssh_key(name, key, proof, words)
    except (BadSignature, ValueError) as fault:
        raise BadSigners(f"{name} did not sign the word with this key: {fault}") from None


@dataclass(frozen=True)
class Enrolling:
    """Where somebody enrols: the folder of signers, the site, from when on the key counts, and the
    page of passkeys."""

    signers: str
    site: str
    at: str
    origin: str = ""
    is_verified: bool = False

    def ssh_key(self, name: str, key: str, proof: str, words: bytes) -> Signer:
        found = KEY.fullmatch(key)
        if not found:
            raise BadSigners(f"this is no line of `mydesk enrol`: {ascii(key)[:80]}")
        kind, public = plainly(f"{found[1]} {found[2]}").split(" ")
        parts = parts_of(base64.b64decode(proof, validate=True))
        if parts.key != base64.b64decode(public):
            raise BadSignature("another key made it")
        check(parts, ENROLS, words)
        return Signer(name, kind, public, self.at)

    def passkey(self, name: str, key: str, proof: str, words: bytes) -> Signer:
        if not self.origin:
            raise BadSigners("this door knows no page: say its origin in door.toml")
        public = key.removeprefix(f"{PASSKEY} ")
        where = self.origin, self.is_verified
        signer = Signer(name, PASSKEY, public, self.at, "", False, *where)
        made = signer.passkey()
        touched = Assertion.of(proof)
        if touched.id != made.id:
            raise BadSignature("another passkey made it")
        touched.check(made, ENROLS, words)
        return signer


def done(signers: str, name: str) -> None:
    emptied(os.path.join(signers, FOLDER, name))
