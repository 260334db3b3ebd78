"""A browser and its authenticator in software (Web Authentication, ES256), for tests that no real
browser would do: each part of what it says may be another one."""

import base64
import hashlib
import json
import os
import struct
from dataclasses import replace
from pathlib import Path

from cryptography.hazmat.primitives import hashes
from cryptography.hazmat.primitives.asymmetric import ec
from fido2 import cbor
from fido2.cose import ES256

from door.tests.doors import SITE, Doored
from steelnewt_client.signed import ENROLS, LIST, NAMESPACE, Signed, challenge, digest
from steelnewt_client.signed import enrolling, list_payload, list_signature

RP, ORIGIN = "desk.example", "https://desk.example:8444"
TOUCHED, VERIFIED, ATTESTED = 0x01, 0x04, 0x40
# What a door's settings have for it.
PAGE = f"""
origin = "{ORIGIN}"
relay_pages = ["https://desk.example:8443"]
by_ssh = ["db-emergency"]
"""


def encoded(raw: bytes) -> str:
    return base64.urlsafe_b64encode(raw).decode("ascii").rstrip("=")


class Authenticator:
    """One passkey, and the browser that asks it. What it says differs by these words."""

    def __init__(self, origin: str = ORIGIN) -> None:
        self.key, self.id = ec.generate_private_key(ec.SECP256R1()), os.urandom(32)
        self.count, self.origin = 0, origin
        public = cbor.encode(dict(ES256.from_cryptography_key(self.key.public_key())))
        self.blob = struct.pack(">H", len(self.id)) + self.id + public

    @property
    def public(self) -> str:
        return f"webauthn {base64.b64encode(self.blob).decode('ascii')}"

    def attested(self) -> bytes:
        """What it answers when it makes the passkey."""
        data = self.data(RP, TOUCHED | VERIFIED | ATTESTED) + bytes(16) + self.blob
        found: bytes = cbor.encode({"fmt": "none", "attStmt": {}, "authData": data})
        return found

    def data(self, rp: str, flags: int, step: int = 1) -> bytes:
        self.count += step
        begun = hashlib.sha256(rp.encode("ascii")).digest() + bytes([flags])
        return begun + struct.pack(">I", self.count)

    def touched(
        self,
        wanted: bytes,
        rp: str = RP,
        origin: str = "",
        flags: int = TOUCHED | VERIFIED,
        kind: str = "webauthn.get",
        step: int = 1,
        **more: object,
    ) -> str:
        """The assertion for a challenge."""
        said: dict[str, object] = {"type": kind, "challenge": encoded(wanted)}
        client = json.dumps(said | {"origin": origin or self.origin} | more).encode("utf-8")
        data = self.data(rp, flags, step)
        told = data + hashlib.sha256(client).digest()
        signature = self.key.sign(told, ec.ECDSA(hashes.SHA256()))
        return ".".join(encoded(it) for it in (self.id, data, client, signature))

    def sign(
        self, message: str, request: str = "", why: str = "", site: str = SITE, **other: object
    ) -> Signed:
        """A message with its signature, of an approval about a request's bytes."""
        said = Signed(message, "", digest(request) if request else "", why)
        wanted = challenge(NAMESPACE, said.payload(site))
        made = self.touched(wanted, **other)  # type: ignore[arg-type]
        return replace(said, signature=f"webauthn:{made}")

    def sign_list(self, said: list[Signed]) -> list[Signed]:
        """The same messages with one touch for all of them."""
        listed = [it.said(SITE) for it in said]
        made = self.touched(challenge(LIST, list_payload(SITE, listed)))
        signature = list_signature(made, listed, "webauthn-list")
        return [replace(it, signature=signature) for it in said]

    def enrolment(self, name: str, word: str, site: str = SITE, **other: object) -> str:
        """The line that the door's page keeps of it."""
        wanted = challenge(ENROLS, enrolling(site, name, word))
        made = self.touched(wanted, **other)  # type: ignore[arg-type]
        return f"{self.public} webauthn:{made}"


def word_for(doored: Doored, name: str) -> str:
    """The word that root tells somebody who is here."""
    return doored.signer("enrol", name).splitlines()[0]


def add(
    doored: Doored,
    name: str,
    key: Authenticator,
    job: str = "add",
    status: int = 0,
    **other: object,
) -> str:
    """Somebody enrols a passkey in person: what desk-signer says."""
    path = Path(doored.folder / f"{name}.passkey")
    line = key.enrolment(name, word_for(doored, name), **other)  # type: ignore[arg-type]
    path.write_text(f"{line}\n")
    return doored.signer(job, name, str(path), status=status)
