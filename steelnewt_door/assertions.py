"""What an authenticator answers that was touched (an assertion), and each check of it (W3C Web
Authentication, Level 2, section 7.2)."""

import base64
import binascii
import hashlib
import json
import struct
from dataclasses import dataclass
from typing import TYPE_CHECKING

from steelnewt_client.signed import ENROLS, LIST, NAMESPACE, challenge
from steelnewt_door.wire import BadSignature

if TYPE_CHECKING:
    from steelnewt_door.passkeys import Passkey

# The authenticator's data: the digest of the site, the flags, the counter; then what more it has.
DATA = struct.Struct(">32sBI")
IS_TOUCHED, IS_VERIFIED = 0x01, 0x04
PURPOSES = (NAMESPACE, LIST, ENROLS)


def decoded(text: str) -> bytes:
    """The bytes of a text in base64url, which has to be their one text."""
    try:
        found = base64.urlsafe_b64decode(text + "=" * (-len(text) % 4))
    except (binascii.Error, ValueError):
        found = b""
    if base64.urlsafe_b64encode(found).decode("ascii").rstrip("=") != text:
        raise BadSignature("it has not the form of a passkey's signature")
    return found


@dataclass(frozen=True)
class Assertion:
    """What an authenticator answers that was touched: which credential it is, its own data, what
    the browser says of who asked, and the signature over both."""

    id: bytes
    data: bytes
    client: bytes
    signature: bytes

    @staticmethod
    def of(text: str) -> "Assertion":
        found = [decoded(it) for it in text.split(".")]
        if len(found) != 4 or len(found[1]) < DATA.size:
            raise BadSignature("it has not the form of a passkey's signature")
        return Assertion(*found)

    @property
    def fields(self) -> tuple[bytes, int, int]:
        """The digest of the site, the flags, and the counter."""
        site, flags, counter = DATA.unpack_from(self.data)
        return bytes(site), int(flags), int(counter)

    @property
    def mark(self) -> str:
        """By what a touch is known again, however its signature is written."""
        return hashlib.sha256(self.data + hashlib.sha256(self.client).digest()).hexdigest()

    @property
    def told(self) -> dict[str, object]:
        """What the browser says of who asked."""
        try:
            found = json.loads(self.client)
        except (ValueError, RecursionError):
            found = None
        if not isinstance(found, dict):
            raise BadSignature("what the browser says of it is not to be read")
        return found

    def check(self, passkey: "Passkey", namespace: str, what: bytes) -> None:
        """Raises where it was not touched at its page for these bytes and this purpose."""
        said, (site, flags, _) = self.told, self.fields
        wanted = base64.urlsafe_b64encode(challenge(namespace, what)).decode("ascii").rstrip("=")
        if said.get("type") != "webauthn.get" or namespace not in PURPOSES:
            raise BadSignature("it was made for another purpose")
        if said.get("challenge") != wanted:
            raise BadSignature("its passkey was touched for something else")
        if said.get("origin") != passkey.origin:
            raise BadSignature(f"another page asked for it: {str(said.get('origin'))[:100]}")
        if said.get("crossOrigin", False) is not False or "topOrigin" in said:
            raise BadSignature("it was asked for in a frame of another page")
        if site != hashlib.sha256(passkey.site.encode("ascii")).digest():
            raise BadSignature("it was made for another site")
        if not flags & IS_TOUCHED:
            raise BadSignature("nobody touched the passkey")
        if passkey.is_verified and not flags & IS_VERIFIED:
            raise BadSignature("its passkey has to know its owner, by a PIN or a finger")
        try:
            passkey.key.verify(self.data + hashlib.sha256(self.client).digest(), self.signature)
        except Exception:  # (whatever a stranger's bytes make of it: it is no signature)
            raise BadSignature("its passkey did not make it over these bytes") from None


def assertion_in(signature: str) -> Assertion:
    """The assertion of a message's signature."""
    return Assertion.of(signature.split(":")[1])
