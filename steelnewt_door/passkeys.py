"""Passkeys, and security keys in a browser: their public keys (COSE, RFC 9052), which python3-fido2
reads, and with which it verifies."""

import struct
from collections.abc import Mapping
from dataclasses import dataclass
from functools import lru_cache

from fido2 import cbor
from fido2.cose import CoseKey

from steelnewt_door.assertions import DATA
from steelnewt_door.wire import BadSignature

HAS_KEY = 0x40
AAGUID, SIZE = 16, struct.Struct(">H")
LEAST_RSA = 256  # bytes of a modulus
MOST_KEY = 2_048  # bytes


@dataclass(frozen=True)
class Passkey:
    """A credential: its own name, and its public key. `origin` is the page that may ask for it."""

    id: bytes
    key: CoseKey
    origin: str = ""
    is_verified: bool = False

    def blob(self) -> bytes:
        """The credential's bytes, which the file of signers has in base64."""
        public: bytes = cbor.encode(dict(self.key))
        return SIZE.pack(len(self.id)) + self.id + public

    @property
    def site(self) -> str:
        """The name that authenticators know a page's site by (the RP ID)."""
        return host_of(self.origin)


def host_of(origin: str) -> str:
    return origin.partition("://")[2].partition(":")[0]


def is_plain(key: Mapping[int, object]) -> bool:
    """Whether a key is of a kind that is taken, in the one way to write it: so no two texts are the
    same key."""
    sizes = {name: len(it) for name, it in key.items() if isinstance(it, bytes)}
    plain = {name: it for name, it in key.items() if name not in sizes}
    if plain == {1: 2, 3: -7, -1: 1}:  # ES256, on the curve P-256
        return sizes == {-2: 32, -3: 32}
    if plain == {1: 1, 3: -8, -1: 6}:  # EdDSA, on Ed25519
        return sizes == {-2: 32}
    if plain != {1: 3, 3: -257} or sizes.keys() != {-1, -2}:  # RS256
        return False
    modulus = key[-1]
    is_long = isinstance(modulus, bytes) and len(modulus) >= LEAST_RSA and modulus[0] != 0
    return is_long and key[-2] == b"\x01\x00\x01"


@lru_cache(maxsize=4_096)
def passkey_of(blob: bytes, origin: str = "", is_verified: bool = False) -> Passkey:
    """A credential by its bytes, which have to be its one text."""
    try:
        (size,) = SIZE.unpack_from(blob)
        found, rest = cbor.decode_from(blob[SIZE.size + size :])
        if rest or len(blob) > MOST_KEY or not isinstance(found, dict) or not is_plain(found):
            raise ValueError("it is of no kind that is taken")
        made = Passkey(blob[SIZE.size :][:size], CoseKey.parse(found), origin, is_verified)
    except Exception as fault:  # (whatever a stranger's bytes make of it: it is no key)
        raise BadSignature(f"this is no passkey: {fault}"[:200]) from None
    if made.blob() != blob or not size:
        raise BadSignature("this is no passkey in its one form")
    return made


def made_passkey(attested: bytes) -> Passkey:
    """The credential in what an authenticator answers that made it (an attestation object, section
    6.5). Which model it says that it is, nobody believes: that needs a maker's word."""
    try:
        data = cbor.decode_from(attested)[0]["authData"]
        _, flags, _ = DATA.unpack_from(data)
        told = data[DATA.size + AAGUID :]
        (size,) = SIZE.unpack_from(told)
        key = cbor.decode_from(told[SIZE.size + size :])[0] if flags & HAS_KEY else {}
        blob = told[: SIZE.size + size] + cbor.encode(key)
    except Exception as fault:  # (as above)
        raise BadSignature(f"this is no new passkey: {type(fault).__name__}") from None
    return passkey_of(blob)
