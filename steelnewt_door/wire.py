"""What a signature of ssh-keygen's is made of (OpenSSH, PROTOCOL.sshsig and PROTOCOL.u2f), and
whether a plain public key made it, by python3-cryptography."""

import hashlib
import struct
from collections.abc import Iterator
from dataclasses import dataclass
from functools import lru_cache

from cryptography.exceptions import InvalidSignature, UnsupportedAlgorithm
from cryptography.hazmat.primitives import hashes
from cryptography.hazmat.primitives.asymmetric import ec, padding, rsa
from cryptography.hazmat.primitives.asymmetric.ed25519 import Ed25519PublicKey
from cryptography.hazmat.primitives.asymmetric.utils import encode_dss_signature

MAGIC = b"SSHSIG"
LENGTH = struct.Struct(">I")
IS_TOUCHED = 0x01
CURVES: dict[bytes, tuple[ec.EllipticCurve, hashes.HashAlgorithm]] = {
    b"nistp256": (ec.SECP256R1(), hashes.SHA256()),
    b"nistp384": (ec.SECP384R1(), hashes.SHA384()),
    b"nistp521": (ec.SECP521R1(), hashes.SHA512()),
}
RSA: dict[bytes, hashes.HashAlgorithm] = {
    b"rsa-sha2-256": hashes.SHA256(),
    b"rsa-sha2-512": hashes.SHA512(),
}
LEAST_RSA = 2_048  # bits


class BadSignature(Exception):
    """No key that counts made it; the text says why, as far as it is known."""


def strings(raw: bytes) -> Iterator[bytes]:
    """The strings of ssh's wire format, one behind the other."""
    at = 0
    while at < len(raw):
        found = first_of(raw, at)
        yield found
        at += 4 + len(found)


def first_of(raw: bytes, at: int) -> bytes:
    """The string that begins there."""
    (size,) = LENGTH.unpack_from(raw, at)
    if size > len(raw) - at - 4:
        raise struct.error("cut short")
    return raw[at + 4 : at + 4 + size]


def wire(text: bytes) -> bytes:
    return LENGTH.pack(len(text)) + text


@dataclass(frozen=True)
class Parts:
    """A signature's parts: the public key, what it was made for, and how."""

    key: bytes
    namespace: bytes
    reserved: bytes
    hashed: bytes
    signature: bytes

    @property
    def kind(self) -> bytes:
        return first_of(self.key, 0)

    @property
    def is_plain(self) -> bool:
        """Whether the key is no certificate."""
        return b"-cert-v01@" not in self.kind

    @property
    def is_of_security_key(self) -> bool:
        return self.kind.startswith(b"sk-")

    @property
    def tail(self) -> tuple[bytes, bytes, bytes]:
        """The algorithm, the signature itself, and what a security key says behind it."""
        algorithm = first_of(self.signature, 0)
        itself = first_of(self.signature, 4 + len(algorithm))
        return algorithm, itself, self.signature[8 + len(algorithm) + len(itself) :]


@lru_cache(maxsize=1_024)
def fields_of(key: bytes) -> tuple[bytes, ...]:
    """The fields of a public key that is no certificate."""
    return tuple(strings(key))


def parts_of(raw: bytes) -> Parts:
    """A signature's parts. A security key's has to say that somebody touched it (ssh-keygen does
    not ask for that)."""
    try:
        if raw[:6] != MAGIC or raw[6:10] != b"\0\0\0\1":
            raise ValueError("no signature of ssh-keygen's")
        found = Parts(*strings(raw[10:]))
        _, _, behind = found.tail
        is_touched = not found.is_of_security_key or bool(behind[0] & IS_TOUCHED)
    except (struct.error, TypeError, ValueError, StopIteration, IndexError):
        raise BadSignature("it has not the form of a signature of ssh-keygen's") from None
    if not is_touched:
        raise BadSignature("its key asks for a touch, and nobody touched it")
    return found


def check(parts: Parts, namespace: str, what: bytes) -> None:
    """Raises where a plain key did not make the signature for these bytes and this purpose."""
    if parts.namespace != namespace.encode("ascii"):
        raise BadSignature("it was made for another purpose")
    if parts.hashed not in (b"sha256", b"sha512") or parts.reserved:
        raise BadSignature("it has not the form of a signature of ssh-keygen's")
    hashed = hashlib.new(parts.hashed.decode("ascii"), what).digest()
    told = MAGIC + wire(parts.namespace) + wire(b"") + wire(parts.hashed) + wire(hashed)
    try:
        check_by_kind(parts, told)
    except (InvalidSignature, UnsupportedAlgorithm, ValueError, struct.error, StopIteration):
        raise BadSignature("its key did not make it over these bytes") from None


def check_by_kind(parts: Parts, told: bytes) -> None:
    kind, *fields = fields_of(parts.key)
    algorithm, itself, behind = parts.tail
    if kind == b"ssh-rsa":
        check_rsa(fields, algorithm, itself, told)
        return
    if algorithm != kind or len(behind) != (5 if kind.startswith(b"sk-") else 0):
        raise InvalidSignature
    if behind:
        application = fields.pop()
        told = hashlib.sha256(application).digest() + behind + hashlib.sha256(told).digest()
    if kind in (b"ssh-ed25519", b"sk-ssh-ed25519@openssh.com"):
        edwards(*fields).verify(itself, told)
    elif kind in (*(b"ecdsa-sha2-" + it for it in CURVES), b"sk-ecdsa-sha2-nistp256@openssh.com"):
        curve, hashed = CURVES[fields[0]]
        first, second = (int.from_bytes(it, "big") for it in strings(itself))
        point = ec.EllipticCurvePublicKey.from_encoded_point(curve, fields[1])
        point.verify(encode_dss_signature(first, second), told, ec.ECDSA(hashed))
    else:
        raise InvalidSignature


@lru_cache(maxsize=4_096)
def edwards(raw: bytes) -> Ed25519PublicKey:
    return Ed25519PublicKey.from_public_bytes(raw)


def check_rsa(fields: list[bytes], algorithm: bytes, itself: bytes, told: bytes) -> None:
    exponent, modulus = (int.from_bytes(it, "big") for it in fields)
    if algorithm not in RSA or modulus.bit_length() < LEAST_RSA:
        raise InvalidSignature
    key = rsa.RSAPublicNumbers(exponent, modulus).public_key()
    key.verify(itself, told, padding.PKCS1v15(), RSA[algorithm])
