"""What a security key does, in software (OpenSSH, PROTOCOL.u2f)."""

import base64
import hashlib
import struct
from collections.abc import Callable
from pathlib import Path

from cryptography.hazmat.primitives import hashes
from cryptography.hazmat.primitives.asymmetric import ec
from cryptography.hazmat.primitives.asymmetric.ed25519 import Ed25519PrivateKey
from cryptography.hazmat.primitives.asymmetric.utils import decode_dss_signature
from cryptography.hazmat.primitives.serialization import Encoding, PublicFormat

from door.tests.doors import SITE
from steelnewt_client.signed import NAMESPACE, Signed
from steelnewt_door.wire import wire


def mpint(number: int) -> bytes:
    return wire(number.to_bytes(number.bit_length() // 8 + 1, "big"))


def sshsig(key: bytes, what: bytes, sign: Callable[[bytes], bytes]) -> bytes:
    """A signature of ssh-keygen's form, where `sign` makes all behind the algorithm."""
    names = wire(NAMESPACE.encode()) + wire(b"") + wire(b"sha512")
    told = b"SSHSIG" + names + wire(hashlib.sha512(what).digest())
    kind = key[4 : 4 + int.from_bytes(key[:4], "big")]
    signature = wire(wire(kind) + sign(told))
    return b"SSHSIG" + struct.pack(">I", 1) + wire(key) + names + signature


class SecurityKey:
    """An sk-ssh-ed25519@openssh.com key, or with `curve` the other kind."""

    def __init__(self, curve: bool = False) -> None:
        self.curve, tail = curve, wire(b"ssh:")
        if curve:
            self.kind = b"sk-ecdsa-sha2-nistp256@openssh.com"
            self.point = ec.generate_private_key(ec.SECP256R1())
            form = (Encoding.X962, PublicFormat.UncompressedPoint)
            raw = self.point.public_key().public_bytes(*form)
            self.blob = wire(self.kind) + wire(b"nistp256") + wire(raw) + tail
        else:
            self.kind = b"sk-ssh-ed25519@openssh.com"
            self.key = Ed25519PrivateKey.generate()
            raw = self.key.public_key().public_bytes(Encoding.Raw, PublicFormat.Raw)
            self.blob = wire(self.kind) + wire(raw) + tail

    def public(self, path: Path) -> str:
        path.write_text(f"{self.kind.decode()} {base64.b64encode(self.blob).decode()}\n")
        return str(path)

    def sign(self, message: str, about: str = "", flags: int = 1) -> Signed:
        tail = bytes([flags]) + struct.pack(">I", 7)

        def made(what: bytes) -> bytes:
            told = hashlib.sha256(b"ssh:").digest() + tail + hashlib.sha256(what).digest()
            if not self.curve:
                return wire(self.key.sign(told)) + tail
            parts = decode_dss_signature(self.point.sign(told, ec.ECDSA(hashes.SHA256())))
            return wire(b"".join(mpint(it) for it in parts)) + tail

        said = Signed(message, "", about)
        raw = sshsig(self.blob, said.payload(SITE), made)
        return Signed(message, f"ssh:{base64.b64encode(raw).decode()}", about)
