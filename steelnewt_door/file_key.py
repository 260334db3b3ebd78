"""The door's own key, with which it signs what it answers to hosts: it lies in a folder that only
the door's account may enter, and each host has its public part in its settings.

`desk-door file-key` makes it. To take another one, `--next` makes that beside it, all hosts get both
public parts, and `--turn` puts it in the first one's place.
"""

import base64
import hashlib
import os

from cryptography.hazmat.primitives.asymmetric.ed25519 import Ed25519PrivateKey
from cryptography.hazmat.primitives.serialization import (
    Encoding,
    NoEncryption,
    PrivateFormat,
    PublicFormat,
)
from cryptography.hazmat.primitives.serialization.ssh import load_ssh_private_key

from steelnewt_client.signed import FILES, answer_payload
from steelnewt_door.wire import MAGIC, wire

KIND, HASHED = b"ssh-ed25519", b"sha512"


class BadKey(ValueError):
    """The key cannot be used; the text says why."""


def public_of(key: Ed25519PrivateKey) -> bytes:
    """The public part, in ssh's wire format."""
    raw = key.public_key().public_bytes(Encoding.Raw, PublicFormat.Raw)
    return wire(KIND) + wire(raw)


def text_of(key: Ed25519PrivateKey) -> str:
    return base64.b64encode(public_of(key)).decode("ascii")


def signature_of(key: Ed25519PrivateKey, what: bytes) -> str:
    """The signature over bytes, as `ssh-keygen -Y sign` makes it, in one line."""
    purpose = wire(FILES.encode("ascii")) + wire(b"") + wire(HASHED)
    itself = key.sign(MAGIC + purpose + wire(hashlib.sha512(what).digest()))
    raw = MAGIC + b"\0\0\0\1" + wire(public_of(key)) + purpose
    made = base64.b64encode(raw + wire(wire(KIND) + wire(itself)))
    return f"ssh:{made.decode('ascii')}"


def read_key(path: str) -> Ed25519PrivateKey:
    """The key of a file that nobody else may read."""
    try:
        with open(path, "rb") as file:
            found, text = os.fstat(file.fileno()), file.read(65_536)
    except FileNotFoundError:
        raise BadKey(f"there is no key {path}: make it by `desk-door file-key`") from None
    except OSError as fault:
        raise BadKey(f"{path} cannot be read: {fault.strerror}") from None
    if found.st_mode & 0o077 or found.st_uid not in (0, os.geteuid()):
        raise BadKey(f"{path} has to be the door's own, with mode 0600")
    try:
        key = load_ssh_private_key(text, None)
    except ValueError as fault:
        raise BadKey(f"{path} is no key of ssh's without a passphrase: {fault}") from None
    if not isinstance(key, Ed25519PrivateKey):
        raise BadKey(f"{path} is no key of the kind ed25519")
    return key


def make_key(path: str) -> None:
    """Makes a key, on the disk when this ends; one that is there stays."""
    folder = os.path.dirname(path)
    if os.path.lexists(path):
        return
    if os.stat(folder).st_uid != os.geteuid():
        raise BadKey(f"{folder} is another account's: run this as the door's (runuser)")
    made = Ed25519PrivateKey.generate()
    text = made.private_bytes(Encoding.PEM, PrivateFormat.OpenSSH, NoEncryption())
    new = f"{path}.new"
    file = os.open(new, os.O_WRONLY | os.O_CREAT | os.O_TRUNC | os.O_NOFOLLOW, 0o600)
    try:
        os.write(file, text)
        os.fsync(file)
    finally:
        os.close(file)
    os.replace(new, path)
    sync(folder)


def sync(folder: str) -> None:
    """Has the names of a folder on the disk."""
    file = os.open(folder, os.O_RDONLY | os.O_DIRECTORY)
    try:
        os.fsync(file)
    finally:
        os.close(file)


def next_of(path: str) -> str:
    return f"{path}.next"


def turn(path: str) -> None:
    """Puts the next key in the place of the one that signs."""
    read_key(next_of(path))
    os.replace(next_of(path), path)
    sync(os.path.dirname(path))


def told(path: str, site: str) -> str:
    """What a host's settings have of these keys: those that are there."""
    paths = [it for it in (path, next_of(path)) if os.path.lexists(it)]
    keys = " ".join(text_of(read_key(it)) for it in paths)
    return f"SIGNED=yes\nSITE={site}\nFILE_KEYS={keys}\n"


class FileKey:
    """The key that signs. One that somebody put in its place is taken with the next signature."""

    def __init__(self, path: str, site: str) -> None:
        self.path, self.site = path, site
        self.state: tuple[int, ...] = ()
        self.key = self.read()

    def marks(self) -> tuple[int, ...]:
        found = os.stat(self.path)
        return found.st_dev, found.st_ino, found.st_mtime_ns

    def read(self) -> Ed25519PrivateKey:
        key = read_key(self.path)
        self.state = self.marks()
        return key

    def sign(self, route: str, answer: bytes) -> str:
        """The signature over an answer to a question."""
        try:
            if self.marks() != self.state:
                self.key = self.read()
        except OSError as fault:
            raise BadKey(f"{self.path} cannot be read: {fault.strerror}") from None
        return signature_of(self.key, answer_payload(self.site, route, answer))
