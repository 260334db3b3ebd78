"""How sshd starts a relay's program for a person, without sshd: by a line of authorized_keys."""

import re
import struct
from base64 import b64encode
from hashlib import sha256
from pathlib import Path

from steelnewt_client.names import PERSON


def key_of(person: str) -> bytes:
    """A public key that nobody has the other half of (RFC 8709)."""
    parts = (b"ssh-ed25519", sha256(person.encode("utf-8", "backslashreplace")).digest())
    return b"".join(struct.pack(">I", len(it)) + it for it in parts)


def call_words(relay: str, config: Path, keys: Path, person: str) -> list[str]:
    """The words of a call, whose line stands in the file of keys."""
    key = key_of(person)
    digest = f"SHA256:{b64encode(sha256(key).digest()).decode().rstrip('=')}"
    command = f"{relay} --config {config} --person {person} --key {digest}"
    line = f'restrict,pty,command="{command}" ssh-ed25519 {b64encode(key).decode()} {person}\n'
    if re.fullmatch(PERSON, person) and not (keys.exists() and line in keys.read_text()):
        with open(keys, "a", encoding="ascii") as file:
            file.write(line)
    return [relay, "--config", str(config), "--person", person, "--key", digest]
