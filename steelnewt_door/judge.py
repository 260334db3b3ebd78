"""Whose key made a signature. `ssh-keygen -Y verify` judges the first one of each key under a
version of the signers, and each one by a certificate; python3-cryptography the others, which takes
a fiftieth of the time. `desk-verify` looks at a sample by ssh-keygen again. (Of passkeys each is
judged by assertions.py.)"""

import base64
import hashlib
import os
import subprocess
from dataclasses import dataclass, field
from functools import lru_cache

from steelnewt_client.signed import BadLine, Signed
from steelnewt_door.assertions import Assertion
from steelnewt_door.signers import ALLOWED, KRL, REVOKED, Signer, Version
from steelnewt_door.wire import BadSignature, Parts, check, parts_of

SECONDS = 10.0  # that ssh-keygen may take
ENVIRONMENT = {"PATH": "/usr/bin:/bin", "LC_ALL": "C", "TZ": "UTC"}
MOST_KNOWN = 10_000


class JudgeAway(Exception):
    """Nothing is known of the signature now."""


@dataclass(frozen=True)
class Judge:
    """Judges the signatures of a site. `known` are the keys that ssh-keygen took before, each under
    the files of that moment."""

    site: str
    known: dict[tuple[object, str, bytes], Signer] = field(default_factory=dict)

    def key_of(self, version: Version, who: str, signed: Signed, at: str) -> str:
        """The key with which somebody signed a message, by a version, at a moment: its
        fingerprint."""
        try:
            made = signed.signed_bytes(self.site)
        except BadLine as fault:
            raise BadSignature(str(fault).partition(": ")[2]) from None
        if signed.is_by_passkey:
            return self.passkey_of(version, who, made, at)
        return self.signer_of(version, who, made, at)

    def passkey_of(
        self, version: Version, who: str, made: tuple[str, bytes, bytes], at: str
    ) -> str:
        """The passkey of somebody's that was touched for these bytes and this purpose."""
        namespace, what, raw = made
        touched = Assertion.of(raw.decode("ascii"))
        state = (version.state(), who, touched.id)
        signer = self.known.get(state) or passkey_in(version, who, touched.id)
        if not signer.counts_at(at):
            raise BadSignature("its passkey does not count at that moment")
        touched.check(signer.passkey(), namespace, what)
        self.know(state, signer)
        return print_of_blob(signer.blob)

    def know(self, state: tuple[object, str, bytes], signer: Signer) -> None:
        if len(self.known) >= MOST_KNOWN:
            self.known.clear()
        self.known[state] = signer

    def signer_of(
        self, version: Version, who: str, made: tuple[str, bytes, bytes], at: str
    ) -> str:
        """The key by which somebody made a signature over bytes, for a purpose."""
        namespace, what, raw = made
        parts = parts_of(raw)
        state = (version.state(), who, parts.key)
        if known := self.known.get(state):
            if not known.counts_at(at):
                raise BadSignature("its key does not count at that moment")
            check(parts, namespace, what)
            return print_of_blob(parts.key)
        said = by_ssh_keygen(version, who, made, at)
        if parts.is_plain and (signer := signer_in(version, who, parts)):
            self.know(state, signer)
        return said


def signer_in(version: Version, who: str, parts: Parts) -> Signer | None:
    """The one line with a person's key."""
    public = base64.b64encode(parts.key).decode("ascii")
    found = [it for it in version.signers() if (it.name, it.key) == (who, public)]
    return found[0] if len(found) == 1 else None


def passkey_in(version: Version, who: str, id: bytes) -> Signer:
    """The one line with a person's passkey, which was not lost."""
    lost = version.revoked()
    found = [it for it in version.passkeys() if it.name == who and it.passkey().id == id]
    if len(found) != 1:
        raise BadSignature(f"{who} has no such passkey")
    if found[0].public in lost:
        raise BadSignature("its passkey was lost")
    return found[0]


@lru_cache(maxsize=1_024)
def print_of_blob(blob: bytes) -> str:
    """A key's fingerprint, as ssh-keygen prints it."""
    text = base64.b64encode(hashlib.sha256(blob).digest()).decode("ascii")
    return f"SHA256:{text.rstrip('=')}"


def by_ssh_keygen(version: Version, who: str, made: tuple[str, bytes, bytes], at: str) -> str:
    """The fingerprint that ssh-keygen names; raised where it takes the signature for none."""
    lists = [REVOKED, *([KRL] if version.has(KRL) else [])]
    said = ""
    for revoked in lists:
        ran = verify(version, who, made, at, version.path(revoked))
        if ran.returncode != 0:
            raise BadSignature((ran.stderr or ran.stdout).strip().replace("\n", "; ")[-300:])
        said = ran.stdout.split()[-1]
    return said


def verify(
    version: Version, who: str, made: tuple[str, bytes, bytes], at: str, revoked: str
) -> subprocess.CompletedProcess[str]:
    """What ssh-keygen says of a signature."""
    namespace, what, raw = made
    file = os.memfd_create("signature")
    try:
        os.write(file, armored(raw))
        words = ["ssh-keygen", "-Y", "verify", "-f", version.path(ALLOWED), "-I", who]
        words += ["-n", namespace, "-s", f"/proc/self/fd/{file}", "-r", revoked]
        words += ["-O", f"verify-time={at}"]
        ran = subprocess.run(
            words, input=what, capture_output=True, env=ENVIRONMENT, pass_fds=[file],
            timeout=SECONDS, check=False,
        )  # fmt: skip
    except (OSError, subprocess.TimeoutExpired) as fault:
        raise JudgeAway(f"ssh-keygen does not answer: {fault}") from None
    finally:
        os.close(file)
    said = [it.decode("utf-8", "replace") for it in (ran.stdout, ran.stderr)]
    return subprocess.CompletedProcess(words, ran.returncode, *said)


def armored(raw: bytes) -> bytes:
    text = base64.b64encode(raw).decode("ascii")
    lines = [text[at : at + 70] for at in range(0, len(text), 70)]
    framed = ["-----BEGIN SSH SIGNATURE-----", *lines, "-----END SSH SIGNATURE-----", ""]
    return "\n".join(framed).encode("ascii")


def bare(armored_text: str) -> str:
    """A signature's base64, of what ssh-keygen writes."""
    lines = [it for it in armored_text.splitlines() if it and not it.startswith("-----")]
    return "".join(lines)
