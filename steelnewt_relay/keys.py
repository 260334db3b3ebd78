"""The lines by which sshd lets people call: whose key it is, or whose certificate (sshd(8),
AUTHORIZED_KEYS FILE FORMAT, and AuthorizedPrincipalsFile of sshd_config(5))."""

import re
import subprocess
import tempfile
from collections.abc import Iterable, Iterator
from dataclasses import dataclass

from steelnewt_client.names import PERSON

KEYS = "/var/lib/desk-relay/.ssh/authorized_keys"
# A public key's kinds that sshd takes: no certificate, which says who it is by itself, and no DSA.
KINDS = (
    r"ssh-ed25519|ssh-rsa|ecdsa-sha2-nistp(?:256|384|521)"
    r"|sk-ssh-ed25519@openssh\.com|sk-ecdsa-sha2-nistp256@openssh\.com"
)
BLOB = r"[A-Za-z0-9+/]+={0,2}"
KEY = re.compile(rf"({KINDS}) +({BLOB})(?: [ -~]*)?")
DIGEST = r"SHA256:[A-Za-z0-9+/]{43}"
PATH = r"[A-Za-z0-9._/+-]+"
CALL = rf'restrict,pty,command="(?:{PATH}/)?desk-relay(?: --config {PATH})? --person ({PERSON})'
# A key's line. (Those of an older version name no digest; they let nobody call until they do.)
LINE = re.compile(rf'{CALL}(?: --key ({DIGEST}))?" ({KINDS}) +({BLOB})(?: [ -~]*)?')
# A line for those whose certificate names a principal.
PRINCIPAL = re.compile(rf'{CALL} --certificate" (\S+)')
# Where a certificate ends, who signed it, and whom it names, as `ssh-keygen -L` prints it with TZ=UTC.
ENDS = re.compile(r"^ *Valid: .*\b(?:to|before) (\S+)$", re.MULTILINE)
SIGNED = re.compile(rf"^ *Signing CA: \S+ ({DIGEST}) ", re.MULTILINE)
PRINCIPALS = re.compile(r"^ *Principals: *\n((?: {16}\S+\n)*)", re.MULTILINE)
SERIAL = re.compile(r"^ *Serial: (\d+)$", re.MULTILINE)
PUBLIC = re.compile(r"^ *Public key: \S+ (\S+)$", re.MULTILINE)
KRL = b"SSHKRL\n\0"


class BadKey(ValueError):
    """A key, a certificate or a list of them cannot be read."""


@dataclass(frozen=True)
class Holder:
    """A person's key, and the line that lets it in; the digest that its command names, or none."""

    name: str
    said: str
    kind: str
    key: str
    line: str

    @property
    def bare(self) -> str:
        return f"{self.kind} {self.key}"


def holder_of(line: str) -> Holder | None:
    """Whose key a line lets in; nobody's where it is of another form."""
    found = LINE.fullmatch(line)
    return Holder(found[1], found[2] or "", found[3], found[4], line) if found else None


def lines_of(text: str) -> list[str]:
    """(sshd's lines end at nothing else)"""
    return text.removesuffix("\n").split("\n")


def is_spoken(line: str) -> bool:
    """Whether sshd reads a line: it is neither empty nor a comment."""
    return bool(line.strip()) and not line.startswith("#")


def keygen(*words: str, given: str = "") -> subprocess.CompletedProcess[str]:
    """Runs ssh-keygen, which prints a certificate's times in the zone of its environment."""
    environment = {"PATH": "/usr/bin:/bin", "LC_ALL": "C", "TZ": "UTC"}
    return subprocess.run(
        ["ssh-keygen", *words],
        input=given,
        capture_output=True,
        text=True,
        env=environment,
        check=False,
    )


def fingerprints(keys: Iterable[str]) -> list[str]:
    """What ssh-keygen says of each public key: its digest, its kind and its size. A key has one
    digest, however it is written, and by that sshd knows it."""
    given = [f"{it}\n" for it in keys]
    if not given:
        return []
    ran = keygen("-lf", "-", given="".join(given))
    said = ran.stdout.splitlines()
    if ran.returncode != 0 or len(said) != len(given):
        raise BadKey(f"ssh-keygen takes it for no public key: {ran.stderr.strip()}")
    parts = [line.split(" ") for line in said]
    return [f"{it[1]} {it[-1]} {it[0]}" for it in parts]


def digest_of(fingerprint: str) -> str:
    return fingerprint.partition(" ")[0]


def holders_in(text: str) -> Iterator[tuple[int, str, Holder | None]]:
    """Each line that lets somebody in: its number, itself, and whose it is."""
    for number, line in enumerate(lines_of(text), 1):
        if is_spoken(line):
            yield number, line, holder_of(line)


def principals_in(text: str, person: str) -> set[str]:
    """The principals whose certificates let a person in."""
    found = [PRINCIPAL.fullmatch(it) for it in lines_of(text) if is_spoken(it)]
    return {it[2] for it in found if it and it[1] == person}


@dataclass(frozen=True)
class Certificate:
    """Whom a certificate names, the digest of its authority, its last moment as ssh-keygen prints
    it (empty where it has none), its serial, and the digest of its key."""

    text: str
    principals: frozenset[str]
    authority: str
    ends: str
    serial: str = ""
    digest: str = ""

    @staticmethod
    def read(text: str) -> "Certificate":
        ran = keygen("-L", "-f", "-", given=f"{text}\n")
        named, signed = PRINCIPALS.search(ran.stdout), SIGNED.search(ran.stdout)
        if ran.returncode != 0 or not named or not signed:
            raise BadKey(f"ssh-keygen takes it for no certificate: {ran.stderr.strip()}")
        ends = ENDS.search(ran.stdout)
        names = frozenset(named[1].split())
        serial, digest = (it.search(ran.stdout) for it in (SERIAL, PUBLIC))
        found = (ends, serial, digest)
        return Certificate(text, names, signed[1], *(it[1] if it else "" for it in found))


def is_revoked(path: str, key: str, authority: str = "") -> bool:
    """Whether sshd's RevokedKeys has a key, or a certificate or the digest of its authority."""
    with open(path, "rb") as file:
        listed = file.read()
    if listed.startswith(KRL):
        return is_in_made(path, key)
    try:
        spoken = [it for it in lines_of(listed.decode("utf-8")) if is_spoken(it)]
        found = {digest_of(it) for it in fingerprints(spoken)}
    except ValueError as fault:
        raise BadKey(f"{path} is no list of revoked keys: {fault}") from None
    return bool(found) and bool(found & {digest_of(it) for it in (*fingerprints([key]), authority)})


def is_in_made(path: str, key: str) -> bool:
    """The same of a list that `ssh-keygen -k` made, which may also name serials and key IDs."""
    with tempfile.NamedTemporaryFile("w") as file:
        file.write(f"{key}\n")
        file.flush()
        ran = keygen("-Q", "-f", path, file.name)
    if ran.returncode not in (0, 1) or ran.stderr:
        raise BadKey(f"{path} is no list of revoked keys: {ran.stderr.strip()}")
    return ran.returncode == 1
