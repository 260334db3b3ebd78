"""Who is calling by ssh, by the keys of this moment.

sshd looks at a key or a certificate when a connection begins. A connection may stay open for days,
and each new session over it (ControlMaster) starts without another look, as a question waits for
its answer. So a call looks by itself: before it answers, and again behind each yes.
"""

import os
import re
from dataclasses import dataclass

from steelnewt_client.moments import now
from steelnewt_relay.keys import (
    KEYS,
    BadKey,
    Certificate,
    Holder,
    holders_in,
    is_revoked,
    principals_in,
)

CERTIFICATE = re.compile(r"^publickey (\S+-cert-v01@openssh\.com [A-Za-z0-9+/=]+)$", re.MULTILINE)


class Gone(ValueError):
    """The key or certificate of a call lets nobody call, now."""


@dataclass(frozen=True)
class Files:
    """What sshd goes by: AuthorizedKeysFile, AuthorizedPrincipalsFile and RevokedKeys of
    sshd_config(5). The last two may be empty, where sshd has none."""

    keys: str = KEYS
    principals: str = ""
    revoked: str = ""

    def check_revoked(self, key: str, authority: str = "") -> None:
        if self.revoked and is_revoked(self.revoked, key, authority):
            raise Gone("your key or certificate is revoked")


def text_of(path: str) -> str:
    with open(path, encoding="utf-8", newline="\n") as file:
        return file.read()


@dataclass(frozen=True)
class Keyed:
    """A person with a key, whose digest the line of that key names."""

    person: str
    digest: str
    files: Files

    @property
    def key(self) -> str:
        """What names the key, for whoever looks later at what came by it."""
        return self.digest

    def check(self) -> None:
        """Raises where the key lets this person call no longer."""
        found = self.holder()
        if found is None:
            raise Gone("the key that you came with was taken away")
        self.files.check_revoked(found.bare)

    def holder(self) -> Holder | None:
        try:
            listed = [holder for _, _, holder in holders_in(text_of(self.files.keys))]
        except FileNotFoundError:
            return None
        who = self.person, self.digest
        return next((it for it in listed if it and (it.name, it.said) == who), None)


@dataclass(frozen=True)
class Certified:
    """A person with a certificate, one of whose principals a line names."""

    person: str
    certificate: Certificate
    files: Files

    @property
    def key(self) -> str:
        """What names the certificate, for whoever looks later at what came by it."""
        told = self.certificate
        return f"certificate {told.serial} of {told.authority}, key {told.digest}"

    def check(self) -> None:
        """Raises where the certificate lets this person call no longer."""
        certificate = self.certificate
        if certificate.ends and certificate.ends <= now().strftime("%Y-%m-%dT%H:%M:%S"):
            raise Gone("the certificate that you came with is over")
        let_in = principals_in(text_of(self.files.principals), self.person)
        if not let_in & certificate.principals:
            raise Gone("no principal of the certificate that you came with lets you in any more")
        self.files.check_revoked(certificate.text, certificate.authority)


Caller = Keyed | Certified


def certified(person: str, files: Files) -> Certified:
    """Who calls by a certificate, which sshd tells where it has ExposeAuthInfo."""
    if not files.principals:
        raise BadKey("a call by certificate needs the settings [ssh] principals (relay.toml)")
    told = os.environ.get("SSH_USER_AUTH", "")
    found = CERTIFICATE.search(text_of(told)) if told else None
    if found is None:
        raise BadKey("sshd does not say which certificate this is: it needs ExposeAuthInfo yes")
    return Certified(person, Certificate.read(found[1]), files)


def is_allowed(caller: Caller) -> None:
    """Raises where a caller may call no longer, or where that cannot be seen."""
    try:
        caller.check()
    except (OSError, BadKey, UnicodeDecodeError) as fault:
        raise Gone(f"whether you may still call cannot be seen: {fault}") from None
