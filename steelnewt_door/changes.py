"""What a change of the signers, or a roster, says to the people who have to say yes to it, and
whether enough of them did."""

import base64
import hashlib
import os
import re
from dataclasses import dataclass, replace

from steelnewt_client.messages import canonical
from steelnewt_client.names import PERSON
from steelnewt_client.signed import CHANGES, DIGEST
from steelnewt_door.judge import Judge, print_of_blob
from steelnewt_door.signers import ALLOWED, PASSKEYS, REVOKED, YESES
from steelnewt_door.signers import BadSigners, Signer, Signers, Version
from steelnewt_door.wire import BadSignature

YES = re.compile(rf"({PERSON}) ssh:([A-Za-z0-9+/]+={{0,2}})")
# Where the signatures over rosters and bases are, by the digest of each.
AGREED = "agreed"


def digest_of(version: Version | None) -> str:
    """A version's digest: all that decides whose signature counts."""
    if version is None:
        return "0" * 64
    parts = {"allowed": version.text(ALLOWED), "revoked": version.text(REVOKED)}
    parts |= {PASSKEYS: version.text(PASSKEYS)} if version.has(PASSKEYS) else {}
    return hashlib.sha256(canonical(parts | {"krl": version.krl()}).encode("ascii")).hexdigest()


def span_of(signer: Signer) -> str:
    return f"from {signer.first}" + (f" until {signer.last}" if signer.last else "")


def named(signer: Signer) -> str:
    """A signer's line, as people read it."""
    mark = print_of_blob(signer.blob)
    who = "an authority:" if signer.is_authority else signer.name
    where = f" at {signer.origin}{', with a PIN or a finger' * signer.is_verified}"
    return f"{who} {signer.kind} {mark}{where * signer.is_passkey} {span_of(signer)}"


def lines_of(before: Version | None, after: Version) -> list[str]:
    """What changes, a line for each key."""
    old = before.signers() if before else []
    new = after.signers()
    gone = before.revoked() if before else []
    lines = [f"- {named(it)}" for it in old if it not in new]
    lines += [f"+ {named(it)}" for it in new if it not in old]
    lines += [f"revoked {it}" for it in after.revoked() if it not in gone]
    lines += [f"no longer revoked {it}" for it in gone if it not in after.revoked()]
    if (before.krl() if before else "") != after.krl():
        lines.append("another revoked.krl")
    return lines


def text_of(site: str, before: Version | None, after: Version) -> str:
    """What people sign of a change."""
    lines = [f"site {site}", "signers", f"before {digest_of(before)}", *lines_of(before, after)]
    return "\n".join([*lines, f"after {digest_of(after)}", ""])


def whose(signer: Signer) -> Signer:
    """A signer but for when it counts."""
    return replace(signer, first="", last="")


def takes_away(before: Version, after: Version) -> bool:
    """Whether a change only ends keys, or revokes more: nobody signs more by it."""
    old = {whose(it): it for it in before.signers()}
    for it in after.signers():
        was = old.get(whose(it))
        if was is None or it.first < was.first:
            return False
        if was.last and (not it.last or it.last > was.last):
            return False
    kept = set(before.revoked()) <= set(after.revoked())
    return kept and (before.krl() == after.krl() or not before.krl())


def yeses_in(text: str) -> list[tuple[str, bytes]]:
    """Who said yes, and the signature of each."""
    found = []
    for line in text.splitlines():
        if not (said := YES.fullmatch(line)):
            raise BadSigners("a line of the signatures is no name and signature")
        found.append((said[1], base64.b64decode(said[2])))
    return found


@dataclass(frozen=True)
class Two:
    """How many earlier signers have to say yes to whatever gives rights; one is root alone."""

    judge: Judge
    signers: Signers
    count: int = 1

    def who_said(self, version: Version, text: str, yeses: str, at: str) -> set[str]:
        """Who said yes to a text, by the signers of a version."""
        found = set()
        for who, raw in yeses_in(yeses):
            made = (CHANGES, text.encode("utf-8"), raw)
            try:
                self.judge.signer_of(version, who, made, at)
            except BadSignature as fault:
                raise BadSigners(f"{who} did not sign this change: {fault}") from None
            found.add(who)
        return found

    def check(self, version: Version) -> None:
        """Refuses a version that gives, and that too few of the signers before it said yes to."""
        if self.count < 2:
            return
        before = self.signers.before(version)
        if before is None or takes_away(before, version):
            return
        yeses = version.text(YESES) if version.has(YESES) else ""
        found = self.who_said(before, text_of(self.judge.site, before, version), yeses, version.at)
        if len(found) < self.count:
            raise BadSigners(
                f"the signers of {version.at} have the yes of {len(found)} of those before, and"
                f" need {self.count}"
            )

    def check_all(self) -> None:
        for version in self.signers.versions():
            self.check(version)

    def file_of(self, digest: str) -> str:
        return os.path.join(self.signers.folder, AGREED, digest)

    def check_text(self, what: str, digest: str) -> None:
        """Refuses a roster or a base that too few said yes to. Who said it counts by the signers of
        the moment that stands beside it."""
        if self.count < 2:
            return
        if not DIGEST.fullmatch(digest):
            raise BadSigners(f"{digest[:80]!r} is no digest of a {what}")
        try:
            with open(self.file_of(digest), encoding="ascii") as file:
                at, _, yeses = file.read().partition("\n")
            version = self.signers.held_at(at)
        except (OSError, ValueError) as fault:
            raise BadSigners(f"nobody said yes to the {what} {digest}: {fault}") from None
        found = self.who_said(version, said_of(self.judge.site, what, digest), yeses, at)
        if len(found) < self.count:
            raise BadSigners(f"{len(found)} said yes to the {what} {digest}, of {self.count}")


def said_of(site: str, what: str, digest: str) -> str:
    """What people sign of a roster or a base."""
    return f"site {site}\n{what}\nafter {digest}\n"
