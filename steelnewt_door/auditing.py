"""What an auditors' machine finds of a desk and its door, by nothing that these say of themselves:
who signed each message, and whether hosts have exactly what the proved program makes of the
messages that people signed."""

import hashlib
import os
import re
import subprocess
import time
from collections.abc import Iterator
from dataclasses import dataclass, field

from steelnewt_client.desk import Silent, cut_in
from steelnewt_client.messages import Verdict
from steelnewt_client.moments import stamp_of
from steelnewt_client.names import LABELS
from steelnewt_client.signed import digest
from steelnewt_door.bringing import Ask, Copy
from steelnewt_door.changes import Two
from steelnewt_door.judge import Judge
from steelnewt_door.signers import BadSigners, Signers
from steelnewt_door.taking import TAKES_AWAY
from steelnewt_door.verifying import Found, Verifier, read_counting, said_of, theirs_of

NOT_HELD = re.compile(r"NOT AT THE DESK: row ([0-9]+):")
ENDS = re.compile(r"NOTAFTER=([0-9]{14}Z)")
DAY = 86_400
OLD_COPY = DAY  # after which a copy of a host's file says little
PATIENCE = 600  # seconds for the proved program


class NoProgram(Exception):
    """The proved program gives no answer."""


@dataclass(frozen=True)
class Site:
    """What the auditors know of a site by themselves: its name, its roster and its base, how many
    people say yes to signers, where copies of hosts' files are, since when all is signed but for
    some relays' requests, and where they have the journals of its other doors."""

    name: str
    roster: str
    base: str
    hosts: str = ""
    program: str = "desk"
    changes_by: int = 1
    late: int = 86_400
    since: str = ""
    programs: frozenset[str] = frozenset()
    others: dict[str, str] = field(default_factory=dict)

    def verifier(self, signers: Signers) -> Verifier:
        found = Verifier(Judge(self.name), signers, self.late)
        found.since, found.programs = self.since, self.programs
        found.others = {name: theirs_of(folder) for name, folder in self.others.items()}
        return found


@dataclass
class Auditing:
    """One look. `found` are the lines of what was found."""

    site: Site
    copy: Copy
    found: list[str] = field(default_factory=list)
    counts: dict[str, int] = field(default_factory=dict)

    def look(self, ask: Ask) -> None:
        """Brings all that is new, and verifies all that is here."""
        self.copy.bring_signers(ask)
        self.found += self.copy.bring(ask)
        before = self.copy.last
        messages = ask("/v1/messages").decode("utf-8").splitlines()
        counting = read_counting(ask("/v1/requests").decode("utf-8"))
        # (a message is in the journal before the desk has it)
        self.found += self.copy.bring(ask)
        self.copy.bring_signers(ask)
        verifier = self.site.verifier(Signers(self.copy.signers))
        verifier.cut = self.cut(ask)
        seen = verifier.look(self.copy.journal, messages, counting)
        self.take(seen, before)
        self.check_texts(ask("/v1/count").decode("ascii").split())
        self.compare([it for it in messages if is_meant(verifier, it)])

    def cut(self, ask: Ask) -> str:
        """Up to when its history was cut, as the desk says: what had ended then may be away. No
        desk cuts within a day."""
        try:
            found = cut_in(ask("/v1/history").decode("ascii", "replace"))
        except Silent:  # (it has no history)
            return ""
        if found > stamp_of(time.time() - DAY):
            self.found.append(f"EARLY CUT: the desk says that its history was cut at {found}")
            return ""
        return found

    def take(self, seen: Found, before: int) -> None:
        """What `desk-verify` finds, but for what was said since the desk was asked."""
        for line in seen.lines:
            late = NOT_HELD.match(line)
            if not line.startswith("(") and not (late and int(late[1]) > before):
                self.found.append(line)
        self.counts |= {it: seen.counts[it] for it in ("rows", "archived", "messages", "signed")}
        try:
            Two(Judge(self.site.name), Signers(self.copy.signers), self.site.changes_by).check_all()
        except BadSigners as fault:
            self.found.append(f"NOT AGREED: {fault}")

    def check_texts(self, served: list[str]) -> None:
        """Whether the desk serves the roster and the base that the auditors have."""
        with open(self.site.roster, "rb") as file:
            roster = hashlib.sha256(file.read()).hexdigest()
        base = hashlib.sha256(self.run("check", self.site.base)).hexdigest()
        for what, mine, there in zip(("roster", "base"), (roster, base), served[1:], strict=True):
            if mine != there:
                told = f"the desk serves {there}, here is {mine}"
                self.found.append(f"ANOTHER {what.upper()}: {told}")

    def run(self, *words: str, given: bytes = b"") -> bytes:
        """What the proved program prints."""
        whole = [self.site.program, *words]
        try:
            ran = subprocess.run(
                whole, input=given, capture_output=True, check=False, timeout=PATIENCE
            )
        except (OSError, subprocess.TimeoutExpired) as fault:
            raise NoProgram(f"{self.site.program}: {fault}") from None
        if ran.returncode:
            said = ran.stderr.decode("utf-8", "replace").strip()[-200:]
            raise NoProgram(f"{' '.join(whole[:2])}: {said}")
        return ran.stdout

    # what hosts have

    def compare(self, messages: list[str]) -> None:
        """Each copy of a host's file beside what the program makes of what people signed."""
        if not self.site.hosts:
            return
        given = "".join(f"{it}\n" for it in messages).encode("utf-8")
        for host in sorted(filter(LABELS.fullmatch, os.listdir(self.site.hosts))):
            path = os.path.join(self.site.hosts, host)
            with open(path, "rb") as file:
                held, seen = file.read(), os.fstat(file.fileno()).st_mtime
            made = self.run("print", self.site.roster, self.site.base, "-", host, given=given)
            self.found += differences(host, lines_of(held), lines_of(made), stamp_of(time.time()))
            if time.time() - seen > OLD_COPY:
                self.found.append(f"OLD COPY: that of {host} is of {stamp_of(seen)}")
            self.counts["hosts"] = self.counts.get("hosts", 0) + 1


def lines_of(text: bytes) -> list[str]:
    return text.decode("utf-8", "replace").splitlines()


def differences(host: str, held: list[str], made: list[str], now: str) -> Iterator[str]:
    """What a host's file has beyond what people signed, and what it lacks of that which has not
    ended."""
    yield from (f"HOST HAS MORE: {host}: {it}" for it in held if it not in set(made))
    lacking = [it for it in made if it not in set(held)]
    for it in lacking:
        ends = ENDS.search(it)
        if not ends or ends[1] >= now:
            yield f"HOST LACKS: {host}: {it}"
    common = set(held) & set(made)
    if [it for it in held if it in common] != [it for it in made if it in common]:
        yield f"HOST HAS ANOTHER ORDER: {host}: the last line that matches counts"


def is_meant(verifier: Verifier, text: str) -> bool:
    """Whether its author signed a message, or it needed no signature, or root took rights away."""
    rows, said = verifier.mine.get(digest(text), []), said_of(text)
    is_away = isinstance(said, Verdict) and said.kind in TAKES_AWAY
    return any(it.is_good or it.is_free or (it.how == "root" and is_away) for it in rows)
