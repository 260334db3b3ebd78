"""Looks at every row and signature again, without a desk and without trust in it: which message
nobody signed, whether each approval was given over the very request that the desk holds, and which
rows are missing or were changed."""

import base64
import json
from bisect import bisect_left, insort
from collections import defaultdict
from collections.abc import Iterable, Iterator
from dataclasses import dataclass, field
from functools import lru_cache
from operator import attrgetter

from steelnewt_client.messages import Request, Verdict
from steelnewt_client.moments import seconds
from steelnewt_client.signed import BadLine, Signed, digest, said_in
from steelnewt_door.journal import files_of
from steelnewt_door.judge import Judge, by_ssh_keygen, print_of_blob
from steelnewt_door.rows import MESSAGES, BadRow, Last, Row, moment_of, read_row
from steelnewt_door.signers import BadSigners, Copied, Signers, Version
from steelnewt_door.touches import Touch, touch_of
from steelnewt_door.wire import BadSignature

# How many seconds a clock may be set back, before it is said.
SET_BACK = 60
HOWS = {
    "root": "root's socket took it without a signature",
    "unsigned": "it came while the site signed nothing",
    "program": "its relay signs for nobody",
    "before": "the desk held it before there was a door",
}
COUNTER = attrgetter("counter")
Counting = set[tuple[str, str, int, str]]
Theirs = dict[str, tuple[str, str]]  # a row's digest: the moment of it, and its message


class BadInput(Exception):
    """A file is not what it has to be; the text says why."""


@dataclass
class Found:
    """All that was found, and how many there are of each."""

    lines: list[str] = field(default_factory=list)
    counts: dict[str, int] = field(default_factory=lambda: defaultdict(int))
    last: Last = field(default_factory=Last)

    def add(self, kind: str, why: str, text: str = "") -> None:
        self.lines.append(f"{kind}: {why}: {text}" if text else f"{kind}: {why}")


@dataclass(frozen=True)
class Came:
    """What is kept of a row with a message. `is_free` says that it needs no signature."""

    no: int
    at: str
    how: str
    about: str
    why: str
    is_good: bool
    is_free: bool = False


def read_counting(text: str) -> Counting:
    """The approvals that count, as a desk tells them: who, of whom, which number, when."""
    try:
        names = json.loads(text)["names"]
        verdicts = [it for entry in names for it in entry["verdicts"] if it["counts"]]
        told = [it["verdict"] for it in verdicts if it["verdict"]["kind"] == "approve"]
        return {(it["by"], it["of"], it["no"], it["at"]) for it in told}
    except (ValueError, KeyError, TypeError) as fault:
        raise BadInput(f"this is no answer of /v1/requests, or of desk-audit: {fault!r}") from None


class Chain:
    """Whether rows follow from one another, and which do not: it goes on behind each fault."""

    def __init__(self, found: Found) -> None:
        self.found, self.broken = found, 0
        self.came, self.is_begun = "", False

    def rows(self, folder: str) -> Iterator[Row]:
        """The rows of all files that can be read."""
        for _, path in files_of(folder):
            with open(path, "rb") as file:
                for number, line in enumerate(file, 1):
                    try:
                        row = read_row(line)
                    except BadRow as fault:
                        self.broken += 1
                        self.found.add("CHANGED ROW", f"{path}: line {number} {fault}")
                        continue
                    self.follow(row)
                    yield row

    def follow(self, row: Row) -> None:
        last, no = self.found.last, row["no"]
        if not self.is_begun and no > 1 and row["row"] == "begun" and not self.broken:
            last = Last(no - 1, row["before"])
            self.found.lines.append(f"(rows 1 to {no - 1} are not here: they were carried away)")
        missing = no - last.no - 1 - self.broken
        if no <= last.no:
            self.found.add("MOVED ROW", f"row {no} stands behind row {last.no}")
        elif missing > 0:
            self.found.add("MISSING ROWS", f"{last.no + 1} to {no - 1}")
        elif missing == 0 and not self.broken and row["before"] != last.chain:
            self.found.add("OTHER ROW", f"row {last.no} is not the one that row {no} followed")
        if self.came and seconds(self.came) - seconds(row["at"]) > SET_BACK:
            self.found.add("SET BACK", f"row {no} is of {row['at']}, the one before of {self.came}")
        self.came, self.is_begun, self.broken = row["at"], True, 0
        self.found.last = Last(max(no, last.no), row["chain"])


@dataclass
class Verifier:
    """What a site's journal is judged by. Each `step`-th signature is also given to ssh-keygen.
    `noted` is the digest of a row that somebody noted before; `since` is the moment from which on
    all was to be signed, but for requests of relays in `programs`; `others` has the rows of other
    doors' journals, by their digests."""

    judge: Judge
    signers: Signers
    late: int
    step: int = 1_000
    noted: str = ""
    has_noted: bool = False
    since: str = ""
    programs: frozenset[str] = frozenset()
    others: dict[str, Theirs] = field(default_factory=dict)
    versions: dict[str, tuple[Version, str]] = field(default_factory=dict)
    mine: dict[str, list[Came]] = field(default_factory=lambda: defaultdict(list))
    codes: dict[int, str] = field(default_factory=dict)
    texts: dict[int, str] = field(default_factory=dict)
    cut: str = ""  # up to which moment the desk says that its history was cut
    touches: dict[str, list[Touch]] = field(default_factory=lambda: defaultdict(list))

    def look(
        self, journal: str, messages: list[str] | None, counting: Counting | None = None
    ) -> Found:
        """All that is found of a journal, and of the messages that a desk holds."""
        found = Found()
        lost = {print_of_blob(it) for it in self.lost()}
        for row in Chain(found).rows(journal):
            found.counts["rows"] += 1
            self.has_noted |= row["chain"] == self.noted
            if row["row"] in MESSAGES:
                self.look_at_row(row, lost, found)
            elif row["row"] == "answered":
                self.codes[row["of"]] = row["code"]
            elif row["row"] == "healed":
                found.add("HEALED", f"row {row['no']}: {row['bytes']} bytes behind a power cut")
        if messages is not None:
            self.look_at_messages(messages, counting, found)
        return found

    def lost(self) -> list[bytes]:
        """The keys that were lost, or revoked, as they are known now."""
        return [base64.b64decode(it.split(" ")[1]) for it in self.signers.now().revoked()]

    def look_at_row(self, row: Row, lost: set[str], found: Found) -> None:
        """A message as it came: whether its author signed it."""
        how = row["how"]
        signed = Signed(row["message"], row["signature"], row["about"], row["why"])
        if how == "refused":
            found.counts["refused"] += 1
            return
        why = self.why_not(signed, row, found) if how == "signed" else ""
        if why:
            found.add("BAD SIGNATURE", f"row {row['no']}: {why}", row["message"])
        at = moment_of(row)
        if row["key"] in lost:
            found.add("LOST KEY", f"row {row['no']} of {at}: {row['key']}", row["message"])
        if row["row"] == "brought":
            self.look_at_brought(row, found)
        is_good = how == "signed" and not why
        parts = how, row["about"], row["why"], is_good, self.is_free(row)
        self.mine[signed.digest].append(Came(row["no"], at, *parts))
        self.texts[row["no"]] = signed.message

    def is_free(self, row: Row) -> bool:
        """Whether a message needed no signature as it came."""
        if row["how"] == "program":
            is_request = isinstance(said_of(row["message"]), Request)
            return is_request and row["relay"] in self.programs
        return row["how"] in ("unsigned", "before") and moment_of(row) < self.since

    def look_at_brought(self, row: Row, found: Found) -> None:
        """Whether the other door has the row that a message was brought from."""
        found.counts["brought"] += 1
        theirs = self.others.get(row["door"])
        if theirs is not None and theirs.get(row["there"]) != (row["arrived"], row["message"]):
            told = f"row {row['no']}: door {row['door']} has no such row of {row['arrived']}"
            found.add("NOT THERE", told, row["message"])

    def why_not(self, signed: Signed, row: Row, found: Found) -> str:
        """Why a row's signature is none of the message's author, by what held when it came; empty
        where it is."""
        try:
            said = read_message(signed.message)
            version = self.version_of(row)
            key = self.judge.key_of(version, said.by, signed, moment_of(row))
            found.counts["signatures"] += 1
            self.look_at_touch(signed, row, said, found)
            is_sampled = found.counts["signatures"] % self.step == 1 or self.step == 1
            if is_sampled and not signed.is_by_passkey:
                found.counts["by ssh-keygen"] += 1
                made = signed.signed_bytes(self.judge.site)
                by_ssh_keygen(version, said.by, made, moment_of(row))
        except (BadSignature, BadSigners, BadLine) as fault:
            return str(fault)
        return "" if key == row["key"] else f"it is of {key}, and not of {row['key']}"

    def look_at_touch(
        self, signed: Signed, row: Row, said: Request | Verdict, found: Found
    ) -> None:
        """Whether a passkey's counter went on from one message to the next."""
        if not (touch := touch_of(signed, said.at)):
            return
        found.counts["touches"] += 1
        mine = self.touches[row["key"]]
        if touch.is_behind(mine[bisect_left(mine, touch.counter, key=COUNTER) :]):
            why = f"row {row['no']}: {row['key']} says {touch.counter}, and said that before"
            found.add("COPIED KEY", why, row["message"])
        insort(mine, touch, key=COUNTER)

    def version_of(self, row: Row) -> Version:
        """The version by which a row was judged, where that held when it came (in the second of a
        change either did); the one that held then, where the door lagged."""
        at, moment = row["signers"], moment_of(row)
        if at not in self.versions:
            later = [it for it in self.signers.moments() if it > at]
            if at not in self.signers.moments():
                raise BadSigners(f"there are no signers of {at}")
            copied = Copied(at, self.signers.version(at).folder)
            self.versions[at] = copied, later[0] if later else "9"
        version, end = self.versions[at]
        if moment < at:
            raise BadSigners(f"the signers of {at} did not hold at {moment}")
        if moment > end:
            held = self.signers.held_at(moment)
            return Copied(held.at, held.folder)
        return version

    def look_at_messages(
        self, messages: list[str], counting: Counting | None, found: Found
    ) -> None:
        """Each message that a desk holds, and each that it acknowledged."""
        requests = requests_of(messages)
        for text in messages:
            self.look_at(text, requests, counting, found)
        held, ends = set(messages), ends_of(messages)
        for no, code in self.codes.items():
            came = self.texts.get(no)
            if code != "ack" or came is None or came in held:
                continue
            if self.is_archived(came, ends):
                found.counts["archived"] += 1
            else:
                found.add("NOT AT THE DESK", f"row {no}: it was acknowledged, and is not held")

    def is_archived(self, text: str, ends: dict[tuple[str, int], str]) -> bool:
        """Whether a cut takes this out: a verdict on what had ended before, as the requests say
        that the desk holds."""
        said = said_of(text)
        return isinstance(said, Verdict) and ends.get((said.of, said.no), "9") < self.cut

    def look_at(
        self,
        text: str,
        requests: dict[tuple[str, int], list[str]],
        counting: Counting | None,
        found: Found,
    ) -> None:
        """One message: whether somebody signed it, over which request, and when it came."""
        said, rows = said_of(text), self.mine.get(digest(text), [])
        good = [it for it in rows if it.is_good]
        found.counts["messages"] += 1
        if good:
            found.counts["signed"] += 1
            if seconds(good[0].at) - seconds(said.at) > self.late:
                found.add("LATE", f"it says {said.at}, and came at {good[0].at}", text)
        elif any(it.is_free for it in rows):
            found.counts["free"] += 1
        elif not any(it.how == "signed" for it in rows):
            whys = [HOWS[it.how] for it in rows]
            found.add("UNSIGNED", whys[0] if whys else "it came past the door", text)
        if isinstance(said, Verdict) and said.kind == "approve":
            is_counting = counting is None or (said.by, said.of, said.no, said.at) in counting
            if is_counting and (good or not any(it.is_free for it in rows)):
                self.look_at_approval(said, text, good, requests, found)

    def look_at_approval(
        self,
        said: Verdict,
        text: str,
        good: list[Came],
        requests: dict[tuple[str, int], list[str]],
        found: Found,
    ) -> None:
        """Whether an approval that counts was given over the very request, and its reason."""
        found.counts["approvals"] += 1
        asked = requests.get((said.of, said.no), [])
        mine = [it for it in good if len(asked) == 1 and it.about == asked[0]]
        whys = {it.why for it in self.mine.get(asked[0], []) if it.is_good} if asked else set()
        if not good:
            found.add("COUNTS UNSIGNED", "its approver did not sign it", text)
        elif not mine:
            found.add("OTHER REQUEST", "it was given over other bytes than are held", text)
        elif whys and not any(it.why in whys for it in mine):
            found.add("OTHER REASON", "it was given over another reason or ticket", text)
        else:
            found.counts["over the very request"] += 1


def theirs_of(journal: str) -> Theirs:
    """The messages of another door's journal."""
    rows = (row for row in Chain(Found()).rows(journal) if row["row"] in MESSAGES)
    return {it["chain"]: (it["at"], it["message"]) for it in rows}


def requests_of(messages: Iterable[str]) -> dict[tuple[str, int], list[str]]:
    """The digests of the requests of each name."""
    named: dict[tuple[str, int], list[str]] = defaultdict(list)
    for text in messages:
        said = said_of(text)
        if isinstance(said, Request):
            named[said.by, said.no].append(digest(text))
    return named


def ends_of(messages: Iterable[str]) -> dict[tuple[str, int], str]:
    """When the last request of each name ends."""
    found: dict[tuple[str, int], str] = {}
    for text in messages:
        said = said_of(text)
        if isinstance(said, Request):
            found[said.by, said.no] = max(said.wish.ends, found.get((said.by, said.no), ""))
    return found


@lru_cache(maxsize=1 << 17)
def read_message(text: str) -> Request | Verdict:
    """(each is looked at in the journal, and at the desk)"""
    return said_in(text)


def said_of(text: str) -> Request | Verdict:
    try:
        return read_message(text)
    except BadLine as fault:
        raise BadInput(f"{fault}: this is no message: {text[:80]}") from None


def summary(found: Found, is_counted: bool) -> Iterator[str]:
    counts = found.counts
    yield f"{counts['rows']} rows, {counts['refused']} messages were refused by the door"
    touches = f", {counts['touches']} of passkeys" if counts["touches"] else ""
    again = f"{counts['by ssh-keygen']} by ssh-keygen again"
    yield f"{counts['signatures']} signatures{touches}, {again}"
    yield f"{counts['messages']} messages at the desk, {counts['signed']} signed by their authors"
    if counts["brought"]:
        yield f"{counts['brought']} were brought from other doors"
    if counts["free"]:
        yield f"{counts['free']} needed no signature as they came"
    which = "approvals that count" if is_counted else "approvals"
    yield f"{counts['approvals']} {which}, {counts['over the very request']} over the very request"
    yield f"the last row is {found.last.no}: {found.last.chain}"
