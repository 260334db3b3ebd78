"""What becomes of a message at the door: who signed it, whether it is about what the desk holds,
and then what the desk itself says."""

import base64
import json
import logging
import time
from collections.abc import Callable
from contextlib import nullcontext, suppress
from dataclasses import dataclass, field

from steelnewt_client.desk import Desk, Silent
from steelnewt_client.messages import Request, Verdict, canonical
from steelnewt_client.moments import seconds, stamp_of
from steelnewt_client.signed import BadLine, Signed, digest, read_line, said_in
from steelnewt_door.assertions import assertion_in
from steelnewt_door.changes import Two
from steelnewt_door.crew import Locks
from steelnewt_door.index import Before, Known
from steelnewt_door.journal import BadJournal, Full, Journal, rows_in
from steelnewt_door.judge import Judge, JudgeAway
from steelnewt_door.others import Others
from steelnewt_door.refusals import Refused, Share
from steelnewt_door.rows import ACK, Arrival, Row, answered, brought, came, came_broken
from steelnewt_door.signers import BadSigners, Signers, Version
from steelnewt_door.touches import touch_of
from steelnewt_door.wire import BadSignature, parts_of

log = logging.getLogger("desk-door")
AHEAD = 60  # seconds that a message's moment may be ahead of the door's clock
WAITS = 120  # seconds that an approval may wait for its request, before it is refused for good
TAKES_AWAY = ("refuse", "revoke")
LOCKS = 256
Message = Request | Verdict


@dataclass(frozen=True)
class Rules:
    """What a site chose: whether people sign, for how many seconds a request or an approval may be
    on its way, how many people say yes to signers and rosters, since when all is signed, which
    relays' requests are not, and under which ceilings no passkey counts."""

    is_signing: bool
    late: int
    changes_by: int = 1
    since: str = ""
    programs: frozenset[str] = frozenset()
    by_ssh: frozenset[str] = frozenset()

    def is_signed(self, at: str) -> bool:
        """Whether what comes at a moment has to be signed."""
        return self.is_signing and at >= self.since


@dataclass(frozen=True)
class Reply:
    """What the desk said, to the byte, and that in a word: `ack`, or its refusal."""

    raw: bytes
    said: str


@dataclass(frozen=True)
class Way:
    """How a message came: the relay that it names, who is at the other end of the socket, whether
    that is root's own, and when it came to another door, where root's says so."""

    relay: str
    peer: str = ""
    is_root: bool = False
    arrival: Arrival | None = None

    @property
    def names(self) -> tuple[str, str]:
        return self.relay, self.peer


def made_here(version: Version, who: str, signed: Signed, at: str) -> bool:
    """Whether a key that counts here says that it made a signature, so that no other signers would
    judge it otherwise; also where it has not the form of one."""
    try:
        if signed.is_by_passkey:
            made = assertion_in(signed.signature).id
            known = [(it, it.passkey().id) for it in version.passkeys()]
        else:
            made = parts_of(base64.b64decode(signed.signature.split(":")[1])).key
            known = [(it, it.blob) for it in version.signers()]
    except (BadSignature, ValueError):
        return True
    return any(key == made for it, key in known if it.name == who and it.counts_at(at))


def takes_away(message: Message | None) -> bool:
    return isinstance(message, Verdict) and message.kind in TAKES_AWAY


def name_of(message: Message) -> tuple[str, int]:
    """Whose request a message is, or is about, and its number."""
    return (message.by if isinstance(message, Request) else message.of), message.no


def held_at(desk: Desk, who: str, no: int) -> tuple[list[str], list[str]]:
    """The requests and verdicts that a desk holds by a name, each as its text."""
    path = f"/v1/requests/{who}/{no}"
    try:
        names = json.loads(desk.get(path))["names"]
        found = [it for it in names if (it["by"], it["no"]) == (who, no)]
        requests = [canonical(it) for entry in found for it in entry["requests"]]
        verdicts = [canonical(it["verdict"]) for entry in found for it in entry["verdicts"]]
    except Silent as fault:
        raise Refused("K20 DeskAway", str(fault)) from None
    except (ValueError, KeyError, TypeError):
        raise Refused("K20 DeskAway", f"the desk answers {path} otherwise") from None
    return requests, verdicts


@dataclass
class Door:
    """The door before one desk. `post` posts a message as a relay's to that desk, and `desk`
    answers questions."""

    rules: Rules
    judge: Judge
    signers: Signers
    journal: Journal
    desk: Desk
    post: Callable[[str, str], Reply]
    clock: Callable[[], float] = time.time
    locks: Locks = field(default_factory=lambda: Locks(LOCKS))
    keys: Locks = field(default_factory=lambda: Locks(LOCKS))
    share: Share = field(default_factory=Share)
    others: Others = Others()
    checked: tuple[float, tuple[str, str]] = (0.0, ("", ""))
    good: set[tuple[object, ...]] = field(default_factory=set)

    def now(self) -> str:
        return stamp_of(self.clock())

    def take(self, way: Way, line: bytes) -> bytes:
        """The answer to a message, whose row is on the disk before the desk is asked."""
        try:
            signed = read_line(line)
            message = said_in(signed.message)
        except BadLine as fault:
            refused = Refused(str(fault))
            self.note_broken(way, line, refused)
            raise refused from None
        with self.locks.held(name_of(message)):
            return self.take_one(way, signed, message)

    def take_one(self, way: Way, signed: Signed, message: Message) -> bytes:
        before = self.journal.before(signed)
        known = before.known
        try:
            if known and known.how != "refused" and self.is_held(known, signed, message):
                no = known.no
            else:
                no, known = self.keep(way, signed, message, before)
            reply = self.post(way.relay, signed.message)
        except Refused as refused:
            self.note_refused(way, signed, message, refused)
            raise
        self.note_answer(no, known, reply.said, message)
        return reply.raw

    # what is written

    def append(self, rows: list[Row], message: Message | None = None) -> list[int]:
        """Writes rows, or refuses by a name."""
        try:
            return self.journal.append(rows, takes_away(message))
        except Full as fault:
            raise Refused("K24 JournalFull", str(fault)) from None
        except BadJournal as fault:
            raise Refused("K23 DoorFails", str(fault)) from None

    def note_answer(self, no: int, known: Known | None, said: str, message: Message) -> None:
        """Notes the desk's answer, where it is another one than before. (An acknowledgement is told
        though there is no room for its row: the message has one, and the next start asks the desk
        what became of it.)"""
        if known and known.no == no and known.code == said:
            return
        try:
            self.append([answered(no, self.now(), said, "desk")], message)
        except Refused:
            if said != ACK:
                raise

    def note_refused(self, way: Way, signed: Signed, message: Message, refused: Refused) -> None:
        """Notes a refusal of the door's own once, and so many of a relay's a day. (What nobody
        signed gets none of the room that is for what takes rights away.)"""
        known = self.journal.before(signed).known
        if known and known.code == refused.code:
            return
        at = self.now()
        with suppress(Refused):  # (it is refused all the same)
            if known:
                is_good = known.how != "refused"
                row = answered(known.no, at, refused.code, "door")
                self.append([row], message if is_good else None)
            elif self.share.has_room(way.relay, at):
                [no] = self.append([came(signed, at, way.names, "refused")])
                self.append([answered(no, at, refused.code, "door")])
            else:
                self.note_more(at)

    def note_broken(self, way: Way, line: bytes, refused: Refused) -> None:
        """Notes what is no message."""
        at = self.now()
        with suppress(Refused):
            if self.share.has_room(way.relay, at):
                [no] = self.append([came_broken(line, at, way.names)])
                self.append([answered(no, at, refused.code, "door")])
            else:
                self.note_more(at)

    def note_more(self, at: str) -> None:
        rows = self.share.more(at, self.clock())
        if rows:
            self.append(rows)

    # what is looked at

    def is_held(self, known: Known, signed: Signed, message: Message) -> bool:
        """Whether the desk holds what came before: also where its answer was lost then, and where
        its key has ended since."""
        if known.code == ACK:
            return True
        requests, verdicts = self.held(*name_of(message))
        return signed.message in (*requests, *verdicts)

    def keep(
        self, way: Way, signed: Signed, message: Message, before: Before
    ) -> tuple[int, Known | None]:
        """The number of a row with the message, which may be posted then, and what the index had
        of that row before. Raises where the message may not be posted."""
        at, known = self.now(), before.known
        moment = way.arrival.at if way.arrival else at
        how = self.how(way, signed, message, moment)
        first = known.at if known else at
        key, version = self.key_of(way, signed, message, (moment, first))
        # (also of what came before and was not taken: nobody puts an approval by for later)
        self.check_moment(way, message, (moment, first))
        if not takes_away(message):
            self.check_site()
        if how in ("signed", "program"):
            if isinstance(message, Request):
                self.check_ceilings(signed, [message.wish.ceiling])
                self.check_name(message, signed.digest)
            elif not self.is_asked(message, signed):
                is_over = known is not None and seconds(at) - seconds(known.at) > WAITS
                raise Refused("A23 NoRequest" if is_over else "K22 NoRequestYet")
        if known and known.how == how:
            return known.no, known
        if key and (same := before.by_key.get(key)):
            return same.no, same
        row = came(signed, at, way.names, how, key, version)
        row = brought(row, way.arrival) if way.arrival else row
        # (no other touch of a passkey is noted between the look at its counter and this one's row)
        with self.keys.held(key) if signed.is_by_passkey else nullcontext():
            self.check_counter(signed, key, message)
            [no] = self.append([row], message)
        return no, None

    def check_counter(self, signed: Signed, key: str, message: Message) -> None:
        """Refuses a passkey of which there is a copy. (Its owner may still take away what that
        gave.)"""
        touch = touch_of(signed, message.at)
        if touch and touch.is_behind(self.journal.index.touches_from(key, touch.counter)):
            why = f"{message.by}'s {key} says {touch.counter}"
            if not takes_away(message):
                raise Refused("A26 CopiedKey", why)
            log.warning("A26 CopiedKey: what takes rights away is taken all the same: %s", why)

    def check_ceilings(self, signed: Signed, ceilings: list[str]) -> None:
        """Refuses what a passkey gives under a ceiling that wants a signature by ssh."""
        found = self.rules.by_ssh.intersection(ceilings)
        if found and signed.is_by_passkey:
            raise Refused("A27 NotBySsh", f"under {', '.join(sorted(found))}")

    def how(self, way: Way, signed: Signed, message: Message, moment: str) -> str:
        """As what it may be taken: whether it needs a signature, and has one."""
        if signed.signature:
            return "signed"
        if way.is_root and takes_away(message):
            return "root"
        if not self.rules.is_signed(moment):
            return "unsigned"
        if way.relay in self.rules.programs and isinstance(message, Request):
            return "program"
        raise Refused("P20 NotSigned", f"{message.by} did not sign it")

    def key_of(
        self, way: Way, signed: Signed, message: Message, moments: tuple[str, str]
    ) -> tuple[str, str]:
        """The key that signed a message, and the version by which that is its author's. `moments`
        are the one by which the message is judged, and the one at which this door had it first."""
        if not signed.signature:
            return "", ""
        at, first = moments
        try:
            version = self.version_of(way.arrival).seen()
            self.check_version(version)
            return self.judge.key_of(version, message.by, signed, at), version.at
        except BadSigners as fault:
            raise Refused("K25 NoSigners", str(fault)) from None
        except JudgeAway as fault:
            raise Refused("K23 DoorFails", str(fault)) from None
        except BadSignature as fault:
            if self.others.names and not way.arrival:
                if not made_here(version, message.by, signed, at):
                    self.check_lag(first)
            raise Refused("A20 BadSignature", f"{message.by}: {fault}") from None

    def version_of(self, arrival: Arrival | None) -> Version:
        """The version by which a message is judged: the one that holds, or that held as it came to
        another door. (In the second of a change either did.) That door may have lagged: then it is
        the one that held by the signers here."""
        if arrival is None:
            return self.signers.now()
        moments = self.signers.moments()
        if arrival.signers not in moments:
            why = f"door {arrival.door} took it by the signers of {arrival.signers}, not here yet"
            raise Refused("K27 DoorLags", why)
        later = [it for it in moments if it > arrival.signers]
        did_hold = arrival.signers <= arrival.at <= (later or ["9"])[0]
        held = self.signers.version(arrival.signers) if did_hold else None
        return held or self.signers.held_at(arrival.at)

    def check_lag(self, first: str) -> None:
        """Refuses nothing for good by what this door may lack: what came to the others since a
        message came here first, and their signers."""
        if not self.others.names:
            return
        try:
            newest = max(self.signers.moments(), default="")
        except BadSigners as fault:
            raise Refused("K25 NoSigners", str(fault)) from None
        if why := self.others.lag(newest, first, self.now()):
            raise Refused("K27 DoorLags", why)

    def check_version(self, version: Version) -> None:
        """Refuses signers that cannot be read, or that too few people said yes to."""
        if (state := version.state()) in self.good:
            return
        version.signers()
        version.revoked()
        Two(self.judge, self.signers, self.rules.changes_by).check(version)
        self.good.add(state)

    def check_moment(self, way: Way, message: Message, moments: tuple[str, str]) -> None:
        """Refuses what is dated back to when its author held a duty, or a key. What takes rights
        away may be late."""
        at, first = moments
        if seconds(message.at) > seconds(at) + AHEAD or seconds(at) > self.clock() + AHEAD:
            raise Refused("K21 NotYet", f"it is of {message.at}")
        is_late = seconds(at) - seconds(message.at) > self.rules.late
        if is_late and not takes_away(message) and self.rules.is_signed(at):
            if not way.arrival:
                self.check_lag(first)
            raise Refused("A21 NotOfNow", f"it is of {message.at}, and came at {at}")

    def check_site(self) -> None:
        """Refuses what gives rights by a roster or a base that too few people said yes to. The desk
        is asked once a second which ones it has."""
        if self.rules.changes_by < 2:
            return
        two = Two(self.judge, self.signers, self.rules.changes_by)
        try:
            if self.clock() - self.checked[0] >= 1.0:
                _, roster, base = self.desk.count()
                self.checked = (self.clock(), (roster, base))
            for what, mark in zip(("roster", "base"), self.checked[1], strict=True):
                two.check_text(what, mark)
        except Silent as fault:
            raise Refused("K20 DeskAway", str(fault)) from None
        except BadSigners as fault:
            raise Refused("K26 NotAgreed", str(fault)) from None

    def check_name(self, request: Request, about: str) -> None:
        """Refuses a request for whose name the desk has an approval that was not given over it:
        that would count for it all the same."""
        _, verdicts = self.held(request.by, request.no)
        for text in verdicts:
            verdict = said_in(text)
            is_yes = isinstance(verdict, Verdict) and verdict.kind == "approve"
            if is_yes and not self.journal.index.is_about(text, about):
                raise Refused("A24 NameTaken", f"an approval of another {request.by} {request.no}")

    def is_asked(self, verdict: Verdict, signed: Signed) -> bool:
        """Whether the desk holds the request that an approval is about; refused where it holds
        another one by that name, or one that was asked for another reason."""
        if verdict.kind != "approve":
            if signed.about:
                raise Refused("A20 BadSignature", f"a verdict to {verdict.kind} is about no bytes")
            return True
        if not signed.about:
            raise Refused("A22 OtherRequest", "an approval that does not say of what bytes")
        requests, _ = self.held(verdict.of, verdict.no)
        self.check_ceilings(signed, [json.loads(it)["ceiling"] for it in requests])
        if requests and signed.about not in [digest(it) for it in requests]:
            raise Refused("A22 OtherRequest", f"{verdict.by} was shown another request")
        whys = self.journal.index.whys(signed.about)
        if whys and signed.why not in whys:
            raise Refused("A25 OtherReason", f"{verdict.by} was shown another reason")
        return bool(requests)

    def held(self, who: str, no: int) -> tuple[list[str], list[str]]:
        """The requests and verdicts that the desk holds by a name, each as its text."""
        return held_at(self.desk, who, no)

    # what was before

    def settle(self) -> int:
        """Notes what became of each message whose answer was not written, by what the desk holds:
        how many there were."""
        numbers = set(self.journal.index.unanswered())
        if not numbers:
            return 0
        held = set(self.desk.get("/v1/messages").splitlines())
        for row in rows_in(self.journal.folder):
            if row["no"] in numbers:
                is_held = row["message"] in held and row["how"] != "refused"
                code = ACK if is_held else "K23 DoorFails"
                self.append([answered(row["no"], self.now(), code, "door")])
        return len(numbers)

    def begin(self) -> tuple[int, int]:
        """Notes what the desk holds that never came through the door: how many there are, and of
        how many."""
        messages = self.desk.get("/v1/messages").splitlines()
        new = [it for it in messages if not self.journal.index.is_here(it)]
        for text in new:
            self.append([came(Signed(text), self.now(), ("", ""), "before")])
        return len(new), len(messages)
