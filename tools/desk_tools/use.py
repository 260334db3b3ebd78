"""Which runs of sudo's logs were by which grant, by the base, or by neither."""

import re
from array import array
from bisect import bisect_left, bisect_right
from collections.abc import Iterable, Iterator
from dataclasses import dataclass, field
from typing import Any, NamedTuple

from desk_tools.decisions import Desk, Invocation, Policy, Question
from desk_tools.found import visible
from desk_tools.sudo_logs import Logs, Moments, Run, without_exits
from steelnewt_client.moments import seconds, stamp_of

# an argument with a space stands in quotes, since sudo 1.9.13
WORD = re.compile(r" (?:'((?:[^'\\]|\\.)*)'(?= |\Z)|([^ ]*))", re.DOTALL)
QUOTED = re.compile(r"\\([\\'])")
QUOTES = str.maketrans({"\\": "\\\\", "'": "\\'"})
CONTROL = re.compile(r"[\x00-\x1f\x7f]")
# whom a grant's commands are asked about: its user, host and target are its own
ASKER = Invocation("asker", "host", "target", "", ())
ANY_TIME = "20000101000000Z"
# what desk-audit says of a name that enough people approved
GIVEN = ("granted", "void")


@dataclass
class Grant:
    """A grant on one host, and what was run by it."""

    by: str
    no: int
    host: str
    runas: str
    first: int
    last: int
    ceiling: str
    commands: list[str]
    revoked: int | None
    is_logged: bool = False
    moments: list[int] = field(default_factory=list)
    # by command: when it was run, which files, and each file with its arguments
    used: dict[str, list[int]] = field(default_factory=dict)
    ran: dict[str, set[str]] = field(default_factory=dict)
    seen: dict[str, set[tuple[str, ...]]] = field(default_factory=dict)

    @property
    def name(self) -> str:
        return f"{self.by} {self.no}"


def grants_of(audit: dict[str, Any]) -> list[Grant]:
    """The windows by host of what `desk-audit --json` tells."""
    names = {(it["by"], it["no"]): it for it in audit["names"]}
    found = []
    for window in audit["windows"]:
        name = names[window["by"], window["no"]]
        asked = name["requests"][0]
        found.append(
            Grant(
                by=name["by"],
                no=name["no"],
                host=window["host"],
                runas=asked["runas"],
                first=seconds(window["from"]),
                last=seconds(window["until"]),
                ceiling=asked["ceiling"],
                commands=asked["cmnds"],
                revoked=counted(name, "revoke"),
            )
        )
    return found


def counted(name: dict[str, Any], kind: str) -> int | None:
    """The first moment of a verdict of this kind that counts; None where none does."""
    verdicts = [it["verdict"] for it in name["verdicts"] if it["counts"]]
    return min((seconds(it["at"]) for it in verdicts if it["kind"] == kind), default=None)


class Revoked(NamedTuple):
    """A window on one host that was approved and then revoked, also one revoked before it began: a
    host that has not fetched since still allows it until `until`."""

    by: str
    no: int
    host: str
    runas: str
    commands: list[str]
    first: int
    at: int
    until: int
    status: str


def revoked_of(audit: dict[str, Any]) -> list[Revoked]:
    """The windows that were approved and then revoked. They are made from the requests, since a
    grant that was revoked before it began has no window in the audit."""
    found = []
    for name in audit["names"]:
        if name["status"] not in GIVEN or (at := counted(name, "revoke")) is None:
            continue
        asked, approved = name["requests"][0], counted(name, "approve")
        until = seconds(asked["until"])
        # (one that was approved too late was on no host)
        if approved is not None and approved <= until:
            row = asked["runas"], asked["cmnds"], seconds(asked["from"]), at, until, name["status"]
            found += [Revoked(name["by"], name["no"], host, *row) for host in asked["hosts"]]
    return found


class Done(NamedTuple):
    """What ran, whatever log has it."""

    host: str
    user: str
    target: str
    beside: str
    path: str
    args: tuple[str, ...]

    @property
    def shown(self) -> str:
        """The command as sudo writes it, with nothing that a terminal obeys."""
        return " ".join([escaped(self.path), *map(quoted, self.args)])

    @property
    def invocation(self) -> Invocation:
        return Invocation(self.user, self.host, self.target, self.path, self.args)


def escaped(text: str) -> str:
    if text.isprintable():
        return text
    return visible(CONTROL.sub(lambda it: f"#0{ord(it[0]):o}", text))


def quoted(word: str) -> str:
    text = escaped(word.translate(QUOTES))
    return f"'{text}'" if " " in text else text


def done_of(run: Run) -> Done:
    if isinstance(run.command, tuple):
        path, *args = run.command
        return Done(run.host, run.user, run.target, run.beside, path, tuple(args))
    path, _, _ = run.command.partition(" ")
    words = [
        QUOTED.sub(r"\1", it[1] if it[1] is not None else it[2])
        for it in WORD.finditer(run.command, len(path))
    ]
    return Done(run.host, run.user, run.target, run.beside, path, tuple(words))


def runs_of(logs: Logs) -> dict[Done, Moments]:
    """What ran, in the order of its words, with the moments in their order."""
    without_exits(logs)
    merged: dict[Done, Moments] = {}
    for run, moments in logs.runs.items():
        merged.setdefault(done_of(Run(*run)), array("q")).extend(moments)
    return {done: array("q", sorted(merged[done])) for done in sorted(merged)}


class Row(NamedTuple):
    """Runs of one command on one ground."""

    done: Done
    ground: str  # grant, base, root or neither
    grants: tuple[Grant, ...]
    why: str
    moments: list[int]


class Late(NamedTuple):
    """What ran after a grant was revoked that would have covered it."""

    grant: Revoked
    done: Done
    moments: list[int]


class Span(NamedTuple):
    first: int
    last: int


@dataclass
class Use:
    """The runs of the logs, and the grants that they are held against."""

    desk: Desk
    base: Policy
    grants: list[Grant]
    revoked: list[Revoked]
    skew: int
    done: dict[Done, Moments] = field(default_factory=dict)
    rows: list[Row] = field(default_factory=list)
    late: list[Late] = field(default_factory=list)
    # the commands of a grant that cover a run, and the grants of a user, host and target
    covered: dict[tuple[Done, int], list[str]] = field(default_factory=dict)
    places: dict[tuple[str, str, str], list[int]] = field(default_factory=dict)

    def take(self, runs: dict[Done, Moments], spans: dict[str, tuple[int, int]], span: Span) -> None:
        """The runs of the span; each host's log has a time of its own."""
        for done, moments in runs.items():
            first, last = bisect_left(moments, span.first), bisect_right(moments, span.last)
            if first < last:
                self.done[done] = moments[first:last]
        for grant in self.grants:
            begin, end = spans.get(grant.host, (1, 0))
            grant.is_logged = begin <= grant.last and grant.first <= end

    def judge(self) -> None:
        self.cover()
        left: list[tuple[Done, list[int]]] = []
        for done, moments in self.done.items():
            if done.user == "root":
                self.rows.append(Row(done, "root", (), "", list(moments)))
                continue
            rest = self.by_grants(done, moments)
            if rest:
                left.append((done, rest))
        self.otherwise(left)
        self.after_revocations()

    # ---- grants

    def granted(self, commands: Iterable[str], done: Done) -> Question:
        text = "".join(f"asker host = (target) {it}\n" for it in commands)
        asked = ASKER._replace(path=done.path, args=done.args)
        return Question(self.desk.policy(text), ANY_TIME, asked)

    def cover(self) -> None:
        """Which commands of which grants cover what ran. Each grant is asked about as a whole
        first, and its single commands only where the whole covers the run."""
        for place, grant in enumerate(self.grants):
            self.places.setdefault((grant.by, grant.host, grant.runas), []).append(place)
        pairs = [
            (done, place)
            for done in self.done
            if not done.beside
            for place in self.places.get((done.user, done.host, done.target), ())
        ]
        whole = (self.granted(self.grants[it].commands, done) for done, it in pairs)
        answers = self.desk.answers(whole)
        each = [
            (it, command)
            for it, is_covered in zip(pairs, answers, strict=True)
            if is_covered
            for command in self.grants[it[1]].commands
        ]
        answers = self.desk.answers(self.granted([command], it[0]) for it, command in each)
        for (it, command), is_covered in zip(each, answers, strict=True):
            if is_covered:
                self.covered.setdefault(it, []).append(command)

    def covering(self, done: Done) -> list[tuple[Grant, list[str]]]:
        places = self.places.get((done.user, done.host, done.target), ())
        return [
            (self.grants[place], self.covered[done, place])
            for place in places
            if (done, place) in self.covered
        ]

    def by_grants(self, done: Done, moments: Moments) -> list[int]:
        """Counts the runs at moments that a grant covers; the answer is the other moments."""
        covering = self.covering(done)
        if not covering:
            return list(moments)
        by: dict[tuple[int, ...], list[int]] = {}
        for at in moments:
            places = [it for it, (grant, _) in enumerate(covering) if is_in(grant, at, 0)]
            if not places:
                near = enumerate(covering)
                places = [it for it, (grant, _) in near if is_in(grant, at, self.skew)]
            by.setdefault(tuple(places), []).append(at)
        for within, found in by.items():
            for grant, commands in (covering[it] for it in within):
                grant.moments += found
                for command in commands:
                    grant.used.setdefault(command, []).extend(found)
                    grant.ran.setdefault(command, set()).add(done.path)
                    grant.seen.setdefault(command, set()).add((done.path, *done.args))
            if within:
                grants = tuple(covering[it][0] for it in within)
                self.rows.append(Row(done, "grant", grants, "", found))
        return by.get((), [])

    def after_revocations(self) -> None:
        """Finds the runs after a revocation that the revoked grant would have covered, also outside
        of the time that is asked about."""
        by: dict[tuple[str, str, str], list[Revoked]] = {}
        for it in self.revoked:
            by.setdefault((it.by, it.host, it.runas), []).append(it)
        found = [
            Late(it, done, late)
            for done, moments in self.done.items()
            if not done.beside
            for it in by.get((done.user, done.host, done.target), ())
            if (late := self.since(it, moments))
        ]
        answers = self.desk.answers(self.granted(it.grant.commands, it.done) for it in found)
        self.late += [it for it, is_covered in zip(found, answers, strict=True) if is_covered]

    def since(self, grant: Revoked, moments: Moments) -> list[int]:
        """The moments from the revocation, or from the window's beginning if that is later, to the
        window's end."""
        first = max(grant.at + self.skew, grant.first)
        return list(moments[bisect_left(moments, first) : bisect_right(moments, grant.until)])

    # ---- the base

    def of_base(self, done: Done, moments: list[int]) -> Iterator[tuple[Question, list[int]]]:
        """A question for each period in which the base decides alike, and the moments in it."""
        if done.beside:
            return
        if not self.base.bounds:
            yield Question(self.base, stamp_of(moments[0]), done.invocation), moments
            return
        periods: dict[int, list[int]] = {}
        for at in moments:
            periods.setdefault(self.base.period(stamp_of(at)), []).append(at)
        for found in periods.values():
            yield Question(self.base, stamp_of(found[0]), done.invocation), found

    def otherwise(self, left: list[tuple[Done, list[int]]]) -> None:
        """By the base, or by neither."""
        asked = [
            (done, it, found)
            for done, rest in left
            for it, found in self.of_base(done, rest)
        ]
        allowed: dict[Done, list[int]] = {}
        answers = self.desk.answers(it for _, it, _ in asked)
        for (done, _, found), is_allowed in zip(asked, answers, strict=True):
            if is_allowed:
                allowed.setdefault(done, []).extend(found)
        for done, rest in left:
            found = sorted(allowed.get(done, ()))
            if found:
                self.rows.append(Row(done, "base", (), "", found))
            self.neither(done, rest, set(found))

    def neither(self, done: Done, moments: list[int], allowed: set[int]) -> None:
        reasons: dict[str, list[int]] = {}
        for at in moments:
            if at not in allowed:
                reasons.setdefault(self.why(done, at), []).append(at)
        for why, found in reasons.items():
            self.rows.append(Row(done, "neither", (), why, found))

    def why(self, done: Done, at: int) -> str:
        """Why no grant covers a run: the grant that was over, or that had not begun; nothing where
        there is none."""
        if done.beside:
            return f"no grant and no base gives {escaped(done.beside)}"
        covering = [grant for grant, _ in self.covering(done)]
        ended = [it for it in covering if it.last < at]
        if ended:
            return f"{max(ended, key=lambda it: it.last).name} was over"
        coming = [it for it in covering if at < it.first]
        if coming:
            return f"{min(coming, key=lambda it: it.first).name} had not begun"
        return ""


def is_in(grant: Grant, at: int, skew: int) -> bool:
    return grant.first - skew <= at <= grant.last + skew
