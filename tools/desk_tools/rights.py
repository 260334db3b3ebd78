"""Who may do what by a base alone, at a moment: for each user, host and target everything, or the
list of commands; without a password or with one; by which rules; and since which base.

The program `desk beyond`, which is proved, decides each of these: a right is in the base if the
policy of that right alone, at that moment, allows nothing beyond the base; a list is whole if the
base, at that moment, allows nothing beyond the list.
"""

import os
from collections.abc import Iterable, Iterator
from concurrent.futures import ThreadPoolExecutor
from itertools import product
from threading import Lock
from typing import NamedTuple

from desk_tools.decisions import UNKNOWN, Desk
from desk_tools.judge import NoDesk
from desk_tools.site import command, lies_inside
from desk_tools.warnings import risk
from desk_tools.written_out import Rule, Written
from steelnewt_client.moments import seconds, stamp_of

EVERYTHING = "EVERYTHING"
# whoever the base does not name
OTHERS = "*"
FIRST, LAST = "19700101000000Z", "20991231235959Z"


class Place(NamedTuple):
    """Who runs something where, and as whom."""

    user: str
    host: str
    target: str

    @property
    def shown(self) -> tuple[str, str]:
        return self.user, self.target


class Right(NamedTuple):
    """A right that a base gives in a place. `more` is a case that no command of the list covers,
    and then the list is not whole."""

    place: Place
    command: str  # or EVERYTHING
    without: tuple[str, ...]  # the commands that EVERYTHING leaves out
    password: str  # yes, no, or some
    since: str
    is_before: bool  # it may be older: no base is kept from before `since`
    until: str  # the end that its rules have, if all of them have one
    rules: tuple[str, ...]
    why: str  # how it gives more than its words
    more: str = ""

    def of(self, first: Place, place: Place, shown: Place) -> "Right":
        """The same right in a place that the base does not tell apart from the first."""
        begin, more = f"{' '.join(first)} ", self.more
        if more.startswith(begin):
            more = f"{' '.join(place)} {more.removeprefix(begin)}"
        return self._replace(place=shown, more=more)

    @property
    def more_said(self) -> str:
        """The case in words; a code where it is not known whether there is more."""
        is_unknown = UNKNOWN.match(self.more) is not None
        return f"maybe more: {self.more}" if is_unknown else f"and more, such as {self.more}"


class Base(NamedTuple):
    """A base, since when until when it was in force, and its file."""

    since: str
    until: str
    path: str
    is_dated: bool = True


class Asked:
    """Asks `desk beyond`, once for each question, also from several threads."""

    def __init__(self, desk: Desk) -> None:
        self.desk, self.lock = desk, Lock()
        self.known: dict[tuple[str, str, tuple[str, ...]], str] = {}
        self.unknown: set[str] = set()

    def path(self, text: str) -> str:
        with self.lock:
            return self.desk.policy(text).path

    def case(self, one: str, other: str, place: tuple[str, ...] = ()) -> str:
        """One case that a policy allows beyond another, or nothing."""
        key = (self.path(one), self.path(other), place)
        if key not in self.known:
            options = zip(("--user", "--host", "--runas"), place)
            words = [word for pair in options for word in pair]
            ran = self.desk.run("beyond", *key[:2], *words)
            if ran.returncode == 2 and UNKNOWN.match(ran.stderr):
                # (there are too many cases: whatever it gives, it is not said to give all of it)
                self.unknown.add(ran.stderr.strip())
                self.known[key] = ran.stderr.strip()
            elif ran.returncode in (0, 1):
                self.known[key] = ran.stdout.strip() if ran.returncode else ""
            else:
                raise NoDesk(f"desk beyond: {ran.stderr.strip()}")
        return self.known[key]


def denials(at: str) -> str:
    """Rules that deny everything at all moments but one."""
    before = "" if at == FIRST else f"NOTAFTER={stamp_of(seconds(at) - 1)}"
    after = "" if at == LAST else f"NOTBEFORE={stamp_of(seconds(at) + 1)}"
    return "".join(f"ALL ALL = (ALL) {it} !ALL\n" for it in (before, after) if it)


class Standing:
    """A base at a moment, and the bases before it."""

    def __init__(self, desk: Desk, bases: list[Base], at: str) -> None:
        self.asked, self.at, self.bases = Asked(desk), at, bases
        self.text = desk.canonical(bases[-1].path)
        self.written = Written(self.text)
        # (a policy may name nobody: a name that no base has stands for all of these)
        self.other = self.written.other()
        self.now = self.text + denials(at)
        self.older = [desk.canonical(it.path) for it in bases[:-1]]
        self.check()

    def check(self) -> None:
        """The base as it was written out decides as the base does, at this moment: user by user,
        for which there are fewer cases."""
        same = self.written.policy(it.text() for it in self.written.rules) + denials(self.at)
        with ThreadPoolExecutor(os.cpu_count()) as pool:
            users = [it[0] for it in self.alike("User")]
            pairs = [(one, (user,)) for user in users for one in (same, self.now)]
            others = {same: self.now, self.now: same}
            found = pool.map(lambda it: self.asked.case(it[0], others[it[0]], it[1]), pairs)
            for (_, (user,)), case in zip(pairs, found):
                if case:
                    raise NoDesk(f"what the base gives {user} is not known: {case}")

    def alone(self, place: Place, commands: Iterable[str], at: str = "") -> str:
        """The policy that gives some commands in a place at a moment, and nothing else."""
        at = at or self.at
        head = f"{place.user} {place.host} = ({place.target}) NOTBEFORE={at} NOTAFTER={at}"
        return "".join(f"{head} {it}\n" for it in commands)

    # ---- the places

    def alike(self, kind: str, only: str = "") -> list[list[str]]:
        """The names of a kind, those together that the base does not tell apart, and what stands
        for all others; or one name alone."""
        if only:
            return [[only]]
        found = self.written.twins(kind)
        if kind == "Runas" and not any("root" in it for it in found):
            found.append(["root"])
        return sorted([*found, [self.other]], key=lambda it: (it == [self.other], it))

    def gives(self, *place: str) -> bool:
        """Whether the base gives something there."""
        if not self.written.speaking_of(*place):
            return False
        return self.asked.case(self.now, "", place) != ""

    def places(self, *alike: list[list[str]]) -> list[Place]:
        """The places in which the base gives something: of names that are alike, the first."""
        found: list[tuple[str, ...]] = [()]
        with ThreadPoolExecutor(os.cpu_count()) as pool:
            for groups in alike:
                wider = [(*it, group[0]) for it in found for group in groups]
                given = pool.map(lambda it: self.gives(*it), wider)
                found = [it for it, is_so in zip(wider, given) if is_so]
        return [Place(*it) for it in found]

    # ---- what a place has

    def has(self, place: Place, commands: Iterable[str]) -> bool:
        return not self.asked.case(self.alone(place, commands), self.text, place)

    def is_whole(self, place: Place, commands: list[str]) -> str:
        """A case that the base gives in a place beyond some commands, or nothing."""
        return self.asked.case(self.now, self.alone(place, commands), place)

    def lacks(self, place: Place, command: str) -> bool:
        """Whether the base gives nothing at all of a command there."""
        denied = f"{place.user} {place.host} = ({place.target}) !{command}\n"
        return not self.asked.case(self.now, self.now + denied, place)

    def rights(self, place: Place) -> list[Right]:
        """What the base gives in a place, as few words as can be."""
        if self.has(place, ["ALL"]):
            return [self.right(place, "ALL", ())]
        of_it = self.written.speaking_of(*place)
        named = dict.fromkeys(it.command for it in of_it if it.command != "ALL")
        found = widest([it for it in named if self.has(place, [it])])
        more = self.is_whole(place, found)
        if not more:
            return [self.right(place, it, ()) for it in found]
        without = tuple(it for it in named if self.lacks(place, it))
        if self.is_all_but(place, without):
            return [self.right(place, "ALL", without)]
        folders = self.folders(place, [it for it in named if it not in found], without)
        inside = [it for it in found if not any(is_inside(it, wide) for wide in folders)]
        words = [line for it, but in folders.items() for line in (it, *denied(but))]
        more = self.is_whole(place, [*words, *inside])
        rights = [self.right(place, it, but) for it, but in folders.items()]
        rights += [self.right(place, it, ()) for it in inside]
        if more:
            rules = self.rules(place, "ALL")
            rights.append(Right(place, "", (), "", "", False, "", rules, "", more))
        return rights

    def is_all_but(self, place: Place, without: tuple[str, ...]) -> bool:
        """Whether the base gives everything but some commands."""
        words = ["ALL", *denied(without)]
        return self.has(place, words) and not self.is_whole(place, words)

    def folders(
        self, place: Place, named: list[str], without: tuple[str, ...]
    ) -> dict[str, tuple[str, ...]]:
        """The folders of which the base gives all but some commands, with these."""
        found = {}
        for wide in (it for it in named if it.endswith("/") and it not in without):
            but = tuple(it for it in without if is_inside(it, wide))
            if but and self.has(place, [wide, *denied(but)]):
                found[wide] = but
        return found

    def right(self, place: Place, text: str, without: tuple[str, ...]) -> Right:
        all_of_it = [text, *denied(without)]
        since, is_before = self.since(place, all_of_it)
        lines = self.rules(place, text)
        of_them = [it for it in self.written.rules if it.line in lines and not it.is_denial]
        begins = min((it.first for it in of_them), default="")
        ends = [it.last for it in of_them]
        return Right(
            place,
            EVERYTHING if text == "ALL" else text,
            without,
            self.password(place, all_of_it),
            max(since, begins),
            is_before and begins <= since,
            "" if "" in ends else max(ends, default=""),
            lines,
            (risk(command(text)) or "") if text != "ALL" else "",
        )

    def password(self, place: Place, commands: list[str]) -> str:
        right = self.alone(place, commands)
        for word, is_free in (("no", True), ("yes", False)):
            if not self.asked.case(right, self.written.free(is_free), place):
                return word
        return "some"

    def rules(self, place: Place, text: str) -> tuple[str, ...]:
        """The lines that give a right: the last one that gives all of it by itself, or else each
        that gives something of it."""
        some = []
        for rule in reversed(self.written.speaking_of(*place)):
            if rule.is_denial or rule.line in some or not self.is_of(rule, place):
                continue
            given = self.written.policy([rule.text()])
            if not self.asked.case(self.alone(place, [text]), given, place):
                return (rule.line,)
            if text == "ALL" or not self.lacks_alone(given, place, text):
                some.append(rule.line)
        return tuple(reversed(some))

    def is_of(self, rule: Rule, place: Place) -> bool:
        given = self.written.policy([rule.text()]) + denials(self.at)
        return self.asked.case(given, "", place) != ""

    def lacks_alone(self, given: str, place: Place, text: str) -> bool:
        denied = f"{place.user} {place.host} = ({place.target}) !{text}\n"
        return not self.asked.case(given, given + denied, place)

    def since(self, place: Place, commands: list[str]) -> tuple[str, bool]:
        """Since which base a right has been there without a break, and whether it may be older."""
        since, is_before = self.bases[-1], True
        for base, text in zip(reversed(self.bases[:-1]), reversed(self.older)):
            right = self.alone(place, commands, base.until)
            if self.asked.case(right, text, place):
                is_before = False
                break
            since = base
        return (since.since if since.is_dated else ""), is_before

    def all(self, user: str = "", host: str = "", target: str = "") -> Iterator[Right]:
        """The rights of each place, in order; a name that stands for all others comes as `*`."""
        given = zip(("User", "Host", "Runas"), (user, host, target))
        alike = [self.alike(kind, only) for kind, only in given]
        places = self.places(*alike)
        with ThreadPoolExecutor(os.cpu_count()) as pool:
            rights = dict(zip(places, pool.map(self.rights, places)))
        # (what stands for all others is the last of each kind)
        firsts = [{name: it[0] for it in groups for name in it} for groups in alike]
        order = [sorted(it, key=lambda name: (name == self.other, name)) for it in firsts]
        for names in product(*order):
            first = Place(*(it[name] for it, name in zip(firsts, names)))
            for found in rights.get(first, ()):
                yield found.of(first, Place(*names), self.shown(Place(*names)))

    def shown(self, place: Place) -> Place:
        return Place(*(OTHERS if it == self.other else it for it in place))


def denied(commands: Iterable[str]) -> list[str]:
    return [f"!{it}" for it in commands]


def is_inside(text: str, wide: str) -> bool:
    return lies_inside(command(text), command(wide))


def widest(commands: list[str]) -> list[str]:
    """The commands without those that lie inside others of them."""
    return sorted(
        it
        for it in commands
        if not any(it != wide and is_inside(it, wide) for wide in commands)
    )
