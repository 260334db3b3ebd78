"""What became of each rule of a file, by the base that was made of it."""

from collections import Counter

from desk_tools.entries import Entry
from desk_tools.site import command
from desk_tools.site_base import Base, Kept
from desk_tools.sudo_settings import effect_of
from desk_tools.sudoers import Place, Sudoers
from desk_tools.warnings import risk

EVERYTHING = "it is everything"
EFFECTS = {
    "tightens": "it holds back what the base's rules give too",
    "loosens": "it lets the base's rules give more",
    "neither": "it changes no right",
}


class Verdicts:
    """The verdicts on one file's rules. What is not in the base stays on the host, where there is a
    file of what stays, and is lost where there is none."""

    def __init__(self, sudoers: Sudoers, entries: list[Entry], stays: bool) -> None:
        self.sudoers, self.stays = sudoers, stays
        self.rules: dict[Place, list[Entry]] = {}
        for entry in entries:
            self.rules.setdefault(entry.place, []).append(entry)
        self.count = Counter(self.verdict(held) for held in self.rules.values())

    @staticmethod
    def verdict(held: list[Entry]) -> str:
        here = [it for it in held if not it.is_elsewhere]
        if not here:
            return "not for this host"
        kept = sum(it.is_kept() for it in here)
        if any(it.is_kept() and it.leaves_out() for it in here):
            return "in part"
        return "kept" if kept == len(here) else "in part" if kept else "gone"

    def lines(self, notes: list[tuple[Place, str]]) -> list[str]:
        """Each in the order of the file: its verdict, and why."""
        said: dict[Place, list[str]] = {
            place: self.of_rule(place, held) for place, held in self.rules.items()
        }
        for line in self.sudoers.defaults:
            effects = {effect_of(name, value) for name, value in line.settings}
            effect = next((it for it in EFFECTS if it in effects), "neither")
            text = f"{line.place}: stays on the host: {line.text}: {EFFECTS[effect]}"
            said.setdefault(line.place, []).append(text)
        for place, folder in self.sudoers.missing:
            text = f"{place}: note: {folder}: there is no such directory, and sudo passes over it"
            said.setdefault(place, []).append(text)
        for place, note in notes:
            said.setdefault(place, []).append(f"{place}: note: {note}")
        order = {place: number for number, place in enumerate(self.sudoers.texts)}
        return [
            line for place in sorted(said, key=lambda it: order.get(it, -1)) for line in said[place]
        ]

    def of_rule(self, place: Place, held: list[Entry]) -> list[str]:
        verdict = self.verdict(held)
        found = [f"{place}: {verdict}: {' '.join(self.sudoers.texts[place].split())}"]
        reasons: dict[str, list[str]] = {}
        for entry in held:
            if not entry.is_kept() and not entry.is_elsewhere:
                reasons.setdefault(self.why(entry), []).append(entry.text())
        if any(it.is_kept() and it.leaves_out() for it in held):
            said = "    note: whoever is not listed, and each target group, is not in the base"
            found.append(said)
        kind = "stays on the host" if self.stays else "lost"
        texts = (f"{', '.join(dict.fromkeys(items))}: {why}" for why, items in reasons.items())
        return [*found, *(f"    {kind}: {text}" for text in texts)]

    def why(self, entry: Entry) -> str:
        if entry.because is not None:
            line = self.said(entry.because.place, entry.place)
            line = entry.because.text() if entry.because.place == entry.place else line
            return (
                f"because of {line}, which is not in the base and says something else of the same"
            )
        assert entry.why is not None
        if entry.why.place != entry.place:
            return f"because of {self.said(entry.why.place, entry.place)}: {entry.why}"
        text = str(entry.why)
        return text.removeprefix(f"{entry.text().lstrip('!')}: ").removeprefix(f"{entry.text()}: ")

    @staticmethod
    def said(place: Place, other: Place) -> str:
        return f"line {place.line}" if place.file == other.file else str(place)

    def has_lost(self) -> bool:
        entries = [it for held in self.rules.values() for it in held]
        return not self.stays and not all(it.is_kept() or it.is_elsewhere for it in entries)


def standing_root(base: Base) -> list[str]:
    """What the base gives at all times that is as good as root."""
    return [
        f"standing root: {held.line()}: {why}" for held in base.kept if (why := gives_all(held))
    ]


def gives_all(held: Kept) -> str | None:
    """Why a rule makes its user root; None where it does not, or where root is meant alone."""
    users, targets, commands = held.entry.users, held.entry.targets, held.entry.commands
    assert users and targets and commands
    names = targets.named()
    if (
        held.entry.is_denied
        or users.named() == frozenset(["root"])
        or names is not None
        and "root" not in names
    ):
        return None
    texts = [text for negated, text in commands.meant if not negated]
    if "ALL" in texts:
        return EVERYTHING
    return next((why for text in texts if (why := risk(command(text)))), None)


def differences(base: Base, hosts: list[str]) -> list[str]:
    """What is not the same on all hosts."""
    found = [
        f"only on {', '.join(held.hosts)}: {held.rule.users} .. = {held.rule.rest}"
        for held in base.kept
        if len(held.hosts) < len(hosts)
    ]
    found += [
        f"the alias {name} of {host} is {new} in the base"
        for host, name, new in base.renamed
        if host
    ]
    return found if len(hosts) > 1 else []
