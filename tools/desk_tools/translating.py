"""The rules of a sudoers file in the words of a base.

A command of a rule is said just as sudo means it, or it is not said at all: then it stays on the
host, with the reason and the edit by which it could be said.
"""

import re
from collections.abc import Callable
from typing import Any

from desk_tools.command_words import any_arguments, command_words
from desk_tools.entries import Entry, Words
from desk_tools.hosts_meant import Hosts
from desk_tools.machine import Machine, Triple
from desk_tools.schema import has_form
from desk_tools.site import FIRST, LAST, command
from desk_tools.sudo_settings import OPTIONS, unsaid_tag
from desk_tools.sudo_text import shown, target_groups
from desk_tools.sudoers import ALIAS_KEYS, ALIASES, Place, Sudoers
from desk_tools.unsaid import Unsaid

USER, RUNAS, HOST, COMMAND = ALIASES
# what stands beside a command's options
SPECS = {"SELinux_Spec": "ROLE", "AppArmor_Spec": "APPARMOR_PROFILE", "Solaris_Priv_Spec": "PRIVS"}
# the bounds of a command, and on which side of the desk's time each is always met
MOST_MEANT = 131_072  # words of an alias, with those that it names written out (S10)
BOUNDS = {"notbefore": -1, "notafter": 1}


class Translator:
    """Translates the rules of one file, of one host or of all."""

    def __init__(
        self, sudoers: Sudoers, machine: Machine, hosts: Hosts, drops_groups: bool = False
    ) -> None:
        self.sudoers, self.machine, self.hosts = sudoers, machine, hosts
        self.drops_groups = drops_groups
        self.aliases: dict[tuple[str, str], Words | Unsaid] = {}
        self.settings = [it for line in sudoers.defaults for it in line.settings]
        self.notes: list[tuple[Place, str]] = []
        names = {name for name, _ in self.settings}
        self.lists_all = machine.lists_all() and "group_plugin" not in names
        self.has_netgroups = ("use_netgroups", False) not in self.settings
        self.has_netgroups = self.has_netgroups and ("netgroup_tuple", True) not in self.settings

    def entries(self) -> list[Entry]:
        found = []
        for place, spec in self.sudoers.specs:
            for part in spec["Cmnd_Specs"]:
                for item in part["Commands"]:
                    entry = Entry(place, spec, part, item, bool(item.get("negated")))
                    self.translate(entry)
                    found.append(entry)
        return found

    def translate(self, entry: Entry) -> None:
        """(Each part is tried, also behind one that cannot be said: what it may mean is asked.)"""
        users, is_sure = entry.spec["User_List"], entry.is_denied
        parts: dict[str, Callable[[], Any]] = {
            "hosts": lambda: self.on_hosts(entry),
            "users": lambda: self.names(entry.place, USER, users, is_sure),
            "commands": lambda: self.commands(entry.place, [entry.item]),
            "targets": lambda: self.targets(entry),
            "marks": lambda: self.marks(entry),
        }
        for name, part in parts.items():
            try:
                setattr(entry, name, part())
            except Unsaid as why:
                entry.why = entry.why or why
            if entry.hosts is not None and not entry.hosts.words:
                entry.is_elsewhere = True
                return

    def on_hosts(self, entry: Entry) -> Words:
        """A rule's hosts; none where it is not for the host whose file it is."""
        held, one = entry.spec["Host_List"], self.hosts.one
        if one is None:
            return self.names(entry.place, HOST, held, entry.is_denied)
        return Words([one], [(False, one)]) if self.is_here(entry.place, held) else Words()

    def is_here(self, place: Place, held: list[dict[str, Any]]) -> bool | None:
        """What a list of hosts says of the file's own host: its last word; None for none."""
        for item in reversed(held):
            name, negated = item.get("hostalias"), bool(item.get("negated"))
            if name in self.sudoers.aliases[HOST]:
                said = self.is_here(*self.sudoers.aliases[HOST][name])
            else:
                said = self.hosts.is_meant(place, item, self.netgroup) or None
            if said is not None:
                return said != negated
        return None

    # ---- lists of users, targets and hosts

    def names(self, place: Place, kind: str, held: list[dict[str, Any]], is_sure: bool) -> Words:
        """A list, which has to mean just whom sudo means by it where it is sure; else it may leave
        somebody out."""
        found = Words()
        for item in held:
            negated = bool(item.get("negated"))
            alias = item.get(ALIAS_KEYS[kind])
            if alias in self.sudoers.aliases[kind]:
                words = self.alias(kind, alias)
                found.add(negated, alias, words.meant)
                is_narrow = words.is_narrow
            else:
                names, is_narrow = self.item(place, kind, item)
                for name in names:
                    found.add(negated, name)
            if is_narrow and (negated or is_sure):
                raise Unsaid(place, shown(item), "unsure group")
            found.is_narrow = found.is_narrow or is_narrow
        if not found.words:
            raise Unsaid(place, ", ".join(map(shown, held)), "nobody")
        return found

    def alias(self, kind: str, name: str) -> Words:
        """The list of an alias, which is said whole or not at all."""
        if (kind, name) not in self.aliases:
            place, held = self.sudoers.aliases[kind][name]
            try:
                if kind == COMMAND:
                    self.aliases[kind, name] = self.commands(place, held)
                else:
                    self.aliases[kind, name] = self.names(place, kind, held, False)
            except Unsaid as why:
                self.aliases[kind, name] = why
            if len(getattr(self.aliases[kind, name], "meant", ())) > MOST_MEANT:
                self.aliases[kind, name] = Unsaid(place, name, "large")
        found = self.aliases[kind, name]
        if isinstance(found, Unsaid):
            raise found
        return found

    def item(self, place: Place, kind: str, item: dict[str, Any]) -> tuple[list[str], bool]:
        """The names that an item stands for, and whether there may be more."""
        if kind == HOST:
            return self.hosts.names(place, item, self.netgroup), False
        key, value = next((key, str(it)) for key, it in item.items() if key != "negated")
        if key == "username":
            if value != "ALL" and not has_form(value, "name"):
                raise Unsaid(place, shown(item), "name" if value else "no name")
            return [value], False
        if key == "netgroup":
            rows = self.netgroup(place, value)
            return ["ALL" if not row.user else row.user for row in rows if row.user != "-"], False
        if key == "userid":
            names = self.machine.users(value) or None
        elif key in ("usergroup", "usergid"):
            by_name = key == "usergroup" and not re.fullmatch(r"#[0-9]+", value)
            names = self.machine.members(*((value, None) if by_name else (None, value.lstrip("#"))))
        else:
            raise Unsaid(place, shown(item), "plugin" if key.startswith("nonunix") else "no alias")
        if names is None:
            raise Unsaid(place, shown(item), "no group")
        if not all(has_form(name, "name") for name in names):
            raise Unsaid(place, shown(item), "name")
        said = f"{shown(item).lstrip('!')} is {', '.join(names) or 'nobody'} now"
        said += ": who joins later is not in the base"
        if said not in (it for _, it in self.notes):  # (once, at its first rule)
            self.note(place, said)
        return names, not self.lists_all

    def netgroup(self, place: Place, name: str) -> list[Triple]:
        found = self.machine.netgroup(name) if self.has_netgroups else None
        if not found or any(row.domain for row in found):
            raise Unsaid(place, f"+{name}", "netgroup")
        return found

    def targets(self, entry: Entry) -> Words:
        users, groups = entry.part.get("runasusers"), entry.part.get("runasgroups")
        if groups is not None and not (users and self.drops(entry, groups)):
            raise Unsaid(entry.place, f"(.. : {target_groups(groups)})", "target group")
        if users is not None:
            found = self.names(entry.place, RUNAS, users, entry.is_denied)
            return Words(found.words, found.meant, found.is_narrow or groups is not None)
        target = self.target(entry.place)
        return Words([target], [(False, target)])

    def drops(self, entry: Entry, groups: list[dict[str, Any]]) -> bool:
        """Whether groups as targets may be left out: they only allow more, and it is asked for."""
        is_more = not any("negated" in it or "runasalias" in it for it in groups)
        return self.drops_groups and is_more and not entry.is_denied

    def target(self, place: Place) -> str:
        """The target of a rule that names none."""
        target = "root"
        for line in self.sudoers.defaults:
            for name, value in line.settings:
                if name == "runas_default":
                    if line.is_scoped or not isinstance(value, str) or not has_form(value, "name"):
                        raise Unsaid(place, line.text, "runas_default")
                    target = value
        return target

    # ---- commands

    def commands(self, place: Place, held: list[dict[str, Any]]) -> Words:
        found = Words()
        for item in held:
            negated, name = bool(item.get("negated")), item.get("cmndalias")
            if name is None:
                found.add(negated, self.by_its_own_name(place, command_words(place, item)))
                if program := any_arguments(item):
                    said = (
                        f"{shown(item)} is {program} in the base: sudo takes both for any arguments"
                    )
                    self.note(place, said)
            elif name in self.sudoers.aliases[COMMAND]:
                found.add(negated, name, self.alias(COMMAND, name).meant)
            else:
                raise Unsaid(place, name, "no alias")
        return found

    def by_its_own_name(self, place: Place, words: str) -> str:
        """A program's path below /usr where its folder is a link into that: sudo compares what they
        are. (Other hosts than the file's own may have two folders.)"""
        folder = self.machine.linked(words) if self.hosts.one else None
        is_file = command(words).kind == "file" and has_form(f"/usr{words}", "command")
        if folder is None or not is_file:
            return words
        said = f"{words} is /usr{words} in the base: {folder} is a link to /usr{folder} here"
        self.note(place, said)
        return f"/usr{words}"

    def marks(self, entry: Entry) -> str:
        """The bounds of a command, and NOPASSWD, if no other tag or option of it counts."""
        is_all = entry.item.get("command") == "ALL"
        found: dict[str, str] = {}
        for name, tag in SPECS.items():
            if entry.part.get(name):
                raise Unsaid(entry.place, tag, tag)
        for option in entry.part.get("Options", []):
            for key, value in option.items():
                if key in OPTIONS:
                    raise Unsaid(entry.place, f"{OPTIONS[key]}={value}", OPTIONS[key])
                if key in BOUNDS:
                    found |= self.bound(entry.place, key, value)
                elif unsaid := unsaid_tag(key, value, self.settings, is_all):
                    raise Unsaid(entry.place, unsaid, unsaid)
                elif key == "authenticate" and not value:
                    found[key] = "NOPASSWD:"
        return " ".join(found[key] for key in (*BOUNDS, "authenticate") if key in found)

    def bound(self, place: Place, key: str, moment: str) -> dict[str, str]:
        """A bound; none where it is always met in the desk's time."""
        year = int(moment[: -len("0105093000Z")])
        side = (year > int(LAST[:4])) - (year < int(FIRST[:4]))
        if side and side != BOUNDS[key]:
            raise Unsaid(place, f"{key.upper()}={moment}", "never")
        return {} if side else {key: f"{key.upper()}={moment}"}

    def note(self, place: Place, said: str) -> None:
        if (place, said) not in self.notes:
            self.notes.append((place, said))
