"""What a person means by a host's short name or pattern, and under which ceiling they ask where
they name none. The desk's message has the whole names, which are shown before a yes."""

import argparse
import fnmatch
import re
from collections.abc import Sequence
from datetime import datetime, tzinfo

from steelnewt_client.messages import BadWord, Wish
from steelnewt_relay.admission import lies_inside, objections
from steelnewt_relay.roster import Ceiling, Roster
from steelnewt_relay.words import window_of

PATTERN = re.compile(r"[*?\[]")


def hosts_of(given: Sequence[str], offered: Sequence[str], numbered: bool = False) -> list[str]:
    """The hosts that words mean, of those that are offered. A word that means none stays: the check
    of a host's name says what is wrong with such a word."""
    found: list[str] = []
    for word in given:
        found += meant(word, list(offered), numbered)
    return list(dict.fromkeys(found))


def meant(word: str, offered: list[str], numbered: bool) -> list[str]:
    name = word.lower().partition(".")[0]
    if word in offered or name in offered:
        return [word if word in offered else name]
    if word == "all":
        return offered
    if numbered and re.fullmatch("[0-9]{1,3}", word):
        return offered[int(word) - 1 : int(word)] if int(word) else [word]
    if PATTERN.search(word):
        if not (found := fnmatch.filter(offered, word)):
            raise BadWord(f"no host is {word!r}: there are {', '.join(offered)}")
        return found
    begin = [it for it in offered if name and it.startswith(name)]
    if len(begin) > 1:
        raise BadWord(f"{word!r} may be {', '.join(begin)}: write {word}* for all of them")
    return begin or [word]


def typed_hosts(said: argparse.Namespace) -> list[str]:
    return [host for part in said.on for host in part.split(",")]


def wish_of(
    said: argparse.Namespace, roster: Roster, person: str, zone: tzinfo, at: datetime
) -> Wish:
    """What a person's words ask for."""
    window = window_of(said.begins, said.length, said.ends, zone, at)
    if said.ceiling is None:
        return fitting(said, roster, person, window, at)
    ceiling = roster.ceilings.get(said.ceiling)
    hosts = hosts_of(typed_hosts(said), ceiling.hosts if ceiling else roster.hosts)
    return Wish.of(said.ceiling, hosts, runas_of(said, ceiling), said.commands, window)


def runas_of(said: argparse.Namespace, ceiling: Ceiling | None) -> str:
    """As whom, where nobody says it: the one that there is, or root."""
    offered = ceiling.runas if ceiling else ()
    if said.runas:
        return str(said.runas)
    if len(offered) == 1 or "root" in offered:
        return offered[0] if len(offered) == 1 else "root"
    raise BadWord(f"say as whom: --as {' or '.join(offered) or 'root'}")


def fitting(
    said: argparse.Namespace, roster: Roster, person: str, window: tuple[str, str], at: datetime
) -> Wish:
    """The wish under the ceiling that covers it and needs the fewest approvals; if two do, under
    the narrower one."""
    tried: list[tuple[int, int, str, Wish, list[str]]] = []
    for ceiling in roster.may_ask(person, at):
        try:
            hosts = hosts_of(typed_hosts(said), ceiling.hosts)
            runas = runas_of(said, ceiling)
        except BadWord:
            continue
        wish = Wish.of(ceiling.label, hosts, runas, said.commands, window)
        wrong = objections(roster, person, wish, at)
        tried.append((ceiling.needs, len(ceiling.hosts), ceiling.label, wish, wrong))
    if fits := [it for it in tried if not it[4]]:
        return min(fits, key=lambda it: it[:3])[3]
    if not tried:
        raise BadWord("nothing that you may ask for covers that: 'ceilings' shows what there is")
    near = min(tried, key=lambda it: (len(it[4]), *it[:3]))
    raise BadWord(f"nothing that you may ask for covers that: {'; '.join(near[4])}")


def is_named(command: Sequence[str], ceilings: Sequence[Ceiling]) -> bool:
    """Whether a ceiling names the file of a command, or its directory (ALL names none)."""
    wide = [it for ceiling in ceilings for it in ceiling.commands if it != "ALL"]
    files = [it.partition(" ")[0] for it in wide]
    return any(lies_inside(command[0], it) for it in files)
