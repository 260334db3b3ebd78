"""A request in one line, in the relay's own words: who, as whom, where, what reaches widest, and
for how long. Whoever says yes to it has read at least that."""

from collections.abc import Sequence
from datetime import datetime, timedelta

from steelnewt_client.letters import plain
from steelnewt_client.messages import Wish
from steelnewt_client.moments import of_stamp
from steelnewt_relay.moments import as_asked, spoken
from steelnewt_relay.reasons import Reason
from steelnewt_relay.words import unescaped

# hosts, or commands; characters of a command, and of a reason in a subject
MOST_NAMED, LONGEST, MOST_WHY = 3, 48, 80
# (of those that reach alike these come first, under whatever path)
SHELLS = frozenset("sh bash dash zsh ksh mksh fish csh tcsh rbash busybox su sudo env".split())


def reach(command: str) -> int:
    """How far a command goes by the rules of sudoers(5); 0 is the widest: everything, each
    file of a directory, a file with any arguments, or with these alone."""
    path, _, arguments = command.partition(" ")
    if path == "ALL":
        return 0
    if path.endswith("/"):
        return 1
    return 3 if arguments else 2


def by_reach(commands: Sequence[str]) -> list[str]:
    """Commands, the widest first."""

    def key(command: str) -> tuple[int, bool, str]:
        name = command.partition(" ")[0].rpartition("/")[2]
        return reach(command), name not in SHELLS, command

    return sorted(commands, key=key)


def reached(command: str) -> str:
    """A command, with what it allows beyond its words."""
    beyond = ("", " (any file in it)", " (any arguments)", "")[reach(command)]
    command = unescaped(command)
    is_long = len(command) > LONGEST
    return (command[: LONGEST - 1] + "…" if is_long else command) + beyond


def few(words: Sequence[str], most: int = MOST_NAMED) -> str:
    """The first words, and how many more there are."""
    left = len(words) - most
    return ", ".join(words[:most]) + (f" and {left} more" if left > 0 else "")


def summed_up(by: str, wish: Wish) -> str:
    """A request in one line."""
    listed = by_reach(wish.commands)
    widest = [reached(it) for it in listed if reach(it) == reach(listed[0])]
    said = f"{len(listed)} commands, widest " if len(listed) > 1 else ""
    who = f"{by} as {wish.runas} on {few(wish.hosts)}"
    return f"{who}: {said}{few(widest)}, for {spoken(as_asked(wish.length()))}"


def headline(by: str, wish: Wish, reason: Reason) -> str:
    """Who wants to be whom, where and how long, and why, as a subject has it: one line."""
    length = spoken(as_asked(wish.length()))
    why = plain(reason.why)
    why = f": {why[: MOST_WHY - 1]}…" if len(why) > MOST_WHY else f": {why}" if why else ""
    ticket = f" ({plain(reason.ticket)})" if reason.ticket else ""
    return f"{by}: {wish.runas} on {few(wish.hosts)}, {length}{why}{ticket}"


def left_of_window(wish: Wish, now: datetime) -> str:
    """How much is left of a window that began before enough people had approved; empty where it is
    whole, or over."""
    whole = as_asked(wish.length())
    left = of_stamp(wish.ends) - max(now, of_stamp(wish.begins))
    if left < timedelta(0) or whole - left < timedelta(minutes=1):
        return ""
    return f"{minutes(left)} of the {minutes(whole)} minutes are left"


def minutes(length: timedelta) -> int:
    return int(length.total_seconds()) // 60
