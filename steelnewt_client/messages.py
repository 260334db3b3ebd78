"""Messages to the desk: requests and verdicts, each as its one canonical text."""

import json
import re
from collections.abc import Collection, Sequence
from dataclasses import dataclass, replace
from datetime import datetime, timedelta
from functools import lru_cache
from json.encoder import encode_basestring as quoted  # type: ignore[attr-defined]
from typing import Any

from steelnewt_client.moments import of_stamp, stamp
from steelnewt_client.names import KEPT_BY_SUDO, LABEL, PERSON

FORMS = {
    "person": (PERSON, "a name such as ann"),
    "target": (PERSON, "a user's name such as root"),
    "host": (LABEL, "a host's name such as db1"),
    "ceiling": (LABEL, "a label such as db-care"),
}
FILE = r"(/(?!\.{1,2}(/|$))[A-Za-z0-9._+-]+)+/?"
ARGUMENT = r"[A-Za-z0-9._/+@%,:=-]{1,64}"
# What the desk takes: bytes of a message, of a command and of its file; how many there may be.
MOST_BYTES, MOST_COMMAND, MOST_FILE = 16_384, 1_024, 255
MOST_HOSTS, MOST_COMMANDS, MOST_ARGUMENTS = 16, 16, 16
# How long somebody may look at a request before they say yes, and it is still taken for the same.
LOOKED = timedelta(minutes=2)
VERDICTS = ("approve", "refuse", "revoke")
# What takes a right away, or keeps one from being given. (No text within a message has a quote that
# is not escaped.)
TAKES_AWAY = re.compile(rb'"kind":"(refuse|revoke)"')
CANONICAL = json.JSONEncoder(sort_keys=True, separators=(",", ":"), ensure_ascii=False)
PLAIN = {str, int}  # (no bool)


class BadWord(ValueError):
    """A word that no message can hold."""


def canonical(message: object) -> str:
    """The one text of a message: members in order, no blanks, and no escape that is not needed."""
    if isinstance(message, dict) and {type(it) for it in message.values()} <= PLAIN:
        return plain(message)
    return CANONICAL.encode(message)


def plain(message: dict[str, object]) -> str:
    """The same of a message whose members are texts and whole numbers, in a third of the time."""
    members = [
        f"{quoted(name)}:{quoted(it) if isinstance(it, str) else it}"
        for name, it in sorted(message.items())
    ]
    return f"{{{','.join(members)}}}"


def checked(kind: str, word: str) -> str:
    """The word, which has the form of its kind. Whether the roster knows it, the desk says."""
    form, example = FORMS[kind]
    if not re.fullmatch(form, word):
        raise BadWord(f"{word!r} is no {kind}: write {example}")
    if kind != "ceiling" and word in KEPT_BY_SUDO:
        raise BadWord(f"{word!r} is no {kind}: sudo keeps that word for itself")
    return word


def few(what: str, words: Collection[str], most: int) -> tuple[str, ...]:
    """The words in the order that a message wants, each once, where the desk takes so many."""
    found = tuple(sorted(set(words)))
    if len(found) > most:
        raise BadWord(f"{len(found)} {what} are more than a request may have: {most}")
    return found


def number_of(word: str) -> int:
    if not re.fullmatch(r"0|[1-9][0-9]{0,8}", word):
        raise BadWord(f"{word!r} is no request's number: write it as 7")
    return int(word)


def command_of(words: Sequence[str]) -> str:
    """A command as a policy writes it, from the words that a person would type."""
    file, *arguments = words or [""]
    if file != "ALL" and (not re.fullmatch(FILE, file) or len(file) > MOST_FILE):
        raise BadWord(f"{file!r} is no command: write its whole path, such as /usr/bin/id")
    if file.endswith("/sudoedit"):
        raise BadWord(f"{file!r} is no command: sudo would take it for its own of that name")
    if arguments == [""]:
        return f'{file} ""'
    if arguments and (file == "ALL" or file.endswith("/")):
        raise BadWord(f"{file!r} takes no arguments: name a file")
    for word in arguments:
        if not re.fullmatch(ARGUMENT, word):
            raise BadWord(f"{word!r} is no argument that the desk can grant: {ARGUMENT_HELP}")
    escaped = [re.sub(r"([,:=])", r"\\\1", word) for word in arguments]
    command = " ".join([file, *escaped])
    if len(arguments) > MOST_ARGUMENTS or len(command) > MOST_COMMAND:
        raise BadWord(
            f"{file} has more than {MOST_ARGUMENTS} arguments, or {MOST_COMMAND:,} bytes with them"
        )
    return command


ARGUMENT_HELP = "letters, digits and . _ / + - @ % , : = only, and at most 64 of them"


@dataclass(frozen=True)
class Wish:
    """What somebody asks for, before it has a number and a moment. Times are the desk's texts."""

    ceiling: str
    hosts: tuple[str, ...]
    runas: str
    commands: tuple[str, ...]
    begins: str
    ends: str

    @staticmethod
    def of(
        ceiling: str,
        hosts: Sequence[str],
        runas: str,
        commands: Sequence[str],
        window: tuple[str, str],
    ) -> "Wish":
        """A wish of words that were checked; lists in the order that a message wants."""
        return Wish(
            checked("ceiling", ceiling),
            few("hosts", [checked("host", host) for host in hosts], MOST_HOSTS),
            checked("target", runas),
            few("commands", commands, MOST_COMMANDS),
            *window,
        )

    def as_of(self, at: datetime) -> "Wish":
        """The same as it is sent, which may be a while after it was shown: a window that has begun
        meanwhile begins now, and it ends when it was shown to end."""
        if of_stamp(self.ends) < at:
            raise BadWord("the window that was shown is over: ask again")
        return replace(self, begins=max(self.begins, stamp(at)))

    def is_like(self, other: "Wish") -> bool:
        """Whether both ask for the same, until the same moment or for about as long."""
        is_same = replace(self, begins="", ends="") == replace(other, begins="", ends="")
        is_as_long = abs(self.length() - other.length()) <= LOOKED
        return is_same and (self.ends == other.ends or is_as_long)

    def length(self) -> timedelta:
        return of_stamp(self.ends) - of_stamp(self.begins)


@dataclass(frozen=True)
class Request:
    """A request for rights."""

    by: str
    no: int
    at: str
    wish: Wish

    def text(self) -> str:
        wish = self.wish
        return canonical(
            {
                "at": self.at,
                "by": self.by,
                "ceiling": wish.ceiling,
                "cmnds": list(wish.commands),
                "from": wish.begins,
                "hosts": list(wish.hosts),
                "kind": "request",
                "no": self.no,
                "runas": wish.runas,
                "until": wish.ends,
            }
        )


@dataclass(frozen=True)
class Verdict:
    """An approval, a refusal or a revocation of a request."""

    by: str
    kind: str
    of: str
    no: int
    at: str

    def text(self) -> str:
        return canonical(vars(self))


def measured(text: str) -> str:
    """A message's text, where the desk takes one of that length."""
    size = len(text.encode("utf-8"))
    if size > MOST_BYTES:
        raise BadWord(
            f"this would be a message of {size:,} bytes, and the desk takes {MOST_BYTES:,}:"
            " ask for it in several requests"
        )
    return text


@lru_cache(maxsize=16_384)
def read(text: str) -> Request | Verdict:
    """A message from its text, as it is written here."""
    found = json.loads(text)
    return request_of(found) if found["kind"] == "request" else verdict_of(found)


def verdict_of(found: dict[str, Any]) -> Verdict:
    """A verdict from its members. (Whatever a later version adds is not looked at.)"""
    return Verdict(found["by"], found["kind"], found["of"], found["no"], found["at"])


def request_of(found: dict[str, Any]) -> Request:
    """A request from its members."""
    wish = Wish(
        found["ceiling"],
        tuple(found["hosts"]),
        found["runas"],
        tuple(found["cmnds"]),
        found["from"],
        found["until"],
    )
    return Request(found["by"], found["no"], found["at"], wish)
