"""What a person typed, before it is a command: ssh takes one layer of quotes away, so a reason, a
time or a list may come in several words, and a path may be a reason's or a command's.

Nothing is guessed silently: where the words may mean two things, `Doubt` has both, and somebody is
asked. `--` says that the command begins behind it.
"""

import re
import shlex
from dataclasses import dataclass

VALUED = (
    "--on", "--as", "--for", "--until", "--from", "--why", "--ticket", "--once", "--zone", "--at",
    "--who", "--page",
)  # fmt: skip
OWN = (*VALUED[:9], "--yes", "--json", "--again", "--anyway", "--no-wait")
DAY = re.compile(r"today|tomorrow|in|[0-9]{4}-[0-9]{2}-[0-9]{2}")
SECOND = re.compile(r"[0-9]{1,2}:[0-9]{2}(:[0-9]{2})?Z?|[0-9]+[dhms][0-9dhms]*")
LENGTHS = {
    unit: letter
    for letter, named in (
        ("d", "d day days"), ("h", "h hour hours hrs"), ("m", "m min mins minute minutes"),
        ("s", "s sec secs second seconds"),
    )
    for unit in named.split()
}  # fmt: skip
QUOTES = "ssh takes one layer of quotes away, so write two (\"'..'\"), or use mydesk"


class BadWords(ValueError):
    """The words are no command."""


def split(line: str) -> list[str]:
    """The words of a line, quoted as a shell would have them. No shell reads it."""
    try:
        return shlex.split(line)
    except ValueError:
        raise BadWords(f"a quote has no other half: {QUOTES}") from None


def is_file(word: str) -> bool:
    """Whether a request's commands may begin here."""
    return word.startswith("/") or word == "ALL"


def own_option(word: str) -> str:
    """The option of the relay's own that a word is; empty where it is none."""
    name = word.partition("=")[0]
    return name if name in OWN else ""


@dataclass(frozen=True)
class Doubt:
    """A reason that runs into a path: its words so far, and the words from the first path on."""

    reason: str
    rest: tuple[str, ...]

    def readings(self) -> list[tuple[str, list[str]]]:
        """Each reason and command that the words can mean; the shortest reason first."""
        end = self.rest.index("--and") if "--and" in self.rest else len(self.rest)
        places = [at for at in range(end) if is_file(self.rest[at])]
        return [(" ".join([self.reason, *self.rest[:at]]), [*self.rest[at:]]) for at in places]

    def question(self) -> str:
        """Both readings in words, for whoever cannot be asked."""
        found = [f"--why {why} -- {' '.join(words)}" for why, words in self.readings()]
        if len(found) == 1:
            found.append(f"--why {self.reason} {' '.join(self.rest)} -- COMMAND")
        return (
            f"is {' '.join(self.rest)!r} the command, or part of the reason? Write -- before the"
            f" command: {', or '.join(found)}. ({QUOTES})"
        )


def cut(words: list[str]) -> tuple[list[str], list[str], Doubt | None]:
    """The options of `ask`, the words of its commands, and a doubt about where these begin."""
    if words[:1] and is_file(words[0]):
        return command_first(words)
    start, reason = first_file(words)
    if (sure := marked(words, start, reason)) is not None:
        return words[:sure], words[sure + 1 :], None
    if start == len(words):
        return words, [], None
    commands = words[start:]
    if behind := next((it for it in commands if own_option(it)), ""):
        raise BadWords(
            f"is {behind} an option of yours? It stands behind the command {commands[0]}, and would"
            f" be an argument of it: write it before. If it is the command's own, write -- before"
            f" {commands[0]}"
        )
    doubt = Doubt(" ".join(reason), tuple(commands)) if reason else None
    return words[:start], commands, doubt


def command_first(words: list[str]) -> tuple[list[str], list[str], Doubt | None]:
    """`ask COMMAND --on HOST ..`: the command ends at the first option of the relay's."""
    end = next((at for at, it in enumerate(words) if own_option(it)), len(words))
    return words[end:], words[:end], None


def first_file(words: list[str]) -> tuple[int, list[str]]:
    """Where the first path stands that no option has as its value, or ALL; and the words of the
    reason that runs into it. (ALL in a reason is a word: nobody asks for that by mistake.)"""
    reason: list[str] = []
    at = 0
    while at < len(words):
        word = words[at]
        if word in ("--why", "--ticket"):
            value = words[at + 1 : at + 2]
            reason = value if word == "--why" and value and " " not in value[0] else []
            at += 1
        elif word.startswith("--"):
            value = [word.partition("=")[2]]
            reason = value if word.startswith("--why=") and " " not in value[0] else []
        elif is_file(word) and not (word == "ALL" and reason):
            return at, reason
        elif reason:
            reason = [*reason, word]
        at += 1
    return len(words), []


def marked(words: list[str], start: int, reason: list[str]) -> int | None:
    """Where `--` says that the commands begin; nothing where none says so. Behind a command that
    no reason runs into it is that command's own word."""
    last = len(words) if reason or start == len(words) else start
    found = [at for at in range(last) if words[at] == "--" and words[at + 1 : at + 2]]
    return next((at for at in found if is_file(words[at + 1])), None)


def goes_on(option: str, value: str, word: str, is_named: bool) -> bool:
    """Whether a word is more of an option's value, whose quotes ssh took away."""
    if word.startswith("--"):
        return False
    if option == "--why":
        return True
    if option == "--for":
        return value.isdecimal() and word.lower() in LENGTHS
    if option == "--on":
        return value.endswith(",") or word.startswith(",") or is_named
    day = DAY.fullmatch(value)
    return option in ("--from", "--until", "--at") and bool(day and SECOND.fullmatch(word))


def gathered(words: list[str], is_named: bool = False) -> tuple[list[str], list[str]]:
    """The words that are no options, and the options, each in one word with its value. `is_named`:
    the first word was a name, so what follows a host is another one."""
    plain: list[str] = []
    options: list[str] = []
    rest = list(words)
    while rest:
        word = rest.pop(0)
        option, has_value, value = word.partition("=")
        if option not in VALUED:
            (options if word.startswith("-") else plain).append(word)
            continue
        if not has_value:
            if not rest:
                raise BadWords(f"{option} needs a value behind it")
            value = rest.pop(0)
        whole = option == "--why" and " " in value
        while rest and not whole and goes_on(option, value, rest[0], is_named or bool(plain)):
            value = joined(option, value, rest.pop(0))
        options.append(f"{option}={spelled(value) if option == '--for' else value}")
    return plain, options


def joined(option: str, value: str, word: str) -> str:
    if option == "--on":
        return f"{value.rstrip(',')},{word.lstrip(',')}".rstrip(",")
    return f"{value} {word}"


def spelled(length: str) -> str:
    """A length such as '2 hours' or '2h 30m' as 2h30m."""
    found = re.sub(
        r"([0-9]+) *([a-z]+)", lambda it: it[1] + LENGTHS.get(it[2], it[2]), length.lower()
    )
    return found.replace(" ", "")
