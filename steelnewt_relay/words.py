"""The words that a person types: `ask db-care --on db1 --as root --for 2h /usr/bin/id`."""

import argparse
import difflib
import json
import re
import shlex
from datetime import datetime, tzinfo
from typing import NoReturn

from steelnewt_client.messages import VERDICTS, BadWord, checked, command_of, number_of
from steelnewt_client.moments import stamp
from steelnewt_client.signed import MOST_LISTED
from steelnewt_relay.moments import length_of, moment_of
from steelnewt_relay.typed import BadWords as BadWords
from steelnewt_relay.typed import cut, gathered
from steelnewt_relay.typed import split as split

ONCE = "[!-~]{1,100}"
NO_COMMAND = "name a command by its whole path, such as /usr/bin/id, at the end"
USAGE = """\
Without words, at a terminal (ssh -t): what waits, and what you can do.
  ask       at a terminal: asks for one after the other
  ask CEILING --on HOST[,HOST..] --as USER --for 2h COMMAND [ARGUMENT..] [--and COMMAND ..]
      --until 17:00 in place of --for; --from 'tomorrow 09:00' to begin later
      --why TEXT and --ticket ID: for whoever approves; -- before the COMMAND where it has a path
      --once KEY: the same key again is the same request, for scripts; other words are refused
      --anyway: also what cannot be granted; --no-wait: do not stay until it is decided
  ask COMMAND --on HOST --for 2h    under the ceiling that covers it and needs least
  save NAME [NUMBER|none]    ask NAME    a request under a name of yours, and the same again
  again [NUMBER]    extend [NUMBER]   the same as your last request, or as that one: from now on, or
      from its end on (--for, --until, --from, --why, --ticket: in place of what it had)
  withdraw NUMBER ..   a request of yours ends
  wait [WHO] NUMBER    until it is decided
  approve WHO NUMBER ..    refuse WHO NUMBER ..    revoke WHO NUMBER ..
      5-7 is 5 6 7; --why TEXT is shown to whoever asked; approve alone: the one that waits
  let WHO NUMBER    tells whoever asked that you would approve the whole length from now on
  ceilings  what you may ask for, for how long, and who may approve it now
  show WHO NUMBER    one request
  mine      your requests, the newest last (-l: all of each; --all: older ones too, 100 a --page)
  waiting   what waits for an approval that you may give; what ends first is on top
  live      what is in force now (--at TIME: at another time)
  history   what anybody asked here (--who NAME, --on HOST, --all, --page, -l)
  review    the desk's findings, for auditors
  set zone Europe/Berlin    away [FROM] UNTIL    your zone; the days on which nobody calls you

With each: --json for scripts, --yes to send without being asked, --zone Europe/Berlin for times.
A time is 'now', '17:00', 'tomorrow 09:00', '2026-01-05 09:00', '+2h', or UTC as 20260105090000Z.
A HOST may be 'all', or a pattern as db*. A command is a whole path; '""' after it means without
arguments. Your key says who you are."""
# Words that people try, and what they mean here.
MEANT = {
    "cancel": "withdraw", "delete": "withdraw", "stop": "withdraw", "request": "ask",
    "renew": "extend", "prolong": "extend", "deny": "refuse", "reject": "refuse", "list": "mine",
    "status": "mine", "pending": "waiting", "end": "revoke", "log": "history",
}  # fmt: skip


class Parser(argparse.ArgumentParser):
    """A parser that raises its complaint, in place of ending the program."""

    def __init__(self, **given: object) -> None:
        super().__init__(**given, allow_abbrev=False, add_help=False)  # type: ignore[arg-type]

    def error(self, message: str) -> NoReturn:
        raise BadWords(message)


def parser() -> Parser:
    """The commands with their options; a request's own commands are cut off before."""
    common = Parser()
    common.add_argument("--json", action="store_true")
    common.add_argument("--yes", action="store_true")
    common.add_argument("--zone")
    main = Parser(prog="desk")
    commands = main.add_subparsers(dest="command", required=True, metavar="COMMAND")
    add_asking(commands, common)
    for kind in VERDICTS:
        verdict = commands.add_parser(kind, parents=[common])
        verdict.add_argument("names", metavar="WHO NUMBER", nargs="*")
        verdict.add_argument("--why", metavar="TEXT")
        for option in ("--again", "--anyway"):
            verdict.add_argument(option, action="store_true")
    for word in ("mine", "waiting", "history"):
        listing = commands.add_parser(word, parents=[common])
        listing.add_argument("-l", "--long", action="store_true")
        if word != "waiting":
            listing.add_argument("--all", action="store_true")
            listing.add_argument("--page", default="1", metavar="NUMBER")
        if word == "history":
            listing.add_argument("--who", metavar="NAME")
            listing.add_argument("--on", metavar="HOST")
    for word in ("show", "wait", "let"):
        commands.add_parser(word, parents=[common]).add_argument("names", nargs="+", metavar="WHO")
    commands.add_parser("live", parents=[common]).add_argument("--at", default="now")
    for word in ("save", "set", "away"):
        commands.add_parser(word, parents=[common]).add_argument("words", nargs="*")
    for word in ("ceilings", "lead", "review", "send", "help", "overview"):
        commands.add_parser(word, parents=[common])
    return main


def add_asking(commands: "argparse._SubParsersAction[Parser]", common: Parser) -> None:
    """`ask`, by all its words or by a name of one's own, and what asks the same again."""
    ask = commands.add_parser("ask", parents=[common])
    ask.add_argument("ceiling", nargs="?")
    ask.add_argument("--on", required=True, action="append", metavar="HOST")
    ask.add_argument("--as", dest="runas", metavar="USER")
    add_window(ask, True)
    ask.add_argument("--once", metavar="KEY")
    ask.add_argument("--again", action="store_true")
    saved = commands.add_parser("saved", parents=[common])
    saved.add_argument("name")
    saved.add_argument("--on", action="append", metavar="HOST")
    for it in (saved, commands.add_parser("again", parents=[common])):
        add_window(it, False)
    again = commands.choices["again"]
    again.add_argument("no", metavar="NUMBER", nargs="?")
    withdraw = commands.add_parser("withdraw", parents=[common])
    withdraw.add_argument("names", metavar="NUMBER", nargs="*")
    withdraw.add_argument("--why", metavar="TEXT")
    for option in ("--again", "--anyway"):
        withdraw.add_argument(option, action="store_true")


def add_window(asking: argparse.ArgumentParser, is_needed: bool) -> None:
    """From when, for how long or until when; why; and what asks for it in any case."""
    asking.add_argument("--from", default="now", dest="begins", metavar="TIME")
    ends = asking.add_mutually_exclusive_group(required=is_needed)
    ends.add_argument("--for", dest="length", metavar="2h")
    ends.add_argument("--until", dest="ends", metavar="TIME")
    asking.add_argument("--why", metavar="TEXT")
    asking.add_argument("--ticket", metavar="ID")
    asking.add_argument("--anyway", action="store_true")
    asking.add_argument("--no-wait", action="store_true")


WORDS = (
    "ask", "again", "extend", "withdraw", *VERDICTS, "let", "wait", "save", "ceilings", "show",
    "mine", "waiting", "live", "history", "review", "set", "away", "complete", "prepare", "send",
    "help", "overview",
)  # fmt: skip


def unknown(word: str) -> BadWords:
    """What to say of a first word that is no command."""
    near = MEANT.get(word) or next(iter(difflib.get_close_matches(word, WORDS, 1)), "")
    return BadWords(f"{word!r} is no word here" + (f": did you mean {near}?" if near else ""))


def parse(line: str) -> argparse.Namespace:
    """What a line of words says. `commands` has a request's commands, as a policy writes them."""
    first, *rest = split(line) or ["help"]
    if first in ("--help", "-h") or rest[:1] in (["--help"], ["-h"]):
        first, rest = "help", []
    if first not in WORDS:
        raise unknown(first)
    if first == "prepare":
        return prepared(rest)
    if first == "complete":
        return argparse.Namespace(command=first, words=rest, json=False, yes=False, zone=None)
    if first == "ask":
        return asked(rest)
    plain, options = gathered(rest)
    if first == "extend":
        first, options = "again", ["--from=end", *options]
    said = parser().parse_args([first, *plain, *options])
    if first in VERDICTS:
        said.names = names_of(said.names)
    elif first == "withdraw":
        said.names = [number for it in said.names for number in numbers_of(it)]
    elif first in ("show", "let"):
        found = names_of(said.names) if len(said.names) == 2 else []
        said.of, said.no = found[0] if found else (None, None)
    if first == "again" and said.no is not None:
        said.no = number_of(said.no)
    if first in ("mine", "history"):
        said.page = page_number(said.page)
    if first == "history":
        said.who, said.on = checked_if("person", said.who), checked_if("host", said.on)
    return said


def asked(words: list[str]) -> argparse.Namespace:
    """What the words of `ask` say: a request whole, one of a name, or nothing yet."""
    options, words, doubt = cut(words)
    plain, options = gathered(options)
    if not words and not plain and all(it.startswith("--zone=") for it in options):
        return parser().parse_args(["lead", *options])
    is_name = len(plain) == 1 and not any(it.startswith("--as=") for it in options)
    if not words and is_name:
        return parser().parse_args(["saved", *plain, *options])
    if not words:
        raise BadWords(NO_COMMAND)
    said = parser().parse_args(["ask", *plain, *options])
    said.doubt, said.commands = doubt, [] if doubt else commands_of(words)
    if said.once is not None and not re.fullmatch(ONCE, said.once):
        raise BadWords("a --once KEY has 1 to 100 letters, digits and marks, and no blank")
    return said


def commands_of(words: list[str]) -> list[str]:
    """Commands as a policy writes them, of words with `--and` between two."""
    commands: list[list[str]] = [[]]
    for word in words:
        if word == "--and":
            commands.append([])
        else:
            commands[-1].append(word)
    if not all(commands):
        raise BadWords(NO_COMMAND)
    return [command_of(each) for each in commands]


def numbers_of(word: str) -> list[int]:
    """The numbers that `5`, `5,7` or `5-7` names."""
    found: list[int] = []
    for part in word.split(","):
        first, is_span, last = part.partition("-")
        if is_span and first:
            begins, ends = number_of(first), number_of(last)
            if not begins < ends < begins + MOST_LISTED:
                raise BadWord(f"{part!r} is no span: write 5-7, of at most {MOST_LISTED}")
            found += range(begins, ends + 1)
        else:
            found.append(number_of(part))
    return found


def names_of(words: list[str]) -> list[tuple[str, int]]:
    """Requests by their names: `ann 5 7 carol 2`, `ann 5-7`."""
    found: list[tuple[str, int]] = []
    who, is_named = "", False
    for word in [*words, ""]:
        if word[:1].isdigit() or (word.startswith("-") and who):
            if not who:
                raise BadWord(f"whose {word}? Write WHO NUMBER, as ann {word}")
            found, is_named = [*found, *((who, no) for no in numbers_of(word))], False
        elif is_named:
            raise BadWord(f"which request of {who}? Write WHO NUMBER")
        elif word:
            who, is_named = checked("person", word), True
    if len(set(found)) != len(found):
        raise BadWord("one of them is there twice")
    if len(found) > MOST_LISTED:
        raise BadWord(f"these are more than {MOST_LISTED}")
    return found


def prepared(words: list[str]) -> argparse.Namespace:
    """What is prepared for its author to sign: a request, or verdicts."""
    kind = words[0] if words else ""
    if kind not in (*VERDICTS, "ask", "again", "extend", "withdraw") or words == ["ask"]:
        raise BadWords("prepare a request or verdicts")
    said = parse(shlex.join(words))
    is_verdict = kind in VERDICTS or kind == "withdraw"
    if is_verdict and not said.names:
        raise BadWords(f"{kind} WHO NUMBER, and up to {MOST_LISTED} of them")
    if said.json or said.yes or getattr(said, "once", None) or getattr(said, "again", False):
        raise BadWords("what is signed is asked once for each signature: leave --once, --again")
    return argparse.Namespace(command="prepare", json=True, yes=True, zone=said.zone, said=said)


def unescaped(command: str) -> str:
    """A command of a message as a person types it."""
    return re.sub(r"\\([,:=])", r"\1", command)


def page_number(word: str) -> int:
    """Which page of a list somebody wants."""
    if (number := number_of(word)) < 1:
        raise BadWord("the first page is --page 1")
    return number


def checked_if(kind: str, word: str | None) -> str | None:
    return None if word is None else checked(kind, word)


def window_of(
    begins: str, length: str | None, ends: str | None, zone: tzinfo, at: datetime
) -> tuple[str, str]:
    """The first and the last moment of what is asked for, in the desk's words."""
    first = max(moment_of(begins, zone, at), at) if begins == "now" else moment_of(begins, zone, at)
    if first < at:
        raise BadWord(f"{begins!r} has passed: a window begins now or later")
    if length:
        try:
            return stamp(first), stamp(first + length_of(length))
        except OverflowError:
            raise BadWord(f"{length!r} is too long") from None
    if not ends:
        raise BadWord("say for how long, or until when")
    last = moment_of(ends, zone, at)
    if last <= first:
        raise BadWord(f"the window would end at {ends!r}, before it begins")
    return stamp(first), stamp(last)


def words_of(said: argparse.Namespace, zone: tzinfo) -> str:
    """What a person asks for, as they said it: the same words mean the same tomorrow."""
    hosts = sorted({host for part in said.on for host in part.split(",")})
    window = [said.begins, said.length, said.ends, str(zone)]
    reason = [[said.why, said.ticket]] if said.why or said.ticket else []
    commands = sorted(set(said.commands))
    return json.dumps([said.ceiling, hosts, said.runas, commands, window, *reason])
