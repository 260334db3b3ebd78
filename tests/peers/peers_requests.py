#!/usr/bin/env python3
"""Holds random requests of odd but lawful words against what sudo reads of the hosts' files.

The desk is told requests and approvals of people, hosts, targets, commands and arguments that mean
something to sudo, or use every lawful byte at either end, and has to acknowledge each. Each host's
file has to pass `visudo -c` and what `desk-host` takes, and `cvtsudoers -f json` has to read of it,
line by line, the user, host, target, command, arguments and dates that were asked for. `sudo -l` is
asked about some requests too (tests/common/sudo_peer.py): at a moment of the window, which it has
to allow, and a second before and after it, and with one argument more. `desk decide` has to answer
each as sudo does. It prints what is otherwise, and ends with the counts; the seed is fixed.
"""

import gzip
import json
import os
import random
import re
import string
import sys
import tempfile
from collections.abc import Iterator, Mapping
from typing import NamedTuple, NoReturn

from steelnewt_host.lawful import unlawful
from tests.common import desk
from tests.common.sudo_peer import accepts, allows, clear, enter_namespace, furnish

MANUAL = "/usr/share/man/man5/sudoers.5.gz"
DESKS, REQUESTS, HOSTS, ASKED = 40, 50, 10, 500
LAST = 4102444799
LONGEST = 2592000
# the words with which sudo begins its own command and digests: no names, so no request has them
# (docs/SUDOERS.md)
KEYWORDS = {"sudoedit", "sha224", "sha256", "sha384", "sha512"}
RESERVED = (
    "all notbefore notafter timeout cwd chroot role type privs limitprivs apparmor_profile passwd"
    " nopasswd exec noexec setenv nosetenv log_input nolog_input log_output nolog_output mail"
    " nomail follow nofollow intercept nointercept"
).split()
SUDOS = (
    "list visudo sudo sudoers sudoreplay cvtsudoers include includedir defaults regex any none root"
    " localhost sha sha1 md5 user_alias".split()
)
NAME_START, NAME_REST = string.ascii_lowercase + "_", string.ascii_lowercase + string.digits + "._-"
HOST_START, HOST_REST = string.ascii_lowercase, string.ascii_lowercase + string.digits + "-"
PATH_BYTES = string.ascii_letters + string.digits + "._+-"
ARG_BYTES = string.ascii_letters + string.digits + "._/+-@%,:="


def words_of_manual() -> list[str]:
    """The words of sudoers(5), in lower case, where the page is installed."""
    if not os.path.exists(MANUAL):
        return []
    with gzip.open(MANUAL, "rt", errors="replace") as file:
        return sorted(set(re.findall(r"[A-Za-z_][A-Za-z0-9_.-]*", file.read())))


def odd_names(start: str, rest: str) -> list[str]:
    """Names of 1 and 32 bytes with every lawful byte at each end, reserved words, sudo's own, and
    the manual's."""
    short = list(start)
    long = [first + "x" * 30 + rest[at % len(rest)] for at, first in enumerate(start)]
    ends = [start[at % len(start)] + "-" * 30 + last for at, last in enumerate(rest)]
    words = [word.lower() for word in [*RESERVED, *SUDOS, *words_of_manual()]]
    fits = re.compile(f"[{re.escape(start)}][{re.escape(rest)}]{{0,31}}")
    nearly = [word + "x" for word in sorted(KEYWORDS)] + ["x" + word for word in sorted(KEYWORDS)]
    found = [
        word
        for word in [*short, *long, *ends, *words, *nearly]
        if fits.fullmatch(word) and word not in KEYWORDS
    ]
    return sorted(set(found))


# A command's path, and its arguments: None for any, and an empty list for none.
Command = tuple[str, "list[str] | None"]
# A line of a host's file, as sudo reads it.
Line = tuple[str, ...]


class Request(NamedTuple):
    """What is asked for, in seconds since 1970."""

    by: str
    no: int
    host: str
    runas: str
    first: int
    last: int
    texts: list[str]
    commands: list[Command]


class Words:
    """Words of each kind, drawn at random."""

    def __init__(self, seed: int) -> None:
        self.rng = random.Random(seed)
        self.names = odd_names(NAME_START, NAME_REST)
        self.hosts = odd_names(HOST_START, HOST_REST)
        self.bytes = list(ARG_BYTES)

    def component(self) -> str:
        rng = self.rng
        word = rng.choice(
            [
                *RESERVED,
                *SUDOS,
                *sorted(KEYWORDS),
                "..a",
                "...",
                ".a",
                "a.",
                "-",
                "+",
                "_",
                "sudoeditx",
                "x-sudoedit",
            ]
        )
        change = rng.randrange(4)
        if change == 0:
            word = word.upper()
        elif change == 1:
            word = "".join(rng.choice(PATH_BYTES) for _ in range(rng.choice((1, 2, 30, 60))))
        return word if word not in (".", "..") else word + "_"

    def path(self) -> str:
        """A file's path below /srv, whose last component is not sudo's own command."""
        parts = [self.component() for _ in range(self.rng.choice((1, 2, 2, 3)))]
        if parts[-1] == "sudoedit":
            parts[-1] = "sudoedit_"
        return "/srv/" + "/".join(parts)

    def argument(self) -> str:
        rng, kind = self.rng, self.rng.randrange(6)
        if kind == 0:
            return rng.choice(self.bytes)
        if kind == 1:
            return "".join(
                rng.choice(",:=") + rng.choice(self.bytes) for _ in range(rng.choice((1, 2, 32)))
            )
        if kind == 2:
            return rng.choice(("-", "--", "/", "@", "%", "+", "=", ":")) + rng.choice(
                [*RESERVED, *SUDOS, *sorted(KEYWORDS)]
            )
        if kind == 3:
            return rng.choice([*RESERVED, *SUDOS, *sorted(KEYWORDS)]).upper()
        return "".join(rng.choice(self.bytes) for _ in range(rng.choice((1, 2, 8, 64))))

    def arguments(self) -> list[str]:
        # (one bare `,` is written `\,` and read so by both: sudo shows it as it stands)
        return [self.argument() for _ in range(self.rng.choice((1, 2, 3, 16)))]

    def command(self) -> Command:
        """A command as its path and its arguments: None for any, [] for none; or ALL, or a
        directory."""
        kind = self.rng.randrange(10)
        if kind == 0:
            return ("ALL", None)
        if kind == 1:
            return (self.path() + "/", None)
        path = self.path()
        if kind < 5:
            return (path, None)
        return (path, [] if kind == 5 else self.arguments())


def text_of(command: Command, escape: bool = True) -> str:
    """A command as it is written, or as sudo shows it."""
    path, args = command
    if args is None:
        return path
    if not args:
        return f'{path} ""'
    return " ".join([path, *(re.sub("[,:=]", r"\\\g<0>", arg) if escape else arg for arg in args)])


class Site:
    """A roster of odd words, and what is asked of its desk."""

    def __init__(self, words: Words, number: int) -> None:
        rng = words.rng
        self.people = rng.sample(words.names, 30)
        self.hosts = rng.sample(words.hosts, HOSTS)
        self.targets = rng.sample(words.names, 30)
        self.requests = [self.request(words, no + number * REQUESTS) for no in range(REQUESTS)]

    def request(self, words: Words, no: int) -> Request:
        rng = words.rng
        commands = {
            text_of(it): it
            for it in (words.command() for _ in range(rng.choice((1, 1, 2, 4))))
            if len(text_of(it)) <= 1024
        }
        start = rng.choice((0, rng.randrange(LAST), rng.randrange(LAST), LAST))
        end = min(LAST, start + rng.choice((0, 1, 7200, LONGEST)))
        texts = sorted(commands, key=str.encode)
        return Request(
            by=rng.choice(self.people[1:]),
            no=no,
            host=rng.choice(self.hosts),
            runas=rng.choice(self.targets),
            first=start,
            last=end,
            texts=texts,
            commands=[commands[it] for it in texts],
        )

    def roster(self) -> str:
        people = {name: ["ask"] for name in self.people[1:]} | {self.people[0]: ["approve"]}
        ceiling = desk.ceiling(
            "all",
            ask="ask",
            approve="approve",
            hosts=self.hosts,
            runas=self.targets,
            longest=LONGEST,
        )
        return desk.roster(people, [ceiling], ["ask", "approve"], self.hosts, ["r"])

    def messages(self) -> Iterator[str]:
        for q in self.requests:
            at = desk.stamp(q.first)
            yield desk.request(
                q.no,
                at=at,
                by=q.by,
                ceiling="all",
                cmnds=q.texts,
                hosts=[q.host],
                runas=q.runas,
                until=desk.stamp(q.last),
                **{"from": at},
            )
            yield desk.approval(q.no, at=at, by=self.people[0], of=q.by)

    def lines(self, host: str) -> list[Line]:
        """What the host's file has to say, in its order."""
        of_host = sorted(
            (q for q in self.requests if q.host == host),
            key=lambda q: (q.by.encode(), q.no),
        )
        return [
            (
                q.by,
                host,
                q.runas,
                text_of(it, escape=False),
                desk.stamp(q.first),
                desk.stamp(q.last),
            )
            for q in of_host
            for it in q.commands
        ]


def lines_of(text: str, cvtsudoers: str) -> str | list[Line]:
    """What sudo reads of a file: a user specification a line."""
    answer = desk.run([cvtsudoers, "-f", "json"], given=text)
    if answer.returncode != 0:
        return f"{answer.stdout}{answer.stderr}"
    return specified(answer.stdout)


def specified(converted: str) -> list[Line]:
    """The lines of what cvtsudoers makes of a file."""
    found = []
    for spec in json.loads(converted).get("User_Specs", []):
        (user,), (host,), (cmnd,) = spec["User_List"], spec["Host_List"], spec["Cmnd_Specs"]
        (target,), (command,) = cmnd["runasusers"], cmnd["Commands"]
        options = {key: value for option in cmnd["Options"] for key, value in option.items()}
        # (sudo lets whoever may run ALL keep the environment: sudoers(5), SETENV)
        implied = options.pop("setenv", False)
        more = sorted(set(options) - {"notbefore", "notafter"}) + ["setenv"] * (
            implied and command["command"] != "ALL"
        )
        found.append(
            (
                user["username"],
                host["hostname"],
                target["username"],
                command["command"],
                options["notbefore"],
                options["notafter"],
                *more,
            )
        )
    return found


def first_difference(wanted: list[Line], found: str | list[Line]) -> tuple[object, object] | None:
    pairs: list[tuple[object, object]] = [(wanted, found)]
    if len(wanted) == len(found):
        pairs = [*zip(wanted, found)]
    return next((pair for pair in pairs if pair[0] != pair[1]), None)


# What sudo may be asked of: a host's file, and the requests that are in it.
Asks = list[tuple[str, list[Request]]]


class Run:
    """The whole comparison, and its counts."""

    def __init__(self, folder: str, programs: Mapping[str, str]) -> None:
        self.folder, self.programs = folder, programs
        self.accepted = self.files = self.read = self.asked = self.wrong = 0
        self.asks: Asks = []

    def fault(self, what: str) -> None:
        self.wrong += 1
        if self.wrong <= 20:
            print(f"otherwise: {what}")

    def site(self, site: Site) -> None:
        roster, base = desk.write(self.folder, "roster", site.roster()), desk.write(
            self.folder, "base", ""
        )
        given = "".join(f"{line}\n" for line in site.messages())
        answers = desk.run(
            [*desk.PROGRAM, "deliver", roster, base, "-", "r"], given=given
        ).stdout.splitlines()
        for line, answer in zip(
            given.splitlines(), [*answers, *["nothing"] * (2 * REQUESTS - len(answers))]
        ):
            if answer != "ack":
                self.fault(f"{answer} for {line}")
        self.accepted += answers[::2].count("ack")
        for host in sorted({q.host for q in site.requests}):
            text = desk.run([*desk.PROGRAM, "print", roster, base, "-", host], given=given).stdout
            self.host(site, host, text)

    def host(self, site: Site, host: str, text: str) -> None:
        self.files += 1
        if not accepts(self.programs["visudo"], f"the file of {host}", text, self.folder):
            self.fault(f"visudo refuses {text!r}")
            return
        strange = unlawful(text.encode())
        if strange:
            self.fault(f"a host takes no such file: {strange}")
        wanted, found = site.lines(host), lines_of(text, self.programs["cvtsudoers"])
        self.read += len(wanted)
        difference = first_difference(wanted, found)
        if difference:
            self.fault(f"wanted {difference[0]}, and sudo reads {difference[1]}")
        self.asks.append((text, [q for q in site.requests if q.host == host]))

    def ask_some(self, rng: random.Random, sudoers: str, most: int = ASKED) -> None:
        """Asks sudo and the desk of some requests whose command is a file that is there."""
        for text, requests in rng.sample(self.asks, len(self.asks)):
            if self.asked >= most:
                return
            with open(sudoers, "w") as file:
                file.write(text)
            policy = desk.write(self.folder, "policy", text)
            for q in requests:
                files = [
                    it
                    for it in q.commands
                    if it[0] != "ALL" and not it[0].endswith("/") and it[1] is not None
                ]
                if files and self.asked < most:
                    self.asked += 1
                    self.ask(policy, q, rng.choice(files), rng)

    def ask(self, policy: str, q: Request, command: Command, rng: random.Random) -> None:
        path, args = command
        inside = rng.randint(q.first, q.last)
        self.compare(policy, q, inside, command, True)
        for moment in (q.first - 1, q.last + 1):
            if 0 <= moment <= LAST:
                self.compare(policy, q, moment, command, False)
        self.compare(policy, q, inside, (path, [*(args or []), "x"]), False)

    def compare(self, policy: str, q: Request, moment: int, command: Command, wanted: bool) -> None:
        """Compares what both answer, which may have to be that the run is allowed."""
        path, args = command
        words = [q.by, q.host, q.runas, desk.stamp(moment), path, *(args or [])]
        theirs = allows(self.programs, words)
        answer = desk.run([*desk.PROGRAM, "decide", policy, *words[:5], "--", *words[5:]])
        ours = answer.stdout.startswith("allow")
        if answer.returncode not in (0, 1) or theirs != ours or (wanted and not theirs):
            self.fault(
                f"{' '.join(words)}: sudo {'allows' if theirs else 'denies'}, the desk says"
                f" {(answer.stdout + answer.stderr).strip()}"
            )


def lie_below_srv(sites: list[Site]) -> list[str]:
    """The files that the requests name, by their paths below /srv. (A path that is another's folder
    is left to the folder.)"""
    below = {
        it[0].removeprefix("/srv/")
        for site in sites
        for q in site.requests
        for it in q.commands
        if it[0] != "ALL" and not it[0].endswith("/")
    }
    return sorted(it for it in below if not any(other.startswith(it + "/") for other in below))


def only_there(asks: Asks, files: list[str]) -> Asks:
    """The requests whose commands are all there."""
    there = {"/srv/" + it for it in files}

    def is_there(q: Request) -> bool:
        return all(it[0] in there or it[1] is None for it in q.commands)

    return [(text, [q for q in requests if is_there(q)]) for text, requests in asks]


def inside() -> NoReturn:
    programs = {name: desk.tool(name) for name in ("sudo", "visudo", "faketime", "cvtsudoers")}
    os.environ["TZ"] = "UTC"
    words = Words(1)
    sites = [Site(words, number) for number in range(DESKS)]
    commands = lie_below_srv(sites)
    users = sorted({name for site in sites for name in [*site.people, *site.targets]})
    with tempfile.TemporaryDirectory() as folder:
        sudoers = furnish(folder, users, commands)
        ran = Run(folder, programs)
        for site in sites:
            ran.site(site)
        ran.asks = only_there(ran.asks, commands)
        ran.ask_some(random.Random(2), sudoers)
        clear()
    print(
        f"{ran.accepted} requests of odd words were accepted; sudo reads {ran.read} lines of"
        f" {ran.files} files, and was asked of {ran.asked} requests: {ran.wrong} otherwise"
    )
    if ran.accepted < DESKS * REQUESTS or ran.asked < ASKED:
        sys.exit(f"too few: {DESKS * REQUESTS} requests and {ASKED} asked are wanted")
    sys.exit(1 if ran.wrong else 0)


if __name__ == "__main__":
    if sys.argv[1:] == ["--inside"]:
        inside()
    desk.check_built()
    enter_namespace()
