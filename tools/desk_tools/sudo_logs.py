"""What sudo logged on hosts: JSON (a file, syslog, sudo_logsrvd), and classic lines (a file,
syslog, the journal).

A log has words that its users choose: arguments, folders, whole lines over syslog. So a line that
can be read in two ways is unread, with its place and why, and no right counts as used by it.
"""

import bz2
import calendar
import gzip
import io
import json
import lzma
import os
import re
import time
import zlib
from array import array
from collections.abc import Callable, Iterable, Iterator
from dataclasses import dataclass, field
from datetime import datetime, timezone, tzinfo
from typing import Any, BinaryIO, NamedTuple, TypeAlias, cast

from desk_tools.lost_lines import LOSSES, why_lost, why_lost_by
from desk_tools.peers import Peers
from steelnewt_client.moments import seconds

MOST_SHOWN = 20
# lines of a log are no longer; the rest of a longer one is another line, which cannot be read
LONGEST = 1 << 20
# the last moment that the desk knows; the first one is 0
LAST = seconds("20991231235959Z")
PROGRAMS = ("sudo", "sudo_logsrvd")
MONTHS = "Jan Feb Mar Apr May Jun Jul Aug Sep Oct Nov Dec".split()
PLAIN = r"[A-Z][a-z]{2} [ \d]\d \d\d:\d\d:\d\d"
STAMP = r"\d{4}-\d\d-\d\dT\d\d:\d\d:\d\d(?:[.,]\d+)?(?:Z|[+-]\d\d:?\d\d)"
# a name or an address; with a colon at its end it may be another program's
NAMED = r"[^ ]*[^ :]"
SYSLOG = re.compile(
    rf"(?:<\d{{1,3}}>)?(?:1 )?({PLAIN}|{STAMP}) (?:({NAMED}) )?"
    r"sudo(?:(?:\[\d+\])?: +| \S+ \S+ (?:-|\[.*?\]) +)(.*)",
    re.DOTALL,
)
# most lines of syslog: nothing in them looks like more of sudo's words
COMMON = re.compile(
    rf"({PLAIN}|{STAMP}) ({NAMED}) sudo(?:\[\d+\])?: +([^ :]+) : (?:TTY=[^ ;]+ ; )?PWD=[^;=]* ; "
    r"USER=([^ ;]+) ; COMMAND=(/[^;]*)"
)
OTHER = re.compile(rf"(?:<\d{{1,3}}>)?(?:1 )?(?:{PLAIN}|{STAMP}) ")
# what a line of sudo's has, in whatever form; and its name in one
SAID = re.compile(r" COMMAND=|@cee:")
TAG = re.compile(rf"(?:\S*/)?(?:{'|'.join(PROGRAMS)})(?:\[\d+\])?:?")
# the words in front of a message: its host, its program, and what some put between
MOST_BEFORE = 4
UNKNOWN = "it may be sudo's: its form is not known"
ADDRESS = re.compile(r"[\d.]+|[\da-fA-F]*:[\da-fA-F]*:.*")
OF_FILE = re.compile(rf"({PLAIN}(?: \d{{4}})?) : (.*)", re.DOTALL)
CONTINUED = "(command continued) "
ACCEPTED = re.compile(
    r"(?:HOST=([^ ;]+) ; )?(?:TTY=[^ ;]+ ; )?(?:CHROOT=(.*?) ; )?(?:PWD=.*? ; )?USER=([^ ;]+) ; "
    r"(?:GROUP=([^ ;]+) ; )?(?:TSID=[^ ;]+ ; )?(?:ENV=.*? ; )?COMMAND=(.*)",
    re.DOTALL,
)
# the same of a file
USUAL = re.compile(r"(?:TTY=[^ ;]+ ; )?PWD=[^;=]* ; USER=([^ ;]+) ; COMMAND=([^;]*)")
BEGINS = re.compile(r"(?:HOST|TTY|CHROOT|PWD|USER)=")
# (each stands once before the command: a folder may have the same words, and so has a line whose
# end could not be written, where the next one begins in its middle)
TWICE = re.compile(r" ; (HOST|TTY|CHROOT|PWD|USER|GROUP|TSID)=.* ; \1=", re.DOTALL)
HOST = re.compile(r"HOST=([^ ;]+) ; ")
ENDS = re.compile(r"(.*?)(?: ; SIGNAL=\S+)?(?: ; EXIT=\d+)", re.DOTALL)
KINDS = ("accept", "reject", "alert", "exit")
EVENT = re.compile(rf' {{4}}"({"|".join(KINDS)})": \{{')
PAM = re.compile(r"pam_\w+\(")
# what the journal may say of who wrote a line
SUDOS = tuple(f"{it}/{name}" for it in ("/usr/bin", "/bin", "/usr/sbin") for name in PROGRAMS)
# what is asked of sudo and runs nothing
NO_RUN = re.compile(r"(?:list|validate|kill|version)(?: |$)")


class Run(NamedTuple):
    """What ran: the command is sudo's text of it, or the words of its JSON."""

    host: str
    user: str
    target: str
    beside: str  # a group or another root directory
    command: str | tuple[str, ...]


class Unread(NamedTuple):
    file: str
    line: int
    why: str


class Open(NamedTuple):
    """What syslog has of a command so far: when, in which line, and the last piece of it."""

    at: int
    line: int
    text: str
    piece: str


class Cut(Exception):
    """Why a line cannot be read."""


# what comes of words that are not sudo's
ODD = (ValueError, KeyError, TypeError, AttributeError, RecursionError, OverflowError)
Moments: TypeAlias = "array[int]"  # in seconds since 1970


@dataclass
class Logs:
    """What was read: the moments of each run, and of each refusal by host and user."""

    zone: tzinfo = timezone.utc
    peers: Peers = field(default_factory=Peers)
    # (keyed by Run's members)
    runs: dict[tuple[Any, ...], Moments] = field(default_factory=dict)
    refused: dict[tuple[str, str], Moments] = field(default_factory=dict)
    unread: list[Unread] = field(default_factory=list)
    files: int = 0
    lines: int = 0
    count_unread: int = 0

    def spans(self, until: int = LAST) -> dict[str, tuple[int, int]]:
        """The first and the last moment of which each host has a line, of lines until then."""
        found: dict[str, tuple[int, int]] = {}
        for (host, *_), moments in [*self.runs.items(), *self.refused.items()]:
            if max(moments) > until:
                moments = array("q", (it for it in moments if it <= until))
            if moments:
                first, last = found.get(host, (LAST, 0))
                found[host] = min(first, min(moments)), max(last, max(moments))
        return found

    def logged(self) -> dict[str, tuple[int, int]]:
        """From when to when each host's lines tell what ran. No host logs what is to come: a line
        of a moment that is not yet says nothing of where a log ends."""
        return self.spans(int(time.time()))

    def refuse(self, host: str, user: str, at: int) -> None:
        append(self.refused, (host, user), at)

    def fault(self, file: str, line: int, why: str) -> None:
        self.count_unread += 1
        if len(self.unread) < MOST_SHOWN:
            self.unread.append(Unread(file, line, why))


def append(found: dict[Any, Moments], key: tuple[Any, ...], at: int) -> None:
    """Adds a moment to those of the key: no key has an empty list."""
    if key in found:
        found[key].append(at)
    else:
        found[key] = array("q", (at,))


def known(at: Any, a_second: int = 1) -> int:
    """The moment of a line, in seconds since 1970. Every moment is checked here, in whatever form
    the line has it: any account may write a line with a moment that no clock ever showed."""
    try:
        found = int(at) // a_second
    except OverflowError:
        # (JSON has infinite numbers here)
        found = LAST + 1
    if not 0 <= found <= LAST:
        raise Cut("its moment is out of range")
    return found


def opened(path: str) -> BinaryIO:
    openers: dict[str, Callable[[str, Any], Any]]
    openers = {".gz": gzip.open, ".bz2": bz2.open, ".xz": lzma.open}
    for end, opener in openers.items():
        if path.endswith(end):
            return cast(BinaryIO, opener(path, "rb"))
    return open(path, "rb")


def files_of(path: str) -> list[str]:
    """A file, or those below a folder, in the order of their names."""
    if not os.path.isdir(path):
        return [path]
    found = [os.path.join(top, name) for top, _, names in os.walk(path) for name in names]
    return sorted(filter(os.path.isfile, found))


def lines_of(source: BinaryIO) -> Iterator[tuple[str, bool]]:
    """Each line, and whether it is whole."""
    file = io.TextIOWrapper(source, "utf-8", "surrogateescape", newline="\n")
    while text := file.readline(LONGEST):
        if text[-1] == "\n":
            yield text[:-1], True
        else:
            yield text, False


def short(host: str) -> str:
    if ADDRESS.fullmatch(host):
        return host.lower()
    return host.partition(".")[0].lower()


def may_be_sudos(said: str) -> bool:
    """Whether what stands behind a moment may be a run that sudo logged: its name comes before that
    of any other program. (Whoever may write to syslog chooses the words behind their own.)"""
    if not SAID.search(said):
        return False
    for place, word in enumerate(said.split(None, MOST_BEFORE)[:MOST_BEFORE]):
        if TAG.fullmatch(word):
            return True
        if word.endswith("]:") or (place and word.endswith(":")):
            return False
    return False


class Reader:
    """Reads one file into the logs."""

    def __init__(self, logs: Logs, name: str, host: str, year: int, written: float) -> None:
        self.logs, self.name, self.host = logs, name, host
        self.year, self.written = year, min(max(written, 0), LAST)
        self.moments: dict[str, int] = {}
        # a command of syslog may go on in the next line of its host and user
        self.open: dict[tuple[str, str], Open] = {}
        self.latest: dict[tuple[str, str], tuple[int, int, str, tuple[Any, ...]]] = {}
        self.hosts: dict[str, str] = {}
        self.line = 0

    def read(self, source: BinaryIO) -> None:
        lines = lines_of(source)
        first, is_whole = next(lines, ("", True))
        if first == "{" or re.match(r' +"', first) or EVENT.match(first):
            self.read_json(first, lines)
        else:
            self.read_lines(first, is_whole, lines)
        self.logs.lines += self.line

    # ---- JSON over many lines, as sudo writes it to a file

    def read_json(self, first: str, lines: Iterable[tuple[str, bool]]) -> None:
        self.line, held, began = 1, list[str](), 1
        kind = (found := EVENT.fullmatch(first)) and found[1]
        is_lost = not kind and first != "{"
        for text, _ in lines:
            self.line += 1
            if found := EVENT.fullmatch(text):
                if kind:
                    self.fault("the event is cut off", began)
                kind, held, began = found[1], [], self.line
            elif kind and text in ("    }", "    },"):
                self.whole(kind, "{" + "".join(held) + "}", began)
                kind, held = None, []
            elif kind:
                held.append(text)
            elif text not in ("", "}"):
                is_lost = True
        if kind:
            self.fault("the event is cut off", began)
        if is_lost:
            self.fault("an event lacks its beginning", 1)

    def whole(self, kind: str, text: str, line: int) -> None:
        try:
            self.event(kind, json.loads(text))
        except ODD:
            self.fault("it is no event of sudo's", line)
        except Cut as why:
            self.fault(str(why), line)

    def event(self, kind: str, told: dict[str, Any]) -> None:
        """What sudo says of a run or a refusal, as JSON."""
        if kind not in KINDS:
            raise Cut("it is no event of sudo's")
        if kind == "exit":
            return
        # sudo_logsrvd may get an event late; the host's own clock is in submit_time
        clock = told["submit_time"] if "peeraddr" in told else told["server_time"]
        at, host = known(clock["seconds"]), self.host or self.sender(told)
        user = text_of(told["submituser"])
        if kind != "accept":
            self.logs.refuse(host, user, at)
            return
        path, target = text_of(told["command"]), text_of(told.get("runuser", "root"))
        words = [text_of(it) for it in list_of(told.get("runargv", []))[1:]]
        beside = [f"{it}={told[name]}" for it, name in BESIDE if told.get(name)]
        if not NO_RUN.match(path):
            self.ran(at, host, user, target, " ".join(beside), (path, *words))

    def sender(self, told: dict[str, Any]) -> str:
        """The host that an event names, if the event came from there."""
        host = short(text_of(told["submithost"]))
        if "peeraddr" in told:
            peer = text_of(told["peeraddr"])
            if not self.logs.peers.are(host, peer):
                raise Cut(f"{peer} sent it, which is no known address of {host}: see --peers")
        return host

    # ---- a line each

    def read_lines(self, first: str, is_whole: bool, rest: Iterable[tuple[str, bool]]) -> None:
        self.line, held, began = 1, first, 1
        for text, is_next_whole in rest:
            self.line += 1
            if text.startswith("    ") and OF_FILE.match(held):
                # (sudo wraps the lines of its file where there is a space)
                held, is_whole = f"{held} {text[4:]}", is_next_whole
                continue
            self.one(held, is_whole, began)
            held, is_whole, began = text, is_next_whole, self.line
        self.one(held, is_whole, began)
        for (host, user), kept in self.open.items():
            self.close(host, user, kept)

    def one(self, text: str, is_whole: bool, line: int) -> None:
        if not text:
            return
        try:
            if is_whole and (found := COMMON.fullmatch(text)):
                self.common(found, line)
            else:
                self.line_of(text, is_whole, line)
        except ODD:
            self.fault("it is no line of sudo's" if is_whole else "it is cut off", line)
        except Cut as why:
            self.fault(str(why), line)

    def common(self, found: re.Match[str], line: int) -> None:
        moment, name, user, target, command = found.groups()
        at = self.moments.get(moment)
        if at is None:
            at = self.moment(moment)
        host = self.hosts.get(name)
        if host is None:
            host = self.hosts[name] = self.host or short(name)
        run = host, user, target, "", command
        self.ran(at, *run)
        key = host, user
        if key in self.open:
            self.close(host, user, self.open.pop(key))
        self.latest[key] = at, line, found[0], run

    def taken_back(self, key: tuple[str, str]) -> Open | None:
        """Takes the latest run of the key back: its line goes on in the present one, so that it is
        no whole run yet."""
        if key not in self.latest:
            return None
        at, line, text, run = self.latest.pop(key)
        self.logs.runs[run].pop()
        if not self.logs.runs[run]:
            del self.logs.runs[run]
        rest = text.partition(" : ")[2]
        return Open(at, line, rest, rest)

    def line_of(self, text: str, is_whole: bool, line: int) -> None:
        if text[0] == "{":
            self.object(json.loads(text), line)
            return
        if not is_whole:
            raise Cut("it is cut off")
        if found := SYSLOG.match(text):
            at, host, said = self.moment(found[1]), self.host or short(found[2] or ""), found[3]
            self.message(at, host, said, line)
        elif found := OF_FILE.match(text):
            user, rest = author(found[2])
            self.classic(self.moment(found[1]), self.host, user, rest)
        elif not (found := OTHER.match(text)):
            raise Cut("it is no line of sudo's")
        else:
            self.other(text[found.end() :])

    def other(self, said: str) -> None:
        """What stands behind the moment of a line that has not the form of sudo's."""
        if why := why_lost_by(said, self.host):
            raise Cut(why)
        if may_be_sudos(said):
            raise Cut(UNKNOWN)

    def object(self, told: dict[str, Any], line: int) -> None:
        """A line of JSON: an event, or an entry of the journal."""
        if "MESSAGE" in told:
            self.entry(told, line)
            return
        inner = told.get("sudo", told)
        for kind in KINDS:
            if kind in inner:
                self.event(kind, inner[kind])
                return
        raise Cut("it is no event of sudo's")

    def entry(self, told: dict[str, Any], line: int) -> None:
        """An entry of the journal. Whoever writes to it chooses the name of the program, and
        journald adds which one it was, if it could still see that."""
        name = told.get("SYSLOG_IDENTIFIER", told.get("_COMM"))
        if name not in PROGRAMS and name not in LOSSES:
            return
        said = told["MESSAGE"]
        if not isinstance(said, str):
            said = bytes(list(said)).decode("utf-8", "surrogateescape")
        host = self.host or short(text_of(told.get("_HOSTNAME", "")))
        if why := why_lost(name, said, host):
            raise Cut(why)
        if name in LOSSES or PAM.match(said):
            return
        if told.get("_EXE") not in SUDOS:
            raise Cut(f"{told.get('_EXE', 'an unknown program')} wrote it on {host}, and not sudo")
        if name != "sudo":
            if SAID.search(said):
                raise Cut(UNKNOWN)
            return
        at = told.get("_SOURCE_REALTIME_TIMESTAMP") or told["__REALTIME_TIMESTAMP"]
        self.message(known(at, 1_000_000), host, said, line)

    def message(self, at: int, host: str, said: str, line: int) -> None:
        """What sudo gave to syslog."""
        if said.startswith("@cee:"):
            told = json.loads(said[5:])["sudo"]
            if not told:
                raise Cut("it is no event of sudo's")
            for kind, event in told.items():
                self.event(kind, event)
            return
        if PAM.match(said):
            return
        user, rest = author(said)
        kept = self.open.get((host, user))
        if rest.startswith(CONTINUED):
            kept = kept or self.taken_back((host, user))
            if kept is None:
                raise Cut("the command begins in another file")
            # (sudo breaks at a space, where there is one)
            piece = rest.removeprefix(CONTINUED)
            between = " " if " " in kept.piece else ""
            self.open[host, user] = Open(kept.at, kept.line, kept.text + between + piece, piece)
            return
        self.open[host, user] = Open(at, line, rest, rest)
        self.latest.pop((host, user), None)
        if kept is not None:
            self.close(host, user, kept)

    def close(self, host: str, user: str, kept: Open) -> None:
        try:
            self.classic(kept.at, host, user, kept.text)
        except Cut as why:
            self.fault(str(why), kept.line)

    def classic(self, at: int, host: str, user: str, text: str) -> None:
        """sudo's words behind the user: those of a run begin with a place, and those of a refusal
        with a reason."""
        if host and (found := USUAL.fullmatch(text)):
            if not NO_RUN.match(found[2]):
                self.ran(at, host, user, found[1], "", found[2])
            return
        if not BEGINS.match(text):
            if " : " in text.partition(" ; ")[0]:
                raise Cut("another line begins in its middle")
            named = HOST.search(text)
            self.logs.refuse(host or short(named[1] if named else ""), user, at)
            return
        found = ACCEPTED.fullmatch(text)
        if found is None:
            raise Cut("it has no command" if " ; COMMAND=" not in text else "its words are unclear")
        head, _, _ = text.partition(" ; COMMAND=")
        if text.count(" ; COMMAND=") > 1 or TWICE.search(f" ; {head}"):
            raise Cut("it can be read in two ways: a user's words look like sudo's")
        name, chroot, target, group, command = found.groups()
        host = host or short(name or "")
        if not host:
            raise Cut("it names no host: write HOST=FILE")
        beside = [f"{it}={value}" for it, value in (("chroot", chroot), ("group", group)) if value]
        if not NO_RUN.match(command):
            self.ran(at, host, user, target, " ".join(beside), command)

    def ran(self, at: int, *run: str | tuple[str, ...]) -> None:
        append(self.logs.runs, run, at)

    # ---- moments

    def moment(self, text: str) -> int:
        found = self.moments.get(text)
        if found is None:
            found = self.moments[text] = known(self.parsed(text))
        return found

    def parsed(self, text: str) -> int:
        if text[0].isdigit():
            return int(datetime.fromisoformat(text.replace(",", ".")).timestamp())
        month, day = MONTHS.index(text[:3]) + 1, int(text[4:6])
        hour, minute, second = map(int, text[7:15].split(":"))
        if len(text) > 15:
            return self.local(int(text[16:]), month, day, hour, minute, second)
        if self.year:
            return self.local(self.year, month, day, hour, minute, second)
        # the last such day before the file was written
        year = time.gmtime(self.written).tm_year + 1
        for _ in range(10):
            if calendar.monthrange(year, month)[1] >= day:
                at = self.local(year, month, day, hour, minute, second)
                if at <= self.written + 86_400:
                    return at
            year -= 1
        raise Cut("its day is in no year")

    def local(self, *parts: int) -> int:
        year, month, day, hour, minute, second = parts
        there = datetime(year, month, day, hour, minute, min(second, 59), tzinfo=self.logs.zone)
        return int(there.timestamp())

    def fault(self, why: str, line: int | None = None) -> None:
        self.logs.fault(self.name, line or self.line, why)


BESIDE = (("chroot", "runchroot"), ("group", "rungroup"))


def text_of(value: Any) -> str:
    if not isinstance(value, str):
        raise Cut("it is no event of sudo's")
    return value


def list_of(value: Any) -> list[Any]:
    if not isinstance(value, list):
        raise Cut("it is no event of sudo's")
    return value


def author(said: str) -> tuple[str, str]:
    user, colon, rest = said.partition(" : ")
    user = user.lstrip(" ")
    if not colon or not user or " " in user:
        raise Cut("it names no user")
    return user, rest


def read_log(logs: Logs, name: str, host: str, year: int) -> None:
    """Reads a file; one that ends in its middle is read as far as it goes."""
    logs.files += 1
    with opened(name) as source:
        reader = Reader(logs, name, host, year, os.stat(name).st_mtime)
        try:
            reader.read(source)
        # (of what bz2 cannot unpack it says no more than OSError)
        except (EOFError, OSError, zlib.error, lzma.LZMAError) as fault:
            reader.fault(f"the rest is damaged: {fault}", reader.line)


def without_exits(logs: Logs) -> None:
    """Takes away the second line of a command (log_exit_status), which has its first one's words
    and how it ended."""
    for run in [it for it in logs.runs if isinstance(it[4], str) and " ; EXIT=" in it[4]]:
        found = ENDS.fullmatch(run[4])
        first = logs.runs.get((*run[:4], found[1])) if found else None
        if not first:
            continue
        left = len(logs.runs[run]) - len(first)
        if left <= 0:
            del logs.runs[run]
        else:
            # (an argument looks like an end)
            logs.runs[run] = logs.runs[run][-left:]
