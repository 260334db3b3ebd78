"""sudo's own reader of sudoers, the program cvtsudoers."""

import json
import os
import re
import subprocess
from functools import lru_cache
from typing import Any

PATIENCE = 60
# options of a command, which come before its tags
OPTION = (
    r"(?:NOTBEFORE|NOTAFTER|TIMEOUT|CWD|CHROOT|ROLE|TYPE|PRIVS|LIMITPRIVS|APPARMOR_PROFILE)"
    r"[ \t]*=[ \t]*"
)
HEAD = re.compile(
    rf"[ \t]*(?:\([^)]*\)[ \t]*)?(?:{OPTION}(?:\"[^\"]*\"|(?:\\.|[^ \t\\,])+)[ \t]+)*"
)
TAGS = re.compile(
    r"(?:(?:NO)?(?:PASSWD|EXEC|SETENV|LOG_INPUT|LOG_OUTPUT|MAIL|FOLLOW|INTERCEPT)[ \t]*:[ \t]*)*"
)
MAIL = re.compile(r"(?:NO)?MAIL[ \t]*:[ \t]*")
MARK = re.compile(r'"[^"]*"|\\.|sha(?:224|256|384|512)[ \t]*:|\([^)]*\)|([,:=])')
DATED = re.compile(r"NOT(?:BEFORE|AFTER)[ \t]*=")
# two zones in which no local time is the same
ZONES = ("UTC0", "EAST-13:30")

Read = dict[str, Any]


class BadSudoers(Exception):
    """sudo cannot read the file, or does not read all of it, or it is not there."""


def mended(text: str) -> str:
    """cvtsudoers of 1.9.13 writes some pairs straight into a list: each is made an object."""
    lines: list[str] = []
    stack: list[str] = []
    for line in text.splitlines():
        bare = line.strip().rstrip(",")
        if bare[:1] in "]}" and bare:
            stack.pop()
        elif stack and stack[-1] == "[" and re.match(r'"\w+": ', bare):
            line = f"{{ {bare} }}" + ("," if line.rstrip().endswith(",") else "")
        elif bare[-1:] in ("[", "{"):
            stack.append(bare[-1])
        lines.append(line)
    return "\n".join(lines)


def said_of(found: bytes, shown: dict[str, str]) -> str:
    """The first line of what cvtsudoers says; what follows it marks the place below it."""
    said = found.decode("utf-8", "replace").strip().splitlines()
    first = said[0] if said else "cvtsudoers does not say why"
    for name, in_place in shown.items():
        first = first.replace(name, in_place)
    return first.removeprefix("cvtsudoers: ")[:400]


def run(words: list[str], given: bytes | None, zone: str, shown: dict[str, str]) -> Read:
    """What cvtsudoers reads, by no configuration of its own; whatever it warns of is a fault."""
    path = f"{os.environ.get('PATH', '')}:/usr/sbin:/usr/bin"
    try:
        ran = subprocess.run(
            ["cvtsudoers", "-c", "/dev/null", "-f", "json", *words],
            input=given,
            stdin=subprocess.DEVNULL if given is None else None,
            capture_output=True,
            check=False,
            timeout=PATIENCE,
            env={**os.environ, "LC_ALL": "C", "TZ": zone, "PATH": path},
        )
    except FileNotFoundError:
        raise BadSudoers("it needs sudo's cvtsudoers (Debian's package sudo)") from None
    except subprocess.TimeoutExpired:
        raise BadSudoers(f"sudo's cvtsudoers did not end within {PATIENCE} seconds") from None
    if ran.returncode or ran.stderr.strip():
        raise BadSudoers(f"sudo cannot read it: {said_of(ran.stderr, shown)}")
    found = ran.stdout.decode("utf-8", "surrogateescape").strip()
    try:
        read: Read = json.loads(mended(found), strict=False) if found else {}
    except (ValueError, IndexError):
        raise BadSudoers("cvtsudoers prints what is no JSON") from None
    return read


def file_read(path: str, shown: str) -> Read:
    """What sudo reads of a file and of those that it includes."""
    return run(["--", path], None, ZONES[0], {path: shown})


@lru_cache(maxsize=1024)
def text_read(text: str, name: str, zone: str = ZONES[0]) -> Read:
    """What sudo reads of a text. It is shared: nobody changes it."""
    return run(["-"], text.encode("utf-8", "surrogateescape"), zone, {"stdin": name})


def marks(line: str, at: int, wanted: str) -> int:
    """Where one of these marks comes next, outside of quotes and parentheses and without a
    backslash; the line's end where none does."""
    for found in MARK.finditer(line, at):
        if found[1] and found[1] in wanted:
            return found.start()
    return len(line)


def set_apart(line: str) -> str:
    """A rule in which each command has another tag than the one before: cvtsudoers of 1.9.13 joins
    commands whose options alone differ, and tells the options of the first. The tag is one of those
    that give no right."""
    pieces, at, count = [], 0, 0
    while (equals := marks(line, at, "=")) < len(line):
        pieces.append(line[at : equals + 1])
        at = equals + 1
        while True:
            head = HEAD.match(line, at)
            assert head is not None
            tags = TAGS.match(line, head.end())
            assert tags is not None
            end = marks(line, tags.end(), ",:")
            tag = " MAIL: " if count % 2 else " NOMAIL: "
            pieces += [head[0], tag, MAIL.sub("", tags[0]), line[tags.end() : end + 1]]
            at, count = end + 1, count + 1
            if line[end : end + 1] != ",":
                break
    return "".join(pieces) + line[at:]


def commands(specs: list[dict[str, Any]]) -> list[Any]:
    """Each command of these rules with the rule's other words, but for its options."""
    return [
        [
            spec["User_List"],
            spec["Host_List"],
            part.get("runasusers"),
            part.get("runasgroups"),
            command,
        ]
        for spec in specs
        for part in spec["Cmnd_Specs"]
        for command in part["Commands"]
    ]


def is_joined(specs: list[dict[str, Any]]) -> bool:
    return any(len(part["Commands"]) > 1 for spec in specs for part in spec["Cmnd_Specs"])


def may_set_environment(specs: list[dict[str, Any]]) -> bool:
    """Whether commands have SETENV, which ALL has by itself, and is joined with others then."""
    parts = [part for spec in specs for part in spec["Cmnd_Specs"]]
    return any({"setenv": True} in part.get("Options", []) for part in parts)


def rules(line: str, read: Read, name: str, before: str) -> list[dict[str, Any]]:
    """The rules of a line that was read behind `before`, each command with the options of its
    own."""
    specs: list[dict[str, Any]] = read.get("User_Specs", [])
    if not is_joined(specs) or not (re.search(OPTION, line) or may_set_environment(specs)):
        return specs
    try:
        read_apart = text_read(f"{before}{set_apart(line)}\n", name)
        apart: list[dict[str, Any]] = read_apart.get("User_Specs", [])
    except BadSudoers:
        apart = []
    if commands(apart) != commands(specs) or is_joined(apart):
        raise BadSudoers(
            f"{name}: write each command with its options as a rule of its own: "
            "cvtsudoers mixes up such a line"
        )
    return [{**spec, "Cmnd_Specs": [without_mail(it) for it in spec["Cmnd_Specs"]]} for spec in apart]


def without_mail(part: dict[str, Any]) -> dict[str, Any]:
    """A command without the tag that set it apart."""
    options = [it for it in part["Options"] if "send_mail" not in it]
    rest = {key: value for key, value in part.items() if key != "Options"}
    return {**rest, "Options": options} if options else rest


def has_local_time(line: str, name: str) -> bool:
    """Whether a bound is another moment in another zone."""
    if not DATED.search(line):
        return False
    one, other = (text_read(f"{line}\n", name, zone) for zone in ZONES)
    return one != other
