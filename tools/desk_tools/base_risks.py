"""What a base gives at all times that is as good as everything, and what is surely not meant."""

import re
from collections.abc import Iterator

from desk_tools.found import Warning
from desk_tools.site import command, seems_directory, without_slash
from desk_tools.warnings import risk

DEFINES = re.compile(r"[ \t]*(?:User|Runas|Host|Cmnd|Cmd)_Alias[ \t]")
# a command behind what stands before it: the list's mark, targets, bounds, tags
COMMAND = re.compile(
    r"(?:(?<!\\)[,=:)])[ \t]*(?:NOT(?:BEFORE|AFTER)=\S+[ \t]+)*"
    r"(ALL\b(?![ \t]*=)|/(?:\\.|[^,:=\\])*)"
)
# a program where programs are
PROGRAM = re.compile(r"/(?:usr/(?:local/)?)?s?bin/[^/ ]+")
EVERYTHING = (
    "every command, at all times and without a request: name commands, or let it be asked for"
)


def risks(number: int, line: str) -> list[Warning]:
    """The warnings of a line without its comment, joined with those that continue it."""
    found = []
    for text in given(line):
        if text == "ALL":
            found.append(Warning(number, "everything", text, EVERYTHING))
        elif (why := risk(command(text))) is not None:
            found.append(Warning(number, "runs-others", text, why))
        elif other := next(filter(PROGRAM.fullmatch, text.split(" ")[1:]), None):
            said = f"sudo takes {other} for an argument: a comma may be missing before it"
            found.append(Warning(number, "comma", text, said))
        if seems_directory(text):
            found.append(Warning(number, "directory", text, without_slash(text)))
    return found


def given(line: str) -> Iterator[str]:
    """The commands that a line gives to people, or an alias has; not what it denies, and not
    what root has."""
    kind = DEFINES.match(line)
    users = line.split()[:1]
    if (kind and not kind[0].lstrip().startswith("C")) or (not kind and users == ["root"]):
        return
    for found in COMMAND.finditer(line, line.find("=")):
        yield " ".join(found[1].split())
