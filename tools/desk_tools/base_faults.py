"""What is wrong with a base policy: the desk itself is asked, and what it names is said with its
line, its word and what to do. Behind a fault the desk is asked again without that line, so that all
faults are named, and not the first alone."""

import os
import re
import subprocess
import tempfile
from dataclasses import dataclass, field

from desk_tools import explain
from desk_tools.base_risks import risks
from desk_tools.found import Fault, Warning, coded
from desk_tools.judge import NoDesk
from desk_tools.likely_words import COMMENT, likely, without
from desk_tools.warnings import real_path

MOST_FAULTS, MOST_WORDS = 64, 8
ANSWER = re.compile(r"(S[0-9]+) (\w+)(?: line ([0-9]+))?\n")
# what ends a search, since it is a fault of the whole
OF_ALL = ("S1", "S10", "S11")
DEFINES = re.compile(r"(?:User|Runas|Host|Cmnd|Cmd)_Alias[ \t]")
NAME = re.compile(r"(?:^|:)[ \t]*([A-Z][A-Z0-9_]*)[ \t]*=")
PATH = re.compile(r"(?<![^\s,!:=)])/[^\s,:=]*")
CONTINUES = re.compile(rb"\\[ \t]*\Z")
BLANK_BEHIND = re.compile(rb"(?<=\\)[ \t]+\Z")
LATE = re.compile(r"[ \t]*\\[ \t]*")
UNPREFIXED = (
    "the base's aliases have no prefix in common that ends in _: a host that defines an alias of "
    "this name too takes its own, and others gain rights: begin each with one, as DESK_"
)


@dataclass
class Base:
    """A base's text, as lines, and what is found in it."""

    desk: str
    data: bytes
    faults: list[Fault] = field(default_factory=list)
    answer: str | None = None
    is_cut: bool = False

    def look(self) -> list[Fault]:
        """All faults that the desk names, one after the other."""
        lines = self.data.split(b"\n")
        for _ in range(MOST_FAULTS):
            found = self.asked(b"\n".join(lines))
            if found is None:
                break
            code, line = found
            self.answer = self.answer or coded(code)
            self.faults += self.of_line(code, line, lines)
            if code in OF_ALL or not line or line > len(lines):
                break
            self.take_out(lines, line)
        else:
            self.is_cut = self.asked(b"\n".join(lines)) is not None
        return sorted(self.faults)

    def asked(self, data: bytes) -> tuple[str, int] | None:
        """What the desk says of a text: a code and a line; None where it reads it."""
        with tempfile.NamedTemporaryFile() as file:
            file.write(data)
            file.flush()
            try:
                words = [self.desk, "check", file.name]
                ran = subprocess.run(words, capture_output=True, text=True, check=False)
            except OSError as fault:
                raise NoDesk(f"{self.desk}: {fault.strerror}") from None
        if ran.returncode == 0:
            return None
        found = ANSWER.fullmatch(ran.stderr)
        if found is None:
            raise NoDesk(f"{self.desk} check fails: {ran.stderr.strip()}")
        return found[1], int(found[3] or 0)

    def of_line(self, code: str, line: int, lines: list[bytes]) -> list[Fault]:
        """The faults of a line in the words of whoever wrote it; without a word that is likely, the
        line's own."""
        text = COMMENT.sub("", logical(lines, line))
        bad = re.search(r"[^\t\n -~]", text)
        if code == "S2" and bad:
            found = [(bad[0], "write plain ASCII: no such byte may stand in a base")]
        else:
            found = self.words(code, line, lines, text)
        found = found or [(text.strip(), explain.to_do(code))]
        return [Fault(line, code, "", word, remedy) for word, remedy in found]

    def words(
        self, code: str, line: int, lines: list[bytes], text: str
    ) -> list[tuple[str, str]]:
        """The words of a line without which the desk does not refuse it so; the likeliest where it
        does without all of them."""
        first, last = span(lines, line)

        def is_refused(held: list[bytes]) -> bool:
            rest = [b""] * (last - first + 1 - len(held))
            changed = [*lines[: first - 1], *held, *rest, *lines[last:]]
            return self.asked(b"\n".join(changed)) == (code, line)

        joins = [BLANK_BEHIND.sub(b"", it) for it in lines[first - 1 : last]]
        if joins != lines[first - 1 : last] and not is_refused(joins):
            return [("\\", "no blank stands behind it at the end of a line")]
        taken: dict[str, str] = {}
        left = text
        for word, remedy in likely(code, text):
            changed = without(left, [word])
            if changed != left and len(taken) < MOST_WORDS:
                taken[word], left = remedy, changed
                if not is_refused([encoded(left)]):
                    break
        else:
            return [*taken.items()][:1]
        others = {it: [word for word in taken if word != it] for it in taken}
        return [
            (it, remedy)
            for it, remedy in taken.items()
            if len(taken) == 1 or is_refused([encoded(without(text, others[it]))])
        ]

    def take_out(self, lines: list[bytes], line: int) -> None:
        """Takes the line of a fault out, with those that continue it. What it defines stays
        defined, so that lines that use it are no faults of their own."""
        line, last = span(lines, line)
        text = COMMENT.sub("", logical(lines, line))
        kind = DEFINES.match(text.lstrip())
        lines[line - 1 : last] = [b""] * (last - line + 1)
        names = NAME.findall(text.lstrip()[kind.end() :]) if kind else []
        if kind and names:
            item = b"/x" if kind[0].startswith("Cm") else b"x"
            made = kind[0].encode() + b" : ".join(name.encode() + b" = " + item for name in names)
            lines[line - 1] = made
            found = self.asked(b"\n".join(lines))
            if found is not None and found[1] <= line:
                lines[line - 1] = b""


def span(lines: list[bytes], line: int) -> tuple[int, int]:
    """The first and the last of the lines that continue one another, of which this is one."""
    while line > 1 and CONTINUES.search(lines[line - 2]):
        line -= 1
    last = line
    while last < len(lines) and CONTINUES.search(lines[last - 1]):
        last += 1
    return line, last


def encoded(text: str) -> bytes:
    return text.encode("utf-8", "surrogateescape")


def logical(lines: list[bytes], line: int) -> str:
    """A line with those that continue it."""
    held = []
    for text in lines[line - 1 :]:
        held.append(CONTINUES.sub(b"", text))
        if not CONTINUES.search(text):
            break
    return b" ".join(held).decode("utf-8", "surrogateescape")


def joined(lines: list[str], line: int) -> str:
    """A line of a base that the desk reads, with those that continue it."""
    return logical([it.encode() for it in lines[line - 1 :]], 1)


def warnings_of(data: bytes) -> list[Warning]:
    """What is lawful in a base that the desk reads, and surely not meant."""
    lines, found = data.decode("ascii").split("\n"), []
    names: list[tuple[int, str]] = []
    for number, text in enumerate(lines, 1):
        line = COMMENT.sub("", text)
        is_continued = number > 1 and lines[number - 2].endswith("\\")
        following = lines[number] if number < len(lines) else ""
        if LATE.fullmatch(line) and DEFINES.match(following.lstrip()):
            said = "sudo refuses an alias's definition that continues a line: begin a line with it"
            found.append(Warning(number, "continuation", "\\", said))
        found += [
            Warning(number, "real-path", path, why)
            for path in PATH.findall(line)
            if (why := real_path(path))
        ]
        if not is_continued:
            found += risks(number, COMMENT.sub("", joined(lines, number)))
        kind = DEFINES.match(line.lstrip())
        if kind or is_continued:
            rest = line.lstrip()[kind.end() :] if kind else line
            names += [(number, name) for name in NAME.findall(rest)]
    prefix = os.path.commonprefix([name for _, name in names]).rpartition("_")[0]
    if names and not prefix:
        found += [Warning(number, "alias", name, UNPREFIXED) for number, name in names]
    return sorted(found)
