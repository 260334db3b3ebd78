"""The lines of a sudoers file: each with those that continue it and without its comment, and the
directives that include other files.

This follows the rules of sudo's own lexer as closely as it can. Where it errs, what it finds differs
from what sudo reads of the whole file, and that is refused (sudoers.py).
"""

import re
from collections.abc import Iterator
from typing import NamedTuple

CONTINUED = re.compile(r"\\[ \t]*\r?\n")
CONTINUED_STRING = re.compile(r"\\[ \t]*\r?\n[ \t]*")
COMMENT = re.compile(r"#(?!-?[0-9])[^\n]*")
DEFAULTS = re.compile(r"[ \t]*Defaults")
BLANKS = re.compile(r"[ \t]+")
# what a digest may be made of has slashes and equals signs in it
DIGEST = re.compile(r"sha(?:224|256|384|512)[ \t]*:[ \t]*[A-Za-z0-9+/=]+")
PATH = re.compile(r"/(?:\\[,:= \t#]|[^,:=\\ \t\r\n#])+")
PATH_AS_REGEX = re.compile(r"\^(?:[^#\r\n$]|\\[#$])*\$")
EDIT = re.compile(r"sudoedit(?=[ \t\\\r\n])")
WORD = re.compile(r"(?:[^#>!=:,() \t\r\n\\\"]|\\[^\t\n])+")
ARGUMENTS = re.compile(r"(?:[^#\\:,=\r\n]|\\[*?\[\]!^:\\,= \t#])+")
ARGUMENT_AS_REGEX = re.compile(r"[ \t]*\^(?:\\[^\r\n]|[^#\\\r\n$])*\$")
STRING = re.compile(r'(?:[^"\r\n\\]|\\"|\\(?![ \t]*\r?\n))+')
INCLUDE = re.compile(
    r'(?:[ \t]*@(?P<at>include|includedir)(?![^#>!=:,() \t\r\n\\"])'
    r"|#(?P<hash>include|includedir)(?=[ \t]))[ \t]*"
    r'(?:"(?P<quoted>(?:[^"\r\n\\]|\\"|\\(?!"))+)"|(?P<plain>[^"\s](?:\\[ \t]|[^\s])*))'
    r"[ \t]*(?:#(?!-?[0-9])[^\n]*)?\r?(?:\n|\Z)"
)
BEGINS_INCLUDE = re.compile(r"[ \t]*@include(?:dir)?(?![^#>!=:,() \t\r\n\\\"])|#include(?:dir)?[ \t]")
ESCAPED = re.compile(r"\\(?:x([0-9A-Fa-f]{2})|(.))", re.DOTALL)
SPLIT = "a blank in a command's path cannot be told from the blank before its arguments"
HIDDEN = "ALL between quotes or with a backslash is a name to sudo, and cannot be told from ALL"


class Include(NamedTuple):
    """A directive: the file that it names, or the directory."""

    name: str
    is_directory: bool


class Line(NamedTuple):
    """A line, the number of its first, and the directive that it is; and why cvtsudoers may print
    something else than sudo means by the line."""

    number: int
    text: str
    include: Include | None = None
    unsure: str | None = None


class NoInclude(Exception):
    """A directive whose file is not understood."""

    def __init__(self, number: int) -> None:
        super().__init__(number)
        self.number = number


def unescaped(text: str) -> str:
    return ESCAPED.sub(lambda it: chr(int(it[1], 16)) if it[1] else it[2], text)


class Scanner:
    """Goes through a text as sudo does. Quotes mean something between commands, and are plain bytes
    in the arguments of one."""

    def __init__(self, text: str) -> None:
        self.text, self.at, self.number = text, 0, 1
        self.pieces: list[str] = []
        self.unsure: str | None = None

    def lines(self) -> Iterator[Line]:
        while self.at < len(self.text):
            began = self.number
            if BEGINS_INCLUDE.match(self.text, self.at):
                yield Line(began, "", self.include())
                continue
            self.pieces, self.unsure = [], None
            is_defaults = DEFAULTS.match(self.text, self.at) is not None
            self.line(is_defaults)
            unsure = None if is_defaults else self.unsure
            yield Line(began, "".join(self.pieces).rstrip("\r \t"), None, unsure)

    def include(self) -> Include:
        found = INCLUDE.match(self.text, self.at)
        if found is None:
            raise NoInclude(self.number)
        self.at, self.number = found.end(), self.number + 1
        quoted = found["quoted"]
        name = quoted.replace('\\"', '"') if quoted else unescaped(found["plain"])
        return Include(name, (found["at"] or found["hash"]) == "includedir")

    def take(self, form: re.Pattern[str], said: str | None = None) -> bool:
        """Goes on behind what has the form, and keeps it, or what is said in its place."""
        found = form.match(self.text, self.at)
        if found is None:
            return False
        self.pieces.append(found[0] if said is None else said)
        self.number += found[0].count("\n")
        self.at = found.end()
        return True

    def line(self, is_defaults: bool) -> None:
        """One line, up to and with the newline that ends it."""
        while self.at < len(self.text):
            if self.text[self.at] == "\n":
                self.at, self.number = self.at + 1, self.number + 1
                return
            if self.take(CONTINUED, " ") or self.take(COMMENT, ""):
                continue
            if self.text[self.at] == '"':
                self.string()
            elif is_defaults or not self.command():
                self.other()

    def other(self) -> None:
        if not (self.take(BLANKS) or self.take(PATH) or self.word()):
            self.pieces.append(self.text[self.at])
            self.at += 1

    def word(self) -> bool:
        if not self.take(WORD):
            return False
        word = self.pieces[-1]
        if word != "ALL" and unescaped(word) == "ALL":
            self.unsure = HIDDEN
        return True

    def string(self) -> None:
        """A text between quotes; one that has no end ends with its line."""
        began = len(self.pieces) + 1
        self.pieces.append('"')
        self.at += 1
        while self.take(STRING) or self.take(CONTINUED_STRING, ""):
            pass
        if "".join(self.pieces[began:]) == "ALL":
            self.unsure = HIDDEN
        if self.text[self.at : self.at + 1] == '"':
            self.pieces.append('"')
            self.at += 1

    def command(self) -> bool:
        """Whether a command was read here, with its arguments, or a digest."""
        if self.take(DIGEST):
            # (a blank in a path behind it is not looked for: any that is written so counts)
            if re.search(r"\\[ \t]", self.text[self.at :].split("\n")[0]):
                self.unsure = SPLIT
            return True
        found = PATH.match(self.text, self.at)
        if found is not None and not self.longer_word(found):
            if re.search(r"\\[ \t]", found[0]):
                self.unsure = SPLIT
            self.take(PATH)
            if not found[0].endswith("/"):
                self.arguments()
            return True
        if self.take(PATH_AS_REGEX) or self.take(EDIT):
            self.arguments()
            return True
        return False

    def longer_word(self, path: re.Match[str]) -> bool:
        """Whether sudo takes more than the path for a word, since the longest wins."""
        word = WORD.match(self.text, self.at)
        return word is not None and word.end() > path.end()

    def arguments(self) -> None:
        """All up to the mark that ends a command; the mark is not taken."""
        is_first = True
        while True:
            if self.take(CONTINUED, " "):
                continue
            if is_first and self.take(ARGUMENT_AS_REGEX):
                return
            is_first = False
            if not self.take(ARGUMENTS):
                return


def lines_of(text: str) -> list[Line]:
    return list(Scanner(text).lines())
