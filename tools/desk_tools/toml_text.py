"""A reader of TOML 1.1 that knows the line of each key and value, and goes on behind a fault.

Python's tomllib reads TOML 1.0 and tells no lines; a desk reads TOML 1.1. What is read here is what a desk reads, with its limits: 80 values in one
another and 80 parts in a key, whole numbers of 64 bits, and finite floats.
"""

import bisect
import re
from dataclasses import dataclass, field
from typing import Any, NamedTuple

DEPTH = 80
LAST_INTEGER = 2**63 - 1

Path = tuple[str | int, ...]


class Fault(NamedTuple):
    """Where a text is no TOML, and why."""

    line: int
    said: str


class Stamp(NamedTuple):
    """A date or a time, by its text: no roster has one."""

    text: str


class Refused(Exception):
    def __init__(self, at: int, said: str) -> None:
        super().__init__(said)
        self.at, self.said = at, said


@dataclass
class Node:
    """A value or a table, the place of its key, and what made it: a `value`, an `array` of tables, or a table by a `header`, by one that passed
    through it, or by a `dotted` key. A value's text is from `start` to `end`."""

    origin: str
    held: Any
    at: int
    start: int = 0
    end: int = 0


@dataclass
class Document:
    """What was read, the line of each key and item, and the faults; what is behind a fault on its own line is not in it."""

    value: dict[str, Any] = field(default_factory=dict)
    lines: dict[Path, int] = field(default_factory=dict)
    faults: list[Fault] = field(default_factory=list)

    def line(self, path: Path) -> int:
        """The line of what stands at the path, or of the nearest that holds it."""
        while path and path not in self.lines:
            path = path[:-1]
        return self.lines.get(path, 1)


# what a comment and a text on one line may hold
PLAIN = r"\t\x20-\x7e\x80-\U0010ffff"
WS = re.compile(r"[ \t]*")
BLANK = re.compile(rf"(?:[ \t]|\r?\n|#[{PLAIN}]*)*")
BLANK_LINES = re.compile(r"(?:[ \t]|\r?\n)*")
NEWLINE = re.compile(r"\r?\n")
BARE = re.compile(r"[A-Za-z0-9_-]+")
WORD = re.compile(r"[A-Za-z0-9_+.:-]+(?: (?=[0-9])[A-Za-z0-9_+.:-]*)?")
RUNS = {
    ('"', False): re.compile(r"[\t\x20\x21\x23-\x5b\x5d-\x7e\x80-\U0010ffff]*"),
    ('"', True): re.compile(r"[\t\n\x20\x21\x23-\x5b\x5d-\x7e\x80-\U0010ffff]*"),
    ("'", False): re.compile(r"[\t\x20-\x26\x28-\x7e\x80-\U0010ffff]*"),
    ("'", True): re.compile(r"[\t\n\x20-\x26\x28-\x7e\x80-\U0010ffff]*"),
}
ESCAPES = {"b": "\b", "e": "\x1b", "f": "\f", "n": "\n", "r": "\r", "t": "\t", '"': '"', "\\": "\\"}
DATE = r"([0-9]{4})-([0-9]{2})-([0-9]{2})"
TIME = r"([0-9]{2}):([0-9]{2})(?::([0-9]{2})(?:\.[0-9]+)?)?"
LOCAL_TIME = re.compile(TIME)
DATE_TIME = re.compile(rf"{DATE}(?:[Tt ]{TIME}([Zz]|[+-]([0-9]{{2}}):([0-9]{{2}}))?)?")
DECIMAL = re.compile(r"[+-]?(0|[1-9][0-9]*)(\.[0-9]+)?([eE][+-]?[0-9]+)?")
PREFIXED = {"0x": ("[0-9a-fA-F]+", 16), "0o": ("[0-7]+", 8), "0b": ("[01]+", 2)}
# what word processors and people make of a quote
TYPOGRAPHIC = tuple("\u201c\u201d\u201e\u201f\u2018\u2019\u201a\u201b\u00ab\u00bb\u00b4`")
# a line at which reading goes on behind a fault
FRESH = re.compile(r"[ \t]*(?:\[\[?[\w\"'. \t-]+\]\]?[ \t]*(?:#.*)?$|[\w\"'. \t-]+=)", re.ASCII | re.MULTILINE)


def is_day(year: int, month: int, day: int) -> bool:
    leap = year % 4 == 0 and (year % 100 != 0 or year % 400 == 0)
    days = (31, 29 if leap else 28, 31, 30, 31, 30, 31, 31, 30, 31, 30, 31)
    return 1 <= month <= 12 and 1 <= day <= days[month - 1]


def is_time(hour: str, minute: str, second: str | None) -> bool:
    return int(hour) < 24 and int(minute) < 60 and int(second or 0) <= 60


def is_stamp(word: str) -> bool:
    if word[2:3] == ":":
        found = LOCAL_TIME.fullmatch(word)
        return found is not None and is_time(found[1], found[2], found[3])
    found = DATE_TIME.fullmatch(word)
    if found is None or not is_day(int(found[1]), int(found[2]), int(found[3])):
        return False
    if found[4] is not None and not is_time(found[4], found[5], found[6]):
        return False
    return found[8] is None or (int(found[8]) < 24 and int(found[9]) < 60)


def number(word: str) -> int | float | None:
    """The number that the word is; None where it is none."""
    digits = "0-9a-fA-F" if word.startswith("0x") else "0-9"
    if re.search(rf"(?<![{digits}])_|_(?![{digits}])", word):
        return None
    plain = word.replace("_", "")
    if plain[:2] in PREFIXED:
        form, base = PREFIXED[plain[:2]]
        if not re.fullmatch(form, plain[2:]):
            return None
        found = int(plain[2:], base)
        return found if found <= LAST_INTEGER else None
    if plain.lstrip("+-") in ("inf", "nan") and re.fullmatch("[+-]?(inf|nan)", plain):
        return float(plain)
    parts = DECIMAL.fullmatch(plain)
    if parts is None:
        return None
    if parts[2] or parts[3]:
        found_float = float(plain)
        return found_float if abs(found_float) != float("inf") else None
    if len(plain) > 24:
        return None
    found = int(plain)
    return found if -LAST_INTEGER - 1 <= found <= LAST_INTEGER else None


class Reader:
    def __init__(self, text: str) -> None:
        self.text = text
        self.breaks = [found.start() for found in re.finditer("\n", text)]

    def line_of(self, at: int) -> int:
        return bisect.bisect_left(self.breaks, at) + 1

    # ---- words

    def skip(self, form: re.Pattern[str], at: int) -> int:
        found = form.match(self.text, at)
        return found.end() if found else at

    def quoted(self, at: int) -> tuple[str, int]:
        """Any of the four kinds of text."""
        mark = self.text[at]
        if self.text.startswith(mark * 3, at):
            found = NEWLINE.match(self.text, at + 3)
            return self.body(found.end() if found else at + 3, mark, True)
        return self.body(at + 1, mark, False)

    def body(self, at: int, mark: str, is_long: bool) -> tuple[str, int]:
        began, pieces = at, []
        while True:
            found = RUNS[mark, is_long].match(self.text, at)
            assert found is not None
            pieces.append(found[0])
            at = found.end()
            next_one = self.text[at : at + 1]
            if next_one == mark and not is_long:
                return "".join(pieces), at + 1
            if next_one == mark:
                count = len(self.text[at : at + 6]) - len(self.text[at : at + 6].lstrip(mark))
                if count == 3:
                    return "".join(pieces), at + 3
                if count > 5:
                    raise Refused(at, f"six or more {mark} in a text")
                pieces.append(mark)
                at += 1
            elif next_one == "\\" and mark == '"':
                piece, at = self.escape(at + 1, is_long)
                pieces.append(piece)
            elif is_long and next_one == "\r" and self.text.startswith("\r\n", at):
                pieces.append("\r")
                at += 1
            elif next_one in ("", "\n", "\r"):
                raise Refused(began, f"a text has no {mark * 3 if is_long else mark} at its end")
            else:
                raise Refused(at, f"the byte {ord(next_one)} may not stand in a text")

    def escape(self, at: int, is_long: bool) -> tuple[str, int]:
        if is_long and NEWLINE.match(self.text, self.skip(WS, at)):
            return "", self.skip(BLANK_LINES, at)
        letter = self.text[at : at + 1]
        if letter in ("x", "u", "U"):
            count = {"x": 2, "u": 4, "U": 8}[letter]
            digits = self.text[at + 1 : at + 1 + count]
            if re.fullmatch(f"[0-9a-fA-F]{{{count}}}", digits):
                code = int(digits, 16)
                if code <= 0x10FFFF and not 0xD800 <= code <= 0xDFFF:
                    return chr(code), at + 1 + count
        elif letter in ESCAPES:
            return ESCAPES[letter], at + 1
        raise Refused(at, f"no escape of a text is \\{letter}: write a backslash as \\\\, or the text between '")

    def simple_key(self, at: int) -> tuple[str, int]:
        if self.text[at : at + 1] in ('"', "'") and at < len(self.text):
            return self.body(at + 1, self.text[at], False)
        found = BARE.match(self.text, at)
        end = found.end() if found else at
        if self.text[end : end + 1] > "\x7f":
            raise Refused(end, f"{self.text[end]} may not stand in a key without quotes: a-z, A-Z, 0-9, - and _ may")
        if found is None:
            raise Refused(at, "a key is expected here: letters, digits, - and _, or a text between quotes")
        return found[0], end

    def dotted_key(self, at: int) -> tuple[list[str], int]:
        parts: list[str] = []
        began = at
        for _ in range(DEPTH):
            part, at = self.simple_key(at)
            parts.append(part)
            at = self.skip(WS, at)
            if not self.text.startswith(".", at):
                return parts, at
            at = self.skip(WS, at + 1)
        raise Refused(began, f"a key has more than {DEPTH} parts")

    def key_equals(self, at: int) -> tuple[list[str], int]:
        key, at = self.dotted_key(at)
        if not self.text.startswith("=", at):
            raise Refused(at, f"= is expected behind the key {'.'.join(key)}")
        return key, self.skip(WS, at + 1)

    # ---- values

    def value(self, at: int, depth: int) -> tuple[Node, int]:
        node, end = self.bare_value(at, depth)
        node.start, node.end = at, end
        return node, end

    def bare_value(self, at: int, depth: int) -> tuple[Node, int]:
        mark = self.text[at : at + 1]
        if mark and mark in "[{":
            if depth == 0:
                raise Refused(at, f"more than {DEPTH} lists and tables in one another")
            return (self.array if mark == "[" else self.inline_table)(at, depth - 1)
        if mark and mark in "\"'":
            text, end = self.quoted(at)
            return Node("value", text, at), end
        return self.unquoted(at)

    def unquoted(self, at: int) -> tuple[Node, int]:
        found = WORD.match(self.text, at)
        if found is None and self.text[at : at + 1] in TYPOGRAPHIC:
            raise Refused(at, f"{self.text[at]} is no quote of TOML: a text stands between \" or '")
        if found is None:
            raise Refused(at, "a value is expected here: a text between quotes, a number, a list or a table")
        word = found[0]
        if word in ("true", "false"):
            return Node("value", word == "true", at), found.end()
        if re.match("[0-9]+[-:]", word):
            if not is_stamp(word):
                raise Refused(at, f"{word} is no date or time")
            return Node("value", Stamp(word), at), found.end()
        read = number(word)
        if read is None:
            raise Refused(at, f"{word} is no value: a text stands between quotes, and a number has at most 64 bits")
        return Node("value", read, at), found.end()

    def array(self, at: int, depth: int) -> tuple[Node, int]:
        began, rest = at, at + 1
        items: list[Node] = []
        while True:
            start = self.skip(BLANK, rest)
            if self.text.startswith("]", start):
                return Node("value", items, began), start + 1
            item, after = self.value(start, depth)
            items.append(item)
            rest = self.after_element(after, "]", began)

    def inline_table(self, at: int, depth: int) -> tuple[Node, int]:
        began, rest = at, at + 1
        held: dict[str, Node] = {}
        while True:
            start = self.skip(BLANK, rest)
            if self.text.startswith("}", start):
                return Node("value", held, began), start + 1
            key, at_value = self.key_equals(start)
            member, after = self.value(at_value, depth)
            member.at = start
            along_dots(held, key, member, start)
            rest = self.after_element(after, "}", began)

    def after_element(self, at: int, closing: str, began: int) -> int:
        rest = self.skip(BLANK, at)
        if self.text.startswith(",", rest):
            return rest + 1
        if self.text.startswith(closing, rest):
            return rest
        what = "list" if closing == "]" else "table"
        raise Refused(rest, f"a comma or {closing} is expected in the {what} that begins in line {self.line_of(began)}")

    # ---- lines

    def expression(self, root: dict[str, Node], section: list[str], at: int) -> tuple[list[str], int]:
        """A header or a pair; which section follows, and where."""
        began = at
        if self.text.startswith("[", at):
            marks = 2 if self.text.startswith("[[", at) else 1
            key, at = self.dotted_key(self.skip(WS, at + marks))
            if not self.text.startswith("]" * marks, at):
                raise Refused(at, f"{']' * marks} is expected behind the name of a table")
            at += marks
            self.end_line(at)
            fresh = Node("header", {}, began) if marks == 1 else Node("array", [Node("header", {}, began)], began)
            along_header(root, key[:-1], [], key[-1], fresh, began)
            return key, at
        key, at_value = self.key_equals(at)
        value, at = self.value(at_value, DEPTH)
        self.end_line(at)
        value.at = began
        try:
            along_header(root, section, key[:-1], key[-1], value, began)
        except Refused as fault:
            where = f": this line belongs to [{'.'.join(section)}]" if section else ""
            raise Refused(fault.at, f"{fault.said}{where}") from None
        return section, at

    def end_line(self, at: int) -> None:
        at = self.skip(WS, at)
        if at < len(self.text) and self.text[at] not in "#\n\r":
            raise Refused(at, "the line goes on behind its value")

    def document(self) -> Document:
        found = Document()
        root = self.tree(found)
        found.value = self.closed(root, (), found.lines)
        return found

    def tree(self, found: Document) -> dict[str, Node]:
        """The values and tables, with their places; what is no TOML is a fault of the document."""
        root: dict[str, Node] = {}
        section: list[str] = []
        at = 1 if self.text.startswith("\ufeff") else 0
        while True:
            at = self.skip(BLANK, at)
            if at == len(self.text):
                break
            try:
                section, at = self.expression(root, section, at)
            except Refused as fault:
                place = min(fault.at, len(self.text))
                found.faults.append(Fault(self.line_of(place), fault.said))
                at = self.next_fresh(at)
        return root

    def next_fresh(self, at: int) -> int:
        """The next line that looks like a header or a key."""
        while (end := self.text.find("\n", at)) >= 0:
            at = end + 1
            if FRESH.match(self.text, at):
                return at
        return len(self.text)

    def closed(self, held: Any, path: Path, lines: dict[Path, int]) -> Any:
        """The plain value, and the line of each part of it."""
        if isinstance(held, Node):
            lines[path] = self.line_of(held.at)
            return self.closed(held.held, path, lines)
        if isinstance(held, dict):
            return {key: self.closed(node, (*path, key), lines) for key, node in held.items()}
        if isinstance(held, list):
            return [self.closed(node, (*path, place), lines) for place, node in enumerate(held)]
        return held


# ---- which keys and headers define which tables


def along_header(held: dict[str, Node], path: list[str], dots: list[str], key: str, what: Node, at: int) -> None:
    """Follows a path as a header does, then dots as a dotted key does, and defines the key there."""
    for part in path:
        node = held.setdefault(part, Node("passed", {}, at))
        if node.origin == "value":
            raise Refused(at, f"{part} is no table")
        held = node.held[-1].held if node.origin == "array" else node.held
    along_dots(held, [*dots, key], what, at)


def along_dots(held: dict[str, Node], key: list[str], what: Node, at: int) -> None:
    for part in key[:-1]:
        if part not in held:
            held[part] = Node("dotted", {}, at)
        elif held[part].origin == "passed":
            held[part].origin = "dotted"
        elif held[part].origin != "dotted":
            raise Refused(at, f"{part} comes twice")
        held = held[part].held
    last = key[-1]
    if last not in held:
        held[last] = what
    elif what.origin == "header" and held[last].origin == "passed":
        held[last].origin, held[last].at = "header", at
    elif what.origin == "array" and held[last].origin == "array":
        held[last].held.append(what.held[0])
    else:
        raise Refused(at, f"{last} comes twice")


def read(data: bytes) -> Document:
    """The document that the bytes are, or its faults."""
    try:
        text = data.decode("utf-8")
    except UnicodeDecodeError as fault:
        line = data.count(b"\n", 0, fault.start) + 1
        return Document(faults=[Fault(line, f"the byte {data[fault.start]:#04x} is no UTF-8: save the file as UTF-8")])
    return Reader(text).document()
