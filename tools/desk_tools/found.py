"""What a linter finds, and how it is shown."""

import argparse
import json
from typing import Any, NamedTuple, NoReturn

from steelnewt_client.codes import SENTENCES

NAMES = {
    "O1": "NotToml", "O2": "UnknownKey", "O3": "WrongType", "O4": "BadName", "O5": "UnknownName", "O6": "SelfConflict", "O7": "OutOfRange",
    **dict(code.split(" ") for code in SENTENCES),  # (M and A, of messages)
    "S1": "TooLong", "S2": "BadByte", "S3": "BadWord", "S4": "Unexpected", "S5": "UnknownAlias", "S6": "AliasTwice", "S7": "Reserved",
    "S8": "BadMoment", "S9": "LeftOut", "S10": "TooLarge", "S11": "NoMemory",
}  # fmt: skip
# of several faults the desk names the first of these
ORDER = [*NAMES]
MOST_SHOWN = 60


class Fault(NamedTuple):
    """Something for which the desk refuses a text: where, under which key, with which value, and what is expected."""

    line: int
    code: str
    key: str
    value: str
    expected: str


class Warning(NamedTuple):
    """Something that is lawful and surely not meant; a note says only what is so."""

    line: int
    kind: str
    key: str
    said: str
    is_note: bool = False


def visible(text: str) -> str:
    """A text for a terminal: whatever it would obey, or not show, stands as an escape."""
    return "".join(it if it.isprintable() else escaped(ord(it)) for it in text)


def escaped(code: int) -> str:
    """A character, or a byte that is no UTF-8."""
    if 0xDC80 <= code <= 0xDCFF:
        code -= 0xDC00
    return f"\\x{code:02x}" if code < 0x100 else f"\\u{code:04x}"


class Parser(argparse.ArgumentParser):
    """A reader of words that repeats none of them to a terminal as it stands."""

    def error(self, message: str) -> NoReturn:
        super().error(visible(message))


def coded(code: str) -> str:
    """A code as the desk prints it."""
    return f"{code} {NAMES[code]}"


def first_code(faults: list[Fault]) -> str | None:
    """The code that the desk answers where a text has these faults."""
    return min((fault.code for fault in faults), key=lambda it: ORDER.index(str(it)), default=None)


def shown(value: Any) -> str:
    """A value on one line, shortened."""
    try:
        is_stamp = hasattr(value, "text")
        text: str = value.text if is_stamp else json.dumps(value, ensure_ascii=True)
    except (TypeError, ValueError):
        text = str(value)
    return text if len(text) <= MOST_SHOWN else f"{text[: MOST_SHOWN - 4]} ..{text[-1]}"


def dotted(path: tuple[str | int, ...]) -> str:
    """A path as a person writes it: `people.ann`, the third of `relays`."""
    words = [shown(part) if isinstance(part, str) and not part.replace("-", "").replace("_", "").isalnum() else part for part in path]
    keys = ".".join(str(word) for word in words if isinstance(word, str))
    places = [str(word + 1) for word in words if isinstance(word, int)]
    return f"{keys} (item {', '.join(places)})" if places else keys
