"""Letters as a reader sees them: each with ink, and none over another (Unicode Standard Annex 44)."""

import unicodedata
from collections.abc import Callable, Iterator

# What `isprintable` lets through, and shows nothing: fillers, an empty pattern, and marks that
# choose a form of the letter before them (mostly Default_Ignorable_Code_Point).
RANGES = (
    (0x034F, 0x034F), (0x115F, 0x1160), (0x17B4, 0x17B5), (0x180B, 0x180F), (0x2800, 0x2800),
    (0x2D7F, 0x2D7F), (0x3164, 0x3164), (0xFE00, 0xFE0F), (0xFFA0, 0xFFA0), (0x1107F, 0x1107F),
    (0x16FE4, 0x16FE4), (0x1D159, 0x1D159), (0xE0100, 0xE01EF),
)  # fmt: skip
NO_INK = frozenset(chr(it) for first, last in RANGES for it in range(first, last + 1))
# Marks that stand over or around a letter; more of them would reach into the rows above and below.
MARKS, MOST_MARKS = ("Mn", "Me"), 2


def is_mark(letter: str) -> bool:
    return unicodedata.category(letter) in MARKS


def seen(text: str, other: Callable[[str], str]) -> str:
    """A text, with something else in place of each letter that is not seen where it stands."""
    found: list[str] = []
    marks = MOST_MARKS  # (none before the first letter: it would stand on what is before the text)
    for letter in text:
        if is_mark(letter):
            marks += 1
        else:
            marks = MOST_MARKS if letter == " " else 0
        is_seen = letter.isprintable() and letter not in NO_INK and marks <= MOST_MARKS
        found.append(letter if is_seen else other(letter))
    return "".join(found)


def tidy(text: str) -> str:
    """A line of a person's as it is kept: one blank between words, and nothing that is not seen."""
    composed = unicodedata.normalize("NFC", text)
    return " ".join(seen(composed, lambda _: "").split())


def plain(text: str) -> str:
    """A text as a terminal may have it, whoever wrote it: the rest stands as its escapes."""
    return seen(text, lambda letter: ascii(letter)[1:-1])


def columns(text: str) -> int:
    """How many columns of a terminal a text takes (Unicode Standard Annex 11)."""
    wide = sum(2 if unicodedata.east_asian_width(it) in "WF" else 1 for it in text)
    return wide - sum(1 for it in text if is_mark(it))


def units(word: str) -> Iterator[str]:
    """The letters of a word, each with its marks."""
    held = ""
    for letter in word:
        if held and not is_mark(letter):
            yield held
            held = ""
        held += letter
    if held:
        yield held


def pieces(word: str, most: int) -> Iterator[str]:
    """A word in parts, each as wide as may be."""
    held = ""
    for unit in units(word):
        if columns(held + unit) > most:
            yield held
            held = ""
        held += unit
    if held:
        yield held


def wrapped(text: str, most: int) -> list[str]:
    """A text in rows of so many columns at most, whose words are separated by one blank."""
    rows: list[str] = []
    for word in text.split():
        for number, piece in enumerate(pieces(word, most)):
            is_next = number == 0 and rows and columns(rows[-1]) + 1 + columns(piece) <= most
            rows = [*rows[:-1], f"{rows[-1]} {piece}"] if is_next else [*rows, piece]
    return rows
