"""A command of a sudoers file in the words of a base."""

import re
from typing import Any

from desk_tools.schema import has_form
from desk_tools.sudo_text import shown
from desk_tools.sudoers import Place
from desk_tools.unsaid import Unsaid


def any_arguments(item: dict[str, Any]) -> str | None:
    """The program of `PROGRAM *`, which sudo takes for any arguments, and for none."""
    path, _, args = str(item["command"]).partition(" ")
    is_plain = args == "*" and len(item) == 1 + ("negated" in item)
    return path if is_plain and has_form(path, "command") and not path.endswith("/") else None


def command_words(place: Place, item: dict[str, Any]) -> str:
    """The base's words for a command."""
    text: str = item["command"]
    path, *args = text.split(" ")
    said = " ".join([path, *(as_argument(it) for it in args)])
    if why := sudos_own(item, path):
        raise Unsaid(place, shown(item), why)
    if program := any_arguments(item):
        return program
    if has_form(said, "command"):
        return said
    if text.endswith("/*") and has_form(text[:-1], "command"):
        raise Unsaid(place, shown(item), "directory")
    is_regex = path.startswith("^") or " ^" in text
    why = "regex" if is_regex else "path" if odd(path) else "argument"
    raise Unsaid(place, shown(item), why, odd(path) or odd(" ".join(args)))


def sudos_own(item: dict[str, Any], path: str) -> str | None:
    """Which of sudo's own a command is: one of a digest, or no program."""
    if any(key.startswith("sha") for key in item):
        return "digest"
    if path == "sudoedit" or path.endswith("/sudoedit"):
        return "sudoedit"
    return "list" if path == "list" else None


def as_argument(text: str) -> str:
    return text if text == '""' else re.sub(r"([,:=])", r"\\\1", text)


def odd(text: str) -> str:
    """The first byte that the words of a base do not have."""
    found = re.search(r"[^A-Za-z0-9._/+@%,:= -]", text)
    return found[0] if found else ""
