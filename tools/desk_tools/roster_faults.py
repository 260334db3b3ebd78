"""What is wrong with a roster: its structure by the published schema, and what a schema cannot say by the rules of docs/ROSTER.md."""

import re
from collections.abc import Iterator
from datetime import date
from typing import Any, TypeGuard

from desk_tools import schema, toml_text
from desk_tools.found import Fault, dotted, shown

MOST_BYTES = 1_048_576
TYPES = {"array": "a list", "object": "a table", "string": "a text", "integer": "a whole number"}
# what the words of each form are, by the schema's title
FORMS = {
    "Label": "a label: lower-case letters, 0-9 and -, beginning with a letter, up to 32 bytes",
    "Duty": "a duty's label: lower-case letters, 0-9 and -, beginning with a letter, up to 32 bytes",
    "Host name": "a short host name: lower-case letters, 0-9 and -, beginning with a letter, up to 32 bytes, and no keyword of sudo (sudoedit, sha224 ..)",
    "User name": "a user name: lower-case letters, 0-9, . _ and -, beginning with a letter or _, up to 32 bytes, and no keyword of sudo (sudoedit, sha224 ..)",
    "Entry": "a duty's label, or a table of duty, from and until",
}
TAGS = {"PASSWD", "NOPASSWD", "EXEC", "NOEXEC", "SETENV", "NOSETENV", "LOG_INPUT", "LOG_OUTPUT", "MAIL", "FOLLOW", "INTERCEPT"}
COMMAND_FORM = 'ALL, a directory that ends in /, or a file\'s path with nothing, `""` or 1 to 16 arguments behind it'
PATH = re.compile(r"(?:/[A-Za-z0-9._+-]+)+/?")
ARGUMENT = re.compile(r"(?:[A-Za-z0-9._+/@%-]|\\[,:=])+")


def why_no_command(text: str) -> str | None:
    """The likeliest reason why a text is no command; None where none is likely."""
    path, *args = text.split(" ")
    if text.split(":")[0] in TAGS:
        return "no tag stands here"
    if text.startswith("!"):
        return "nothing is denied here: list what is meant to run"
    if text.lower() == "all":
        return "ALL is written in capitals"
    if path == "sudoedit" or path.endswith("/sudoedit"):
        return "sudo takes a file named sudoedit for its own command, which edits any file"
    if not text.startswith("/"):
        return "a path begins with /"
    if any(mark in text for mark in "*?[]"):
        return "there are no wildcards: a directory allows each file in it, a path alone any arguments"
    if "  " in text or text != text.strip():
        return "its parts stand apart by single spaces"
    return why_no_path(path) or why_no_arguments(path, args)


def why_no_path(path: str) -> str | None:
    if path == "/":
        return "/ alone is no directory here: name the directories, or write ALL"
    if any(part in ("", ".", "..") for part in path.removesuffix("/").split("/")[1:]):
        return "no part of a path is empty, . or .."
    return None if PATH.fullmatch(path) else "a path has letters, digits and . _ + - alone"


def why_no_arguments(path: str, args: list[str]) -> str | None:
    if args and path.endswith("/"):
        return "a directory has no arguments behind it"
    if len(args) > 16:
        return f"there are {len(args)} arguments"
    if '""' in args and len(args) > 1:
        return 'behind `""` nothing stands'
    if any(ARGUMENT.fullmatch(re.sub(r"(?<!\\)([,:=])", r"\\\1", it)) and not ARGUMENT.fullmatch(it) for it in args):
        return "`,` `:` and `=` have a backslash before them (write such a text between ' in TOML)"
    if any(not ARGUMENT.fullmatch(it) for it in args if it != '""'):
        return "an argument has letters, digits and . _ / + - @ % alone, and `,` `:` and `=` behind a backslash: no quotes, no marks of a shell"
    return "an argument has up to 64 bytes" if any(len(it.replace("\\", "")) > 64 for it in args) else None


def command_form(text: str) -> str:
    """The likeliest reason why this is no command, and what is expected."""
    why = why_no_command(text)
    return f"{why}; expected {COMMAND_FORM}" if why else f"expected {COMMAND_FORM}"


def name_form(title: str, text: str) -> str:
    """What is expected of a name, and what stands in its place."""
    if title == "User name" and text == "ALL":
        return f"{FORMS[title]}: each target is named, and there is no ALL"
    if title == "Host name" and "." in text:
        return f"{FORMS[title]}: no domain, no address"
    return FORMS[title]


def type_form(title: str, kinds: list[str], value: Any) -> str:
    """What type is expected, and how it is written where a day or a pair has another."""
    if title == "Pair":
        return 'a list of two duties, as in conflicts = [["approve", "audit"]]'
    if "day" in title.lower():
        digits = re.sub("[^0-9]", "", value.text if isinstance(value, toml_text.Stamp) else str(value))
        return f'a day between quotes, as "{digits if len(digits) == 8 else "20260105"}"'
    return " or ".join(TYPES[kind] for kind in kinds)


def expected(error: Any) -> tuple[str, str]:
    """The code of a schema's error, and what is expected in its place."""
    value, limit, keyword = error.instance, error.validator_value, error.validator
    title = error.schema.get("title", "")
    if keyword == "type":
        kinds = [limit] if isinstance(limit, str) else limit
        return "O3", f"expected {type_form(title, kinds, value)}"
    if keyword == "pattern" and title == "Command":
        return "O4", command_form(value)
    if keyword == "pattern" and "day" in title.lower():
        return "O7", "expected a day from 19700101 to 20991231, as yyyymmdd"
    if keyword == "pattern":
        return "O4", f"expected {name_form(title, value)}"
    if title == "Pair":
        return "O3", f"expected exactly two duties, and there are {len(value)}"
    if keyword in ("minItems", "maxItems", "maxProperties"):
        most = error.schema.get("maxItems", error.schema.get("maxProperties"))
        return "O7", f"expected {error.schema.get('minItems', 0)} to {most:,} of them, and there are {len(value):,}"
    if keyword in ("minimum", "maximum"):
        return "O7", f"expected {error.schema['minimum']} to {error.schema['maximum']:,}"
    raise AssertionError(f"the schema has a keyword that is not known here: {keyword}")


class Roster:
    """A roster's text and what is found in it."""

    def __init__(self, data: bytes) -> None:
        self.data = data
        self.document = toml_text.read(data)
        self.faults: list[Fault] = []

    def add(self, code: str, path: toml_text.Path, value: Any, said: str) -> None:
        self.faults.append(Fault(self.document.line(path), code, dotted(path), shown(value), said))

    def look(self) -> list[Fault]:
        """All faults, by line."""
        if self.document.faults:
            return [Fault(line, "O1", "", "", said) for line, said in self.document.faults]
        if not schema.fits("roster")(self.document.value):
            for error in schema.validator("roster").iter_errors(self.document.value):
                self.by_schema(error)
        self.names()
        self.days()
        if len(self.data) > MOST_BYTES:
            self.faults.append(Fault(1, "O7", "", "", f"expected up to {MOST_BYTES:,} bytes, and there are {len(self.data):,}"))
        return sorted(self.faults)

    def by_schema(self, error: Any) -> None:
        path = tuple(error.absolute_path)
        if error.validator == "additionalProperties":
            for key in sorted(set(error.instance) - set(error.schema["properties"])):
                known = ", ".join(error.schema["properties"])
                self.add("O2", (*path, key), error.instance[key], f"the key is unknown; known here are {known}")
        elif error.validator == "required":
            # (one error for each key that is missing)
            for key in error.validator_value:
                if key not in error.instance and error.message.startswith(f"{key!r} "):
                    self.faults.append(Fault(self.document.line(path), "O3", dotted(path), "", f"the key {key} is missing"))
        elif "propertyNames" in error.absolute_schema_path:
            self.add("O4", (*path, error.instance), error.instance, expected(error)[1])
        else:
            code, said = expected(error)
            if code == "O3" and len(path) == 2 and path[0] == "people" and isinstance(error.instance, dict):
                said += ": a name with a dot stands between quotes, since TOML takes it for a key of a key"
            if code == "O3" and len(path) == 2 and path[0] == "ceilings" and path[1] in self.ceiling_keys():
                said += ": it is a key of a ceiling, whose keys stand below [ceilings.NAME]"
            self.add(code, path, error.instance, said)

    def ceiling_keys(self) -> list[str]:
        return list(schema.document("roster")["$defs"]["ceiling"]["properties"])

    # ---- what a schema cannot say

    def texts(self, *path: str | int) -> Iterator[tuple[toml_text.Path, str]]:
        """The texts of the list at a path."""
        held = self.at(path)
        if isinstance(held, list):
            yield from (((*path, place), it) for place, it in enumerate(held) if isinstance(it, str))

    def at(self, path: toml_text.Path) -> Any:
        held: Any = self.document.value
        for part in path:
            fits = isinstance(held, dict) if isinstance(part, str) else isinstance(held, list)
            if not fits or (isinstance(part, str) and part not in held):
                return None
            held = held[part]
        return held

    def members(self, key: str) -> dict[str, Any]:
        held = self.at((key,))
        return held if isinstance(held, dict) else {}

    def entries(self) -> Iterator[tuple[toml_text.Path, Any]]:
        """Each entry of each person."""
        for person, held in self.members("people").items():
            if isinstance(held, list):
                yield from ((("people", person, place), it) for place, it in enumerate(held))

    def used_duties(self) -> Iterator[tuple[toml_text.Path, Any]]:
        pairs = self.at(("conflicts",))
        for place, pair in enumerate(pairs if isinstance(pairs, list) else []):
            if isinstance(pair, list):
                yield from ((("conflicts", place, number), it) for number, it in enumerate(pair))
        for path, entry in self.entries():
            yield (*path, "duty") if isinstance(entry, dict) else path, entry.get("duty") if isinstance(entry, dict) else entry
        for label, ceiling in self.members("ceilings").items():
            if isinstance(ceiling, dict):
                yield from ((("ceilings", label, key), ceiling.get(key)) for key in ("ask", "approve"))

    def names(self) -> None:
        """Each duty is listed, each ceiling's host too, and no duty conflicts with itself."""
        duties = {text for _, text in self.texts("duties")}
        hosts = {text for _, text in self.texts("hosts")}
        for path, duty in self.used_duties():
            if isinstance(duty, str) and duty not in duties:
                self.add("O5", path, duty, f"expected one of `duties`: {near(duty, duties)}")
        for label in self.members("ceilings"):
            for path, host in self.texts("ceilings", label, "hosts"):
                if host not in hosts:
                    self.add("O5", path, host, f"expected one of the roster's `hosts`: {near(host, hosts)}")
        pairs = self.at(("conflicts",))
        for place, pair in enumerate(pairs if isinstance(pairs, list) else []):
            if isinstance(pair, list) and len(pair) == 2 and isinstance(pair[0], str) and pair[0] == pair[1]:
                self.add("O6", ("conflicts", place), pair, "expected two different duties")

    def days(self) -> None:
        """Each day is one of the calendar's, and no entry ends before it begins."""
        for path, entry in self.entries():
            if not isinstance(entry, dict):
                continue
            first, last = (entry.get(key) for key in ("from", "until"))
            for key, text in (("from", first), ("until", last)):
                if isinstance(text, str) and is_formed(text) and not is_day(text):
                    self.add("O7", (*path, key), text, "expected a day of the calendar")
            if is_day(first) and is_day(last) and first > last:
                self.add("O7", path, entry, "`from` is after `until`")


def near(word: str, known: set[str]) -> str:
    """The known words, the likest first."""
    import difflib

    likest = difflib.get_close_matches(word, sorted(known), 3, 0.5)
    words = [*likest, *sorted(known - set(likest))]
    return ", ".join(words[:8]) + (" .." if len(words) > 8 else "") or "there is none"


def is_formed(text: str) -> bool:
    """Whether the schema takes the text for a day."""
    return schema.day_form().search(text) is not None


def is_day(text: Any) -> TypeGuard[str]:
    if not isinstance(text, str) or not is_formed(text):
        return False
    try:
        date(int(text[:4]), int(text[4:6]), int(text[6:]))
    except ValueError:
        return False
    return True
