"""What is wrong with a message: the one text of its value, its members by the published schema, and what a schema cannot say (docs/MESSAGES.md)."""

import json
import re
from collections.abc import Iterator
from typing import Any

from desk_tools import roster_faults, schema
from desk_tools.found import Fault, dotted, shown
from steelnewt_client import moments
from steelnewt_client.messages import MOST_BYTES, canonical
from steelnewt_client.moments import BadMoment

MOST_DEEP = 127
KINDS = ("request", "approve", "refuse", "revoke")
# what writes a message on one line: a verdict, and a request, whose lists have an order
FOLD = ("jq -cS .", "jq -cS '.hosts |= unique | .cmnds |= unique'")
TEXT = re.compile(r'"(?:[^"\\]|\\.)*"')
NUMBER = re.compile(r"-?[0-9][0-9.eE+-]*")
MOMENT = "expected a moment in UTC as 20260105090000Z: 14 digits and Z, hours up to 23, minutes and seconds up to 59"


class NoJson(Exception):
    """The text is none of JSON."""


def depth(text: str) -> int:
    """How many lists and objects stand in one another, at most."""
    most = now = 0
    for mark in re.findall(r"[\[{\]}]", TEXT.sub("", text)):
        now += 1 if mark in "[{" else -1
        most = max(most, now)
    return most


def outside(text: str) -> Iterator[tuple[int, str]]:
    """What stands between the texts of a JSON text, and where."""
    at = 0
    for found in TEXT.finditer(text):
        yield at, text[at : found.start()]
        at = found.end()
    yield at, text[at:]


def why_no_json(text: str, fault: json.JSONDecodeError) -> str:
    """What is wrong, in the words of whoever wrote it where they are known."""
    if text.startswith("\ufeff"):
        return "a byte order mark stands before it: save the file without one"
    if fault.msg == "Extra data":
        return "something stands behind the message: a line is one message"
    if fault.msg.startswith("Invalid \\"):
        return r'no escape of JSON: a backslash is written \\, as in "/bin/echo a\\:b"'
    if re.search(r"[:\[,]-?0$", text[: fault.pos]) and text[fault.pos : fault.pos + 1].isdigit():
        return "a number has no 0 before it"
    hint = " (a line is one message: jq -cS . writes it so)" if text.rstrip().endswith(("{", ",", "[")) else ""
    return f"{fault.msg}{hint}"


class Message:
    """The text of a message, and what is found in it."""

    def __init__(self, data: bytes, line: int) -> None:
        self.data, self.line = data, line
        self.faults: list[Fault] = []
        self.value: Any = None

    def add(self, code: str, key: str, value: str, said: str) -> None:
        self.faults.append(Fault(self.line, code, key, value, said))

    def look(self) -> list[Fault]:
        """All faults; `value` is that of the text then, where it is one of JSON."""
        if len(self.data) > MOST_BYTES:
            self.add("M1", "", "", f"expected up to {MOST_BYTES:,} bytes, and there are {len(self.data):,}")
        try:
            text = self.data.decode("utf-8")
            self.value = self.read(text)
        except UnicodeDecodeError as fault:
            self.add("M2", "", "", f"byte {fault.start + 1} is no UTF-8")
            return self.faults
        except NoJson as fault:
            self.add("M2", "", "", str(fault))
            return self.faults
        self.form(text)
        if not self.faults and canonical(self.value) != text:
            self.add("M2", "", "", f"it is written as {shown(canonical(self.value))}")
        self.fields()
        return self.faults

    # ---- the one text of a value

    def read(self, text: str) -> Any:
        """The value; names that come twice or out of order, and numbers that are not whole, are noted."""
        if not text:
            raise NoJson("expected a message, and the line is empty")
        if depth(text) > MOST_DEEP:
            raise NoJson(f"more than {MOST_DEEP} lists and objects in one another")
        try:
            return json.loads(text, object_pairs_hook=self.members, parse_int=self.whole, parse_float=self.broken, parse_constant=self.constant)
        except json.JSONDecodeError as fault:
            at = len(text[: fault.pos].encode("utf-8", "surrogatepass")) + 1
            raise NoJson(f"it is no JSON at byte {at}: {why_no_json(text, fault)}") from None
        except RecursionError:
            raise NoJson(f"more than {MOST_DEEP} lists and objects in one another") from None

    def members(self, pairs: list[tuple[str, Any]]) -> dict[str, Any]:
        names = [name for name, _ in pairs]
        for name in sorted({name for name in names if names.count(name) > 1}):
            self.add("M2", name, "", "each member stands once, and this one comes again")
        if names != sorted(names):
            self.add("M2", names[0], "", f"the members stand in byte order: {', '.join(map(shown, sorted(set(names))))}")
        return dict(pairs)

    def whole(self, text: str) -> int:
        if text == "-0":
            self.add("M2", "", text, "expected 0")
            return 0
        if len(text) > 20 or not -(2**63) <= int(text) < 2**64:
            self.add("M2", "", text[:40], "expected a whole number of 64 bits")
            return 0
        return int(text)

    def broken(self, text: str) -> int:
        self.add("M2", "", text[:40], "expected a whole number in plain digits")
        return 0

    def constant(self, text: str) -> None:
        raise NoJson(f"{text} is no JSON")

    def form(self, text: str) -> None:
        """Blanks, and escapes that are not needed."""
        for at, piece in outside(text):
            blank = re.search(r"[ \t\r\n]", piece)
            if blank:
                place = len(text[: at + blank.start()].encode()) + 1
                self.add("M2", "", "", f"expected no blank between the parts (byte {place})" + (": a carriage return" if blank[0] == "\r" else ""))
                break
        for found in TEXT.finditer(text):
            value = json.loads(found[0])
            if re.search("[\ud800-\udfff]", value):
                self.add("M2", "", shown(value), "an escape is half of a character")
            elif canonical(value) != found[0]:
                self.add("M2", "", "", f"{shown(value)} is written as {canonical(value)}, and not as {found[0]}")

    # ---- the members

    def fields(self) -> None:
        if not isinstance(self.value, dict):
            self.add("M3", "", shown(self.value), "expected an object with the members of a request or a verdict")
            return
        kind = self.value.get("kind")
        if kind not in KINDS:
            self.add("M3", "kind", shown(kind) if "kind" in self.value else "", f"expected one of {', '.join(KINDS)}")
            return
        for error in schema.validator("message").iter_errors(self.value):
            self.by_schema(error)
        for key in ("cmnds", "hosts"):
            held = self.value.get(key)
            if isinstance(held, list) and all(isinstance(it, str) for it in held) and any(one >= other for one, other in zip(held, held[1:])):
                self.add("M3", key, shown(held), "expected rising byte order, and nothing twice")
        for key in ("at", "from", "until"):
            if isinstance(self.value.get(key), str) and is_formed(self.value[key]) and seconds(self.value[key]) is None:
                self.add("M3", key, shown(self.value[key]), "expected a day of the calendar")

    def by_schema(self, error: Any) -> None:
        path, keyword = tuple(error.absolute_path), error.validator
        if keyword == "additionalProperties":
            for key in sorted(set(error.instance) - set(error.schema["properties"])):
                known = ", ".join(error.schema["properties"])
                self.add("M3", key, shown(error.instance[key]), f"the member is unknown; {self.value['kind']} has {known}")
        elif keyword == "required":
            for key in error.validator_value:
                if key not in error.instance and error.message.startswith(f"{key!r} "):
                    self.add("M3", key, "", "the member is missing")
        elif keyword == "uniqueItems":
            return  # (said with the order)
        elif keyword == "pattern" and error.schema["title"] == "Moment":
            self.add("M3", dotted(path), shown(error.instance), MOMENT)
        else:
            self.add("M3", dotted(path), shown(error.instance), roster_faults.expected(error)[1])


def is_formed(text: str) -> bool:
    form = schema.validator("message").schema["$defs"]["moment"]["pattern"]
    return schema.whole(form).search(text) is not None


def seconds(text: str) -> int | None:
    """The moment in seconds since 1970; None where the calendar has none."""
    try:
        return moments.seconds(text)
    except BadMoment:
        return None


def lines_of(data: bytes) -> list[bytes]:
    """The lines of a file: the bytes before each newline; the last may lack it."""
    lines = data.split(b"\n")
    return lines[:-1] if lines[-1] == b"" else lines


def folded(data: bytes) -> list[Fault] | None:
    """The faults of a file that is one message over several lines; None where it is not."""
    try:
        value = json.loads(data)
    except (ValueError, RecursionError):
        return None
    if not isinstance(value, dict):
        return None
    message = Message(canonical(value).encode("utf-8", "replace"), 1)
    message.add("M2", "", "", f"expected one message a line, and this is one over several: {FOLD[value.get('kind') == 'request']} writes it so")
    return message.look()
