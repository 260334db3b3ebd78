"""The rows of the journal: one line of JSON each, which has the digest of the row before it.

    came      a message as it came, before the desk is asked: its bytes, signature, key, relay,
              peer, moment, and the version of the signers by which it was judged
    brought   the same of what came to another door of the site before it came here: when it did,
              which door that is, and the digest of its row there
    answered  the answer to a message: `of` is the number of the row with which that came
    more      how many more messages of a relay were refused that have no rows of their own
    begun     the first row of each file
    healed    the rest of a row that a power cut left; nobody was answered by that row
"""

import hashlib
import json
from dataclasses import dataclass
from typing import Any

from steelnewt_client.messages import canonical
from steelnewt_client.signed import PASSKEY, Signed, said_in
from steelnewt_door.touches import touch_of

FIRST = "0" * 64
COMMON = {"no": int, "row": str, "before": str, "chain": str}
# the members of each kind of row, with what each is
CAME = COMMON | dict.fromkeys(
    ("at", "how", "key", "message", "peer", "relay", "signature", "about", "why", "signers"), str
)
KINDS: dict[str, dict[str, type]] = {
    "came": CAME,
    "brought": CAME | {"arrived": str, "door": str, "there": str},
    "answered": COMMON | {"at": str, "by": str, "code": str, "of": int},
    "more": COMMON | {"at": str, "count": int, "relay": str},
    "begun": COMMON | {"at": str, "site": str},
    "healed": COMMON | {"at": str, "bytes": int, "digest": str},
}
# How a message came: signed; by root's socket, unsigned; unsigned, where the site signs nothing yet;
# a request of a relay that signs for nobody; held by the desk before there was a door; or as
# something that was refused.
HOWS = ("signed", "root", "unsigned", "program", "before", "refused")
# The kinds of rows that have a message.
MESSAGES = ("came", "brought")
# What is written of a row that cannot be a message: no more than this of its text.
SHORT = 200

ACK = "ack"

Row = dict[str, Any]
# What a row gets as it is written.
BLANKS = {"no": 0, "before": "", "chain": ""}
Noted = tuple[Any, ...]
Draft = tuple[bytes, Noted]


class BadRow(ValueError):
    """A line is no row of a journal; the text says why."""


@dataclass(frozen=True)
class Arrival:
    """When a message came to another door of the site: that door's name, the moment, the version of
    the signers by which it was judged there, and the digest of its row."""

    door: str
    at: str
    signers: str
    row: str


@dataclass(frozen=True)
class Last:
    """The last row: its number, and its chain, which is the digest of its text without that, and
    has the row before it in itself."""

    no: int = 0
    chain: str = FIRST


def line_of(row: Row) -> bytes:
    return canonical(row).encode("utf-8") + b"\n"


def draft_of(row: Row) -> Draft:
    """A row as it is handed to who writes it."""
    return line_of(row | BLANKS), noted_of(row)


def noted_of(row: Row) -> Noted:
    """What the index notes of a row. A message that came: the values of the message's line there
    but the number, and then the touch of the passkey, if one signed the message. An answer: the
    message's number, and the code. Any other row: nothing."""
    if row["row"] == "answered":
        return row["of"], row["code"]
    if row["row"] not in MESSAGES:
        return ()
    signed = Signed(row["message"], row["signature"], row["about"], row["why"])
    code = ACK if row["how"] == "before" else ""
    parts = line_digest(signed), row["at"], row["how"], signed.digest
    touch = touch_of(signed, said_in(signed.message).at) if has_touch(row) else None
    more = (touch.counter, touch.at, touch.mark) if touch else ()
    return *parts, signed.about, signed.why, row["key"], code, *more


def has_touch(row: Row) -> bool:
    """Whether a row's message was signed by a passkey."""
    return row["how"] == "signed" and str(row["signature"]).startswith(PASSKEY)


def digest_in(noted: Noted) -> str:
    """The digest of the message in what is noted of one that came; empty for other rows."""
    return str(noted[3]) if len(noted) > 3 else ""


def following(last: Last, draft: bytes) -> tuple[Last, bytes]:
    """A draft as the next row behind another: its number and chain, and its line. (The quotes in a
    string are escaped, so none has the text of a blank; and `chain` is never the first name.)"""
    line = draft.replace(b'"no":0', b'"no":%d' % (last.no + 1), 1)
    line = line.replace(b'"before":""', b'"before":"%s"' % last.chain.encode("ascii"), 1)
    chain = hashlib.sha256(line.replace(b',"chain":""', b"", 1)[:-1]).hexdigest()
    line = line.replace(b'"chain":""', b'"chain":"%s"' % chain.encode("ascii"), 1)
    return Last(last.no + 1, chain), line


def read_row(line: bytes) -> Row:
    """A row by its line, where its digest is right: what was changed in it is found here."""
    try:
        text = line.decode("utf-8").removesuffix("\n")
        found = json.loads(text)
        is_row = isinstance(found, dict) and canonical(found) == text
        wanted = KINDS[found["row"]] if is_row else {}
    except (ValueError, RecursionError, KeyError, TypeError):
        raise BadRow("is no row") from None
    if not is_row or {name: type(value) for name, value in found.items()} != wanted:
        raise BadRow("is no row")
    # (the text is cut as following() made it: no string in it has the name unescaped)
    told = text.replace(f',"chain":"{found["chain"]}"', "", 1)
    if found["chain"] != hashlib.sha256(told.encode("utf-8")).hexdigest():
        raise BadRow("was changed")
    return dict(found)


def came(
    signed: Signed, at: str, way: tuple[str, str], how: str, key: str = "", version: str = ""
) -> Row:
    """The row of a message that came by a relay and a peer, which `way` has."""
    relay, peer = way
    return {
        "row": "came", "at": at, "relay": relay, "peer": peer, "how": how,
        "message": signed.message, "signature": signed.signature, "about": signed.about,
        "why": signed.why, "key": key, "signers": version,
    }  # fmt: skip


def brought(row: Row, arrival: Arrival) -> Row:
    """The row of a message that came to another door first."""
    more = {"arrived": arrival.at, "door": arrival.door, "there": arrival.row}
    return row | {"row": "brought"} | more


def moment_of(row: Row) -> str:
    """When a message came to the first door of the site that had it."""
    return str(row["arrived"] if row["row"] == "brought" else row["at"])


def came_broken(line: bytes, at: str, way: tuple[str, str]) -> Row:
    """The row of something that is no message: its digest, and how it begins."""
    begins = line[:SHORT].decode("utf-8", "backslashreplace")
    told = f"{len(line)} bytes, {hashlib.sha256(line).hexdigest()}: {begins}"
    return came(Signed(told.encode("utf-8", "replace").decode("utf-8")), at, way, "refused")


def answered(no: int, at: str, code: str, by: str) -> Row:
    """The row of an answer. (of a stranger's bytes nothing is in it)"""
    plain = "".join(it if " " <= it <= "~" else "?" for it in code)[:80]
    return {"row": "answered", "at": at, "of": no, "code": plain, "by": by}


def line_digest(signed: Signed) -> str:
    """By what a message with its signature is known again."""
    return hashlib.sha256(signed.line().encode("utf-8")).hexdigest()
