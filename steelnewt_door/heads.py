"""Requests and responses by their bytes, in the desk's words (docs/HTTP.md)."""

import asyncio
import re
from dataclasses import dataclass
from functools import cached_property, lru_cache

from steelnewt_client.signed import MOST_LINE

MOST_HEAD, MOST_FIELDS = 8_192, 32
MOST_KNOWN = 512  # bytes of a head that is kept
END = re.compile(rb"\r?\n\r?\n")
LINE = re.compile(rb"([!#$%&'*+.^_`|~0-9A-Za-z-]+) ([!-~]+) HTTP/1\.([01])")
FIELD = re.compile(rb"([!#$%&'*+.^_`|~0-9A-Za-z-]+):[ \t]*([^\x00-\x08\x0a-\x1f\x7f]*?)[ \t]*")
PHRASES = {
    200: "OK", 400: "Bad Request", 403: "Forbidden", 404: "Not Found", 405: "Method Not Allowed",
    411: "Length Required", 413: "Content Too Large", 503: "Service Unavailable",
}  # fmt: skip


@dataclass(frozen=True)
class Head:
    """A request's head: its method, its target, and what its fields say of the body's length."""

    method: str
    target: str
    lengths: list[bytes]
    is_coded: bool

    @cached_property
    def length(self) -> int:
        if self.is_coded or len(self.lengths) > 1:
            raise Bad(400, "T6 BadLength")
        if not self.lengths:
            raise Bad(411, "T5 LengthRequired")
        if not re.fullmatch(rb"[0-9]{1,9}", self.lengths[0]):
            raise Bad(400, "T6 BadLength")
        if int(self.lengths[0]) > MOST_LINE:
            raise Bad(413, "M1 TooLong")
        return int(self.lengths[0])


class Bad(Exception):
    """A request that is refused by its bytes alone."""

    def __init__(self, status: int, code: str, allow: str = "") -> None:
        super().__init__(code)
        self.status, self.code, self.allow = status, code, allow


def reply(status: int, body: bytes, allow: str = "", is_head: bool = False) -> bytes:
    """A response in the desk's form."""
    lines = [f"HTTP/1.1 {status} {PHRASES[status]}", "Content-Type: text/plain"]
    lines += [f"Allow: {allow}"] if allow else []
    lines += [f"Content-Length: {len(body)}", "Connection: close", "", ""]
    return "\r\n".join(lines).encode("ascii") + (b"" if is_head else body)


def head_of(given: bytes) -> Head:
    """A head by its bytes, up to the empty line."""
    lines = [it.removesuffix(b"\r") for it in given.split(b"\n")]
    while lines and not lines[0]:
        lines.pop(0)
    found = LINE.fullmatch(lines[0]) if lines else None
    fields = [FIELD.fullmatch(it) for it in lines[1:] if it]
    if not found or len(fields) > MOST_FIELDS or not all(fields):
        raise Bad(400, "T1 BadHead")
    pairs = [(it[1].lower(), it[2]) for it in fields if it]
    hosts = sum(name == b"host" for name, _ in pairs)
    if hosts > 1 or (hosts == 0 and found[3] == b"1"):
        raise Bad(400, "T1 BadHead")
    lengths = [value for name, value in pairs if name == b"content-length"]
    is_coded = any(name == b"transfer-encoding" for name, _ in pairs)
    return Head(found[1].decode("ascii"), found[2].decode("ascii"), lengths, is_coded)


@lru_cache(maxsize=256)
def known_head(given: bytes) -> Head:
    """A head that others have to the byte. (A relay's posts differ in their lengths alone.)"""
    return head_of(given)


def head_in(given: bytes) -> tuple[Head, bytes] | None:
    """A head, and what came behind it; None where more of it may come."""
    given = given.lstrip(b"\r\n")
    if ended := END.search(given):
        if ended.end() > MOST_HEAD:
            raise Bad(400, "T1 BadHead")
        text = given[: ended.start()]
        head = known_head(text) if len(text) <= MOST_KNOWN else head_of(text)
        return head, given[ended.end() :]
    return None


async def read_head(reader: asyncio.StreamReader) -> tuple[Head, bytes]:
    """A head, and what came behind it."""
    given = b""
    while (found := head_in(given)) is None:
        piece = await reader.read(MOST_HEAD) if len(given) <= MOST_HEAD else b""
        if not piece:
            raise Bad(400, "T1 BadHead")
        given += piece
    return found


async def read_body(reader: asyncio.StreamReader, begun: bytes, length: int) -> bytes:
    body = begun[:length]
    while len(body) < length:
        piece = await reader.read(length - len(body))
        if not piece:
            raise Bad(400, "T7 ShortBody")
        body += piece
    return body
