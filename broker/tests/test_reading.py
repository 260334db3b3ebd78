"""Properties of every kind of bytes are read, and none ends the connection that they come over."""

from __future__ import annotations

import random
import struct

import pika
import pytest
from desk_broker import reading

HEADERS, USER = 1 << 13, 1 << 4


@pytest.fixture(autouse=True)
def installed(monkeypatch: pytest.MonkeyPatch) -> None:
    monkeypatch.setattr(pika.data, "decode_table", reading.decode_table)
    monkeypatch.setattr(pika.spec.BasicProperties, "decode", reading.decode_properties)


def short(text: bytes) -> bytes:
    return bytes([len(text)]) + text


def read(flags: int, rest: bytes) -> pika.BasicProperties:
    return pika.BasicProperties().decode(struct.pack(">H", flags) + rest)


def with_table(table: bytes) -> pika.BasicProperties:
    return read(HEADERS | USER, struct.pack(">I", len(table)) + table + short(b"relay-web"))


def nested(kind: bytes, deep: int) -> bytes:
    value = b""
    for _ in range(deep):
        value = (short(b"") if kind == b"F" else b"") + kind + struct.pack(">I", len(value)) + value
    return value if kind == b"F" else short(b"a") + value


UNREADABLE = [
    short(b"a") + b"T" + b"\xff" * 8,
    short(b"a") + b"d" + struct.pack(">d", float("nan")),
    short(b"a") + b"f" + struct.pack(">f", float("inf")),
    short(b"a") + b"?" + b"\x00",
    short(b"a") + b"I" + b"\x00",
    nested(b"A", 3_000),
    b"\xff",
]


@pytest.mark.parametrize("table", UNREADABLE)
def test_what_pika_cannot_read_is_no_header(table: bytes) -> None:
    found = with_table(table)
    assert (found.user_id, found.headers) == ("relay-web", {})


def test_tables_in_tables() -> None:
    assert with_table(nested(b"F", 3_000)).user_id == "relay-web"


def test_a_table_ends_where_its_length_says() -> None:
    inner = short(b"a") + b"S" + struct.pack(">I", 12)  # (its text would be the account's name)
    assert with_table(inner).user_id == "relay-web"


def test_what_pika_can_read_is_as_it_was() -> None:
    found = with_table(short(b"sent-ms") + b"l" + struct.pack(">q", 7))
    assert (found.user_id, found.headers) == ("relay-web", {"sent-ms": 7})
    assert not isinstance(found.headers, reading.Unreadable)


@pytest.mark.parametrize("flags", [1, 2, 3])
def test_flags_behind_the_flags_give_nobodys_name(flags: int) -> None:
    hidden = short(b" \x00" + short(b"relay-mail")) + short(b"relay-web")
    found = read(1 << 15 | USER | flags, hidden)
    assert (found.user_id, found.headers) == (None, None)


def test_random_tables() -> None:
    chance = random.Random(53)
    for _ in range(3_000):
        table = chance.randbytes(chance.randint(0, 40))
        assert with_table(table).user_id == "relay-web"
