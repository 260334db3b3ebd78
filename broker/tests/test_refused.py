"""A refused message is printed so that its bytes can be read back."""

from __future__ import annotations

import json
from typing import Any

import pika
import pytest
from desk_broker.refused import body_of, line


BODIES = [b"", b'{"a":1}', b"\xff\xfe\n\x00", "é".encode(), b"\xed\xb3\xbf"]


@pytest.mark.parametrize("body", BODIES)
def test_the_bytes_come_back(body: bytes) -> None:
    headers = {"code": "M2 NotCanonical", "relay": "web", "desk": "a"}
    printed = line(pika.BasicProperties(headers=headers, user_id="desk-a"), body)
    assert printed.isascii()
    assert "\n" not in printed
    told = json.loads(printed)
    assert body_of(told) == body
    assert (told["code"], told["relay"], told["desk"]) == ("M2 NotCanonical", "web", "a")


def told(user: str | None, headers: dict[Any, Any] | None) -> tuple[str, str, str]:
    found = json.loads(line(pika.BasicProperties(headers=headers, user_id=user), b"x"))
    return found["code"], found["desk"], found["relay"]


def test_without_headers() -> None:
    assert told("desk-a", None) == ("", "", "")
    assert told(None, None) == ("C3 Fails", "", "")


def death(reason: str, queue: str = "desk.b") -> dict[str, str]:
    return {"reason": reason, "queue": queue}


def test_what_the_broker_put_by() -> None:
    for reason, code in (("expired", "C2 Expires"), ("delivery_limit", "C3 Fails")):
        assert told("relay-web", {"x-death": [death(reason)]}) == (code, "b", "web")


# What a relay may write into headers that come to this queue by the broker.
FORGED = [
    {"code": "A1 UnknownPerson", "desk": "c", "relay": "mail", "x-death": [death("expired")]},
    {"x-first-death-reason": "rejected", "x-death": [death("expired"), death("rejected", "q")]},
]
ODD = [{"x-death": 7}, {"x-death": []}, {"x-death": [7]}, {"x-death": [{}]}, {b"\xff": b"\xff"}]


@pytest.mark.parametrize("headers", FORGED)
def test_headers_of_a_relay_say_nothing_there(headers: dict[Any, Any] | None) -> None:
    assert told("relay-web", headers) == ("C2 Expires", "b", "web")


@pytest.mark.parametrize("headers", ODD)
def test_headers_of_no_form(headers: dict[Any, Any] | None) -> None:
    assert told("relay-web", headers) == ("C3 Fails", "", "web")
