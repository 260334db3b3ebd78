"""The broker's definitions: who may do what, and that the example is what the program prints."""

from __future__ import annotations

import base64
import hashlib
import json
import pathlib
import re
from pathlib import Path
from typing import Any

import pytest
from desk_broker import definitions, names

OWN = (
    "desk.a", "desk.b", "first.a", "first.b", "desk.messages", "first.messages", "desk.refused",
)
EXAMPLE = pathlib.Path(__file__).resolve().parents[2] / "examples" / "broker" / "definitions.json"


def test_the_example_is_what_three_desks_need() -> None:
    assert json.loads(EXAMPLE.read_text()) == definitions.definitions(["a", "b", "c"], [], None)


def test_every_queue_is_replicated_and_bound() -> None:
    made: dict[str, Any] = definitions.topology(["a", "b"])
    assert {queue["name"] for queue in made["queues"]} == {
        "desk.a", "desk.b", "first.a", "first.b", "desk.refused"
    }
    for queue in made["queues"]:
        assert queue["durable"]
        assert queue["arguments"]["x-queue-type"] == "quorum"
    pairs = {(each["source"], each["destination"]) for each in made["bindings"]}
    assert pairs == {
        ("desk.messages", "desk.a"), ("desk.messages", "desk.b"), ("desk.refused", "desk.refused"),
        ("first.messages", "first.a"), ("first.messages", "first.b"),
    }


def test_what_leaves_a_desks_queue_goes_to_the_refused_ones() -> None:
    made: dict[str, Any] = definitions.topology(["a", "b"])
    [policy] = [it for it in made["policies"] if it["name"] == "desks"]
    covered = [name for name in (*OWN, "desk.c", "deskxa") if re.search(policy["pattern"], name)]
    assert covered == ["desk.a", "desk.b", "first.a", "first.b"]
    assert policy["definition"]["dead-letter-exchange"] == names.REFUSED
    assert policy["definition"]["dead-letter-strategy"] == "at-least-once"
    # (fewer would put by what a desk that is down cannot take)
    assert 100 <= policy["definition"]["delivery-limit"] <= 1_000


def test_each_queue_has_one_policy() -> None:
    """(without one RabbitMQ 4 drops a message after 20 deliveries, and of two only one counts)"""
    made: dict[str, Any] = definitions.topology(["a", "b"])
    for queue in made["queues"]:
        found = [it for it in made["policies"] if re.search(it["pattern"], queue["name"])]
        assert [it["priority"] > 0 for it in found] == [True], queue["name"]


def may(granted: list[dict[str, Any]], user: str, right: str, name: str) -> bool:
    [rights] = [each for each in granted if each["user"] == user]
    return re.search(rights[right], name) is not None


def test_no_account_may_do_more_than_its_part() -> None:
    granted: list[dict[str, Any]] = definitions.permissions(["a", "b"], ["web"])
    allowed = {
        (each["user"], right, name)
        for each in granted
        for right in ("configure", "write", "read")
        for name in (*OWN, "deskxa", "deskxmessages", "amq.fanout")
        if may(granted, each["user"], right, name)
    }
    assert allowed == {
        ("relay-web", "write", "desk.messages"), ("relay-web", "write", "first.messages"),
        ("desk-a", "read", "desk.a"), ("desk-a", "write", "desk.refused"),
        ("desk-b", "read", "desk.b"), ("desk-b", "write", "desk.refused"),
        ("desk-a", "read", "first.a"), ("desk-b", "read", "first.b"),
        ("refused-reader", "read", "desk.refused"),
    }


def test_a_password_is_made_once_and_for_its_owner_alone(tmp_path: Path) -> None:
    first = definitions.password(tmp_path, "desk-a")
    assert len(first) > 40
    assert definitions.password(tmp_path, "desk-a") == first
    assert definitions.password(tmp_path, "desk-b") != first
    assert (tmp_path / "desk-a").stat().st_mode & 0o777 == 0o600


def test_a_password_is_hashed_as_the_broker_does() -> None:
    whole = base64.b64decode(definitions.hashed("test12", b"\x90\x8d\xc6\x0a"))
    assert whole[:4] == b"\x90\x8d\xc6\x0a"
    assert whole[4:] == hashlib.sha256(b"\x90\x8d\xc6\x0atest12").digest()


@pytest.mark.parametrize("text", ["", "A", "a b", "a.b", "../a", "a\n", "x" * 33, "refused"])
def test_no_name(text: str) -> None:
    with pytest.raises(ValueError, match="no name"):
        names.queue(text)
