"""The check of the queues: a line for each thing that is wrong."""

from __future__ import annotations

import json
import pathlib
import subprocess
import sys
from collections.abc import Sequence
from typing import Any

CHECK = pathlib.Path(__file__).resolve().parents[2] / "broker/desk-check-queues"


def row(name: str, messages: int = 0, consumers: int = 1, online: int = 3) -> dict[str, Any]:
    nodes = [f"b{n}@localhost" for n in range(online)]
    return {"name": name, "messages": messages, "consumers": consumers, "online": nodes}


def check(*rows: dict[str, Any], words: Sequence[str] = ()) -> tuple[int, list[str]]:
    ran = subprocess.run(
        [sys.executable, CHECK, *words], input=json.dumps(rows), capture_output=True, text=True
    )
    return ran.returncode, ran.stdout.splitlines()


def test_nothing_is_wrong() -> None:
    assert check(row("desk.a", 1_000), row("desk.refused", consumers=0), row("other", 5, 0, 0)) == (
        0, ["2 queues, nothing is wrong"]
    )


def test_each_fault_has_a_line() -> None:
    assert check(row("desk.a", 1_001)) == (1, ["desk.a: 1001 messages wait: its desk lags"])
    assert check(row("desk.a", consumers=0)) == (
        1, ["desk.a: no consumer: its desk gets nothing"]
    )
    assert check(row("first.a", consumers=0)) == (
        1, ["first.a: no consumer: its desk gets nothing"]
    )
    assert check(row("desk.a", consumers=2)) == (1, ["desk.a: 2 consumers: one is enough"])
    assert check(row("desk.a", online=2)) == (1, ["desk.a: 2 of 3 replicas are there"])
    assert check(row("desk.refused", 1, 0)) == (
        1, ["desk.refused: 1 messages were refused, and nobody has read them"]
    )
    assert check() == (
        1, ["the broker has no queue of a desk: were the definitions imported?"]
    )
    assert check(row("desk.a", 11), words=["--most", "10"])[0] == 1


def test_a_queue_without_a_leader() -> None:
    assert check({"name": "desk.a", "messages": "", "consumers": "", "online": ""})[0] == 1
