"""What was refused stays in its queue, however often somebody looks at it: over a real broker, to
which a policy of the site gives the limit that RabbitMQ 4 has where there is none."""

from __future__ import annotations

import json
import os
import pathlib
import subprocess
import sys
from pathlib import Path
from typing import Any

import pika
from desk_broker import definitions, names
from tests.several.nodes import Cluster
from tests.several.programs import programs

REFUSED = pathlib.Path(__file__).resolve().parents[2] / "broker/desk-refused"
LIMIT = 20  # RabbitMQ 4's
OTHERS = {
    "vhost": "/", "name": "others", "pattern": ".*", "apply-to": "queues", "priority": 0,
    "definition": {"delivery-limit": LIMIT},
}


def look(cluster: Cluster, passwords: Path, *words: str) -> list[str]:
    """The bodies that the program prints."""
    environment = os.environ | {
        "BROKERS": cluster.addresses(),
        "BROKER_PASSWORD_FILE": str(passwords / names.READER),
    }
    ran = subprocess.run(
        [sys.executable, REFUSED, *words], env=environment, capture_output=True, text=True
    )
    assert ran.returncode == 0, ran
    return [json.loads(line)["body"] for line in ran.stdout.splitlines()]


def connected(cluster: Cluster, passwords: Path, user: str) -> pika.BlockingConnection:
    password = (passwords / user).read_text(encoding="utf-8").strip()
    account = pika.PlainCredentials(user, password)
    where = pika.ConnectionParameters("127.0.0.1", cluster.ports[0], credentials=account)
    return pika.BlockingConnection(where)


def deliver(cluster: Cluster, passwords: Path, times: int) -> None:
    """Gives out what is there as often as so many looks would, which take longer."""
    connection = connected(cluster, passwords, names.READER)
    channel = connection.channel()
    for _ in range(times):
        method, _, _ = channel.basic_get(names.REFUSED)
        if method is not None:
            channel.basic_nack(method.delivery_tag)
    connection.close()


def put(cluster: Cluster, passwords: Path, body: bytes) -> None:
    """Puts a message by, as a desk's consumer does."""
    connection = connected(cluster, passwords, "desk-a")
    channel = connection.channel()
    channel.confirm_delivery()
    channel.basic_publish(names.REFUSED, "", body, pika.BasicProperties(delivery_mode=2))
    connection.close()


def test_a_look_takes_nothing(tmp_path: Path) -> None:
    passwords, folder = tmp_path / "passwords", tmp_path / "nodes"
    passwords.mkdir()
    folder.mkdir()
    with programs() as started:
        cluster = Cluster(folder, started, 1)
        cluster.start()
        made: dict[str, Any] = definitions.definitions(["a"], ["chat"], passwords)
        made["policies"].append(OTHERS)
        cluster.control("import_definitions", given=json.dumps(made))
        put(cluster, passwords, b"refused")
        assert look(cluster, passwords) == ["refused"]
        deliver(cluster, passwords, LIMIT + 5)
        assert look(cluster, passwords) == ["refused"]
        assert look(cluster, passwords, "--take") == ["refused"]
        assert look(cluster, passwords) == []
