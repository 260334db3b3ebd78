"""What a program is told by its environment: where the brokers are, and who it is there."""

from __future__ import annotations

import dataclasses
import pathlib
import random
import ssl
from collections.abc import Mapping

import pika
from pika.adapters.utils.connection_workflow import AMQPConnectorException
from pika.exceptions import AMQPError

CONFIG = "/etc/desk/broker.conf"
# What pika raises where a broker cannot be reached, does not speak, or goes away.
AWAY = (AMQPError, AMQPConnectorException, OSError)


class BadSettings(Exception):
    """The environment lacks a variable, or one has not its form."""


def told(environment: Mapping[str, str], path: str = CONFIG) -> dict[str, str]:
    """The environment; where it names no brokers, with what the site's file says besides."""
    found = dict(environment)
    if "BROKERS" in found:
        return found
    try:
        lines = pathlib.Path(path).read_text(encoding="utf-8").splitlines()
    except FileNotFoundError:
        return found
    except OSError as error:
        raise BadSettings(str(error)) from error
    for line in lines:
        name, is_setting, value = line.partition("=")
        if is_setting and not line.startswith("#"):
            found.setdefault(name.strip(), value.strip())
    return found


def required(environment: Mapping[str, str], name: str) -> str:
    value = environment.get(name, "")
    if not value:
        raise BadSettings(f"{name} is not set")
    return value


def read_password(environment: Mapping[str, str]) -> str:
    path = pathlib.Path(required(environment, "BROKER_PASSWORD_FILE"))
    try:
        return path.read_text(encoding="utf-8").strip()
    except OSError as error:
        raise BadSettings(f"BROKER_PASSWORD_FILE: {error}") from error


def read_nodes(text: str) -> list[tuple[str, int]]:
    nodes = []
    for part in text.split(","):
        host, _, port = part.strip().rpartition(":")
        if not host or not port.isdecimal():
            raise BadSettings(f"BROKERS: {part!r} is not HOST:PORT")
        nodes.append((host, int(port)))
    return nodes


@dataclasses.dataclass(frozen=True)
class Broker:
    """The nodes of a broker, any of which will do, and an account there."""

    nodes: list[tuple[str, int]]
    user: str
    password: str
    ca_file: str | None = None
    patience: float = 15.0  # seconds that a node may take to let it in

    @classmethod
    def read(cls, environment: Mapping[str, str], user: str) -> Broker:
        nodes = read_nodes(required(environment, "BROKERS"))
        ca_file = environment.get("BROKER_CA") or None
        return cls(nodes, user, read_password(environment), ca_file)

    def first_turn(self) -> int:
        """A node to begin with, by chance: so all nodes have clients."""
        return random.randrange(len(self.nodes))

    def parameters(self, turn: int, heartbeat: int) -> pika.ConnectionParameters:
        """How to connect to a node, to each in its turn; a silent one is given up after so long."""
        host, port = self.nodes[turn % len(self.nodes)]
        options = None
        if self.ca_file is not None:
            context = ssl.create_default_context(cafile=self.ca_file)
            options = pika.SSLOptions(context, host)
        return pika.ConnectionParameters(
            host=host,
            port=port,
            credentials=pika.PlainCredentials(self.user, self.password, erase_on_connect=False),
            heartbeat=heartbeat,
            blocked_connection_timeout=60,
            socket_timeout=5,
            stack_timeout=self.patience,
            connection_attempts=1,
            ssl_options=options,
        )
