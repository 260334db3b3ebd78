"""Prints the broker's definitions for some desks and relays, for `rabbitmqctl import_definitions`.

    desk-broker-definitions --desks a b c --relays chat mail --passwords DIR

With `--passwords` the accounts are in it: the password of each is in DIR, in a file of the
account's name, which is made where it is not there. Without it there are no accounts. To import it
again, with one desk more, leaves what is there as it is.
"""

from __future__ import annotations

import argparse
import base64
import hashlib
import json
import os
import pathlib
import secrets
import sys

from desk_broker import names

VHOST = "/"
NOTHING = "^$"
# A message that ends its consumer each time leaves the queue after so many deliveries. A good one
# stays through as many ends of a consumer whose desk is down: keep this large.
MOST_DELIVERIES = 100
# A look at what was refused is a delivery too. RabbitMQ 4 drops a message after 20 where no policy
# says more; 3.10 takes no -1, which would be without limit.
MOST_LOOKS = 1_000_000_000
Json = dict[str, object]


def quorum(name: str) -> Json:
    """A queue that is replicated to three nodes, and keeps what it has on their disks."""
    arguments = {"x-queue-type": "quorum", "x-quorum-initial-group-size": 3}
    return {
        "name": name, "vhost": VHOST, "durable": True, "auto_delete": False, "arguments": arguments
    }


def exchange(name: str) -> Json:
    return {
        "name": name, "vhost": VHOST, "type": "fanout", "durable": True, "auto_delete": False,
        "internal": False, "arguments": {},
    }


def binding(source: str, queue: str) -> Json:
    return {
        "source": source, "vhost": VHOST, "destination": queue, "destination_type": "queue",
        "routing_key": "", "arguments": {},
    }


def policy(desks: list[str]) -> Json:
    """What leaves a desk's queue in another way than by its consumer goes to the refused ones: a
    message that was given out too often, or that expired. None of them is lost on the way, which
    needs the overflow so. As a policy it also holds for queues that are there already."""
    names_of = "|".join(desks)
    definition = {
        "delivery-limit": MOST_DELIVERIES, "dead-letter-exchange": names.REFUSED,
        "dead-letter-strategy": "at-least-once", "overflow": "reject-publish",
    }
    return {
        "vhost": VHOST, "name": "desks", "pattern": rf"^(desk|first)\.({names_of})$", "apply-to": "queues",
        "priority": 1, "definition": definition,
    }


def policy_of_refused() -> Json:
    """What was refused stays until somebody takes it, however often it is looked at."""
    return {
        "vhost": VHOST, "name": "refused", "pattern": f"^{names.REFUSED}$".replace(".", r"\."),
        "apply-to": "queues", "priority": 1, "definition": {"delivery-limit": MOST_LOOKS},
    }


def topology(desks: list[str]) -> Json:
    """Every message goes to every desk, by one of its two queues; what is refused goes to one."""
    queues = [names.queue(desk) for desk in desks]
    firsts = [names.first_queue(desk) for desk in desks]
    return {
        "vhosts": [{"name": VHOST}],
        "exchanges": [exchange(it) for it in (names.MESSAGES, names.FIRST, names.REFUSED)],
        "queues": [quorum(name) for name in [*queues, *firsts, names.REFUSED]],
        "bindings": [
            *(binding(names.MESSAGES, name) for name in queues),
            *(binding(names.FIRST, name) for name in firsts),
            binding(names.REFUSED, names.REFUSED),
        ],
        "policies": [policy(desks), policy_of_refused()],
    }


def rights(user: str, write: str, read: str) -> Json:
    return {
        "user": user, "vhost": VHOST, "configure": NOTHING,
        "write": f"^{write}$".replace(".", r"\."), "read": f"^{read}$".replace(".", r"\."),
    }


def permissions(desks: list[str], relays: list[str]) -> list[Json]:
    """A relay publishes, and a desk's consumer reads its own queues and puts refusals by."""
    both = f"({names.MESSAGES}|{names.FIRST})"
    own = {desk: f"({names.queue(desk)}|{names.first_queue(desk)})" for desk in desks}
    return [
        *(rights(names.RELAY_USER + relay, both, "") for relay in relays),
        *(rights(names.DESK_USER + desk, names.REFUSED, own[desk]) for desk in desks),
        rights(names.READER, "", names.REFUSED),
    ]


def password(folder: pathlib.Path, user: str) -> str:
    """The account's password, from its file, which only its owner may read."""
    path = folder / user
    if not path.exists():
        with open(os.open(path, os.O_WRONLY | os.O_CREAT | os.O_EXCL, 0o600), "w") as file:
            file.write(secrets.token_urlsafe(32) + "\n")
    return path.read_text(encoding="utf-8").strip()


def hashed(secret: str, salt: bytes | None = None) -> str:
    """The broker's own form of a password: four bytes of salt, and SHA-256 over both."""
    salt = secrets.token_bytes(4) if salt is None else salt
    digest = hashlib.sha256(salt + secret.encode("utf-8")).digest()
    return base64.b64encode(salt + digest).decode("ascii")


def account(folder: pathlib.Path, user: str) -> Json:
    return {
        "name": user, "password_hash": hashed(password(folder, user)), "tags": [], "limits": {},
        "hashing_algorithm": "rabbit_password_hashing_sha256",
    }


def definitions(desks: list[str], relays: list[str], passwords: pathlib.Path | None) -> Json:
    whole = topology(desks)
    if passwords is not None:
        granted = permissions(desks, relays)
        whole["users"] = [account(passwords, str(each["user"])) for each in granted]
        whole["permissions"] = granted
    return whole


def main() -> int:
    about = "Prints the broker's definitions."
    parser = argparse.ArgumentParser("desk-broker-definitions", description=about)
    parser.add_argument("--desks", nargs="+", required=True, type=names.desk, metavar="NAME")
    parser.add_argument("--relays", nargs="*", default=[], type=names.label, metavar="NAME")
    said = "a folder with a file for each account"
    parser.add_argument("--passwords", type=pathlib.Path, metavar="FOLDER", help=said)
    words = parser.parse_args()
    made = definitions(words.desks, words.relays, words.passwords)
    json.dump(made, sys.stdout, indent=2, sort_keys=True)
    print()
    return 0


if __name__ == "__main__":
    sys.exit(main())
