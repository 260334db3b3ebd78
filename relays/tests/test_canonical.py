"""The canonical text is the one that the desk reads: asked of the desk itself."""

import json
import random
import subprocess
from collections.abc import Callable
from typing import Any

from relays.tests.site import BASE, DESK, ROSTER
from steelnewt_client.messages import Request, Verdict, Wish, canonical

COUNT = 2000
ODD = "abz09._-/ \\\"'\b\f\n\r\t\x00\x1f\x7fäß€漢😀\u2028,:=[]{}"


def delivered(lines: list[str]) -> list[str]:
    """What the desk answers each line."""
    given = "".join(f"{line}\n" for line in lines).encode("utf-8")
    words = [DESK, "deliver", str(ROSTER), str(BASE), "-", "chat"]
    ran = subprocess.run(words, input=given, stdout=subprocess.PIPE, timeout=300, check=False)
    answers = ran.stdout.decode("ascii").splitlines()
    assert len(answers) == len(lines)
    return answers


def stamp(chance: random.Random) -> str:
    return f"202601{chance.randint(1, 28):02}{chance.randint(0, 23):02}0000Z"


def lawful(chance: random.Random) -> str:
    """A message as this relay writes one."""
    by, no = chance.choice(["ann", "bob", "carol"]), chance.randint(0, 999_999_999)
    if chance.random() < 0.5:
        kind = chance.choice(["approve", "refuse", "revoke"])
        return Verdict(by, kind, "ann", no, stamp(chance)).text()
    begins = stamp(chance)
    window = (begins, begins[:8] + "235959Z")
    commands = chance.sample(["/usr/bin/id", r"/usr/bin/echo a\:b\,c", '/usr/bin/w ""', "ALL"], 2)
    hosts = chance.sample(["db1", "db2", "web1"], chance.randint(1, 3))
    wish = Wish.of(chance.choice(["db-care", "other"]), hosts, "root", commands, window)
    return Request(by, no, min(begins, stamp(chance)), wish).text()


def odd(chance: random.Random) -> dict[str, Any]:
    """A message with odd texts in it."""
    message: dict[str, Any] = json.loads(lawful(chance))
    for name in chance.sample(sorted(message), 2):
        text = "".join(chance.choice(ODD) for _ in range(chance.randint(0, 12)))
        message[name] = chance.choice([text, [text, "x"], chance.randint(-(2**63), 2**63 - 1)])
    return message


def test_what_the_relay_writes_is_read() -> None:
    chance = random.Random(1)
    lines = [lawful(chance) for _ in range(COUNT)]
    codes = {answer.split(" ")[0] for answer in delivered(lines)}
    assert "ack" in codes and codes <= {"ack", "A2", "A3", "A4", "A6", "A7"}, codes


def test_odd_texts_are_canonical_and_no_message() -> None:
    chance = random.Random(2)
    lines = [canonical(odd(chance)) for _ in range(COUNT)]
    answers = delivered(lines)
    wrong = [line for line, answer in zip(lines, answers) if answer.startswith("M2")]
    assert not wrong and "M3 BadField" in answers


def spaced(message: dict[str, Any]) -> str:
    return json.dumps(message, sort_keys=True, ensure_ascii=False)


def unsorted(message: dict[str, Any]) -> str:
    turned = dict(sorted(message.items(), reverse=True))
    return json.dumps(turned, separators=(",", ":"), ensure_ascii=False)


def escaped(message: dict[str, Any]) -> str:
    return json.dumps(message | {"of": "é"}, sort_keys=True, separators=(",", ":"))


def test_other_texts_of_the_same_are_refused() -> None:
    chance = random.Random(3)
    writers: list[Callable[[dict[str, Any]], str]] = [spaced, unsorted, escaped]
    lines = [chance.choice(writers)(odd(chance)) for _ in range(COUNT)]
    assert set(delivered(lines)) == {"M2 NotCanonical"}
