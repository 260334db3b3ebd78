"""One desk of three is down, and the relay is killed at any moment: no word that it confirmed is
lost, nothing is asked twice, and what takes rights away is the first that the desk gets."""

import json
import os
import random
import re
import signal
import subprocess
import time
from pathlib import Path

from relays.tests.recorder import Recorder
from relays.tests.several import NAMES, Several
from relays.tests.site import wait_for_next_second

# (KILLS=60 is the long form)
KILLS = int(os.environ.get("KILLS", "12"))
LINE = "ask db-care --on db1 --as root --for 1h --yes --again /usr/bin/id"
PATIENCE = 900.0  # seconds: the machine may be busy
KEPT = re.compile(r"Kept as ([a-z]+) ([0-9]+)\.")


def killed(several: Several, person: str, chance: random.Random, whole: float) -> str:
    """What a call printed before it was killed: anywhere, or shortly after it kept the message."""
    call = subprocess.Popen(
        several.words(person),
        stdout=subprocess.PIPE,
        stdin=subprocess.DEVNULL,
        env=os.environ | {"SSH_ORIGINAL_COMMAND": LINE},
    )
    assert call.stdout
    said = b""
    if chance.random() < 0.4:
        time.sleep(chance.uniform(0, whole))
    else:
        while not KEPT.search(said.decode()) and (line := call.stdout.readline()):
            said += line
        time.sleep(chance.uniform(0, 0.05))
    call.send_signal(signal.SIGKILL)
    said += call.stdout.read()
    call.wait(timeout=60)
    call.stdout.close()
    return said.decode("utf-8")


def test_one_of_three_is_down(tmp_path: Path) -> None:
    several = Several(tmp_path)
    several.hear()
    try:
        several.serve("a", "b")
        began = time.monotonic()
        assert several.run("ann", LINE).returncode == 0
        whole = time.monotonic() - began
        assert several.run("bob", "approve ann 1 --yes").returncode == 0
        confirmed = kill_all(several, whole)
        the_first_is_the_revocation(several)
        several.serve("c")
        wait_until_posted(several)
        several.end(*NAMES)
        judge(several, confirmed)
    finally:
        several.close()


def kill_all(several: Several, whole: float) -> list[tuple[str, int]]:
    """Kills calls and what posts; meanwhile bob revokes. What people were told that is kept."""
    chance = random.Random(os.environ.get("SEED", "7"))
    poster, confirmed = several.start("post", "--every", "0.1"), [("ann", 1)]
    for number in range(KILLS):
        said = killed(several, chance.choice(["ann", "carol"]), chance, whole)
        if found := KEPT.search(said):
            confirmed.append((found[1], int(found[2])))
        if number == KILLS // 2:
            wait_for_next_second()
            assert several.run("bob", "revoke ann 1 --yes").returncode == 0
        if number % 4 == 3:
            poster.send_signal(signal.SIGKILL)
            poster.wait(timeout=60)
            poster = several.start("post", "--every", "0.1")
    poster.terminate()
    poster.wait(timeout=60)
    return confirmed


def the_first_is_the_revocation(several: Several) -> None:
    """That of what the third desk is posted when somebody listens there again."""
    recorder = Recorder(Path(several.label("c")), lambda _: "", most=3)
    several.start("post", "--every", "0.1")
    until = time.monotonic() + PATIENCE
    while len(recorder.posted) < 3:
        assert time.monotonic() < until
        time.sleep(0.05)
    assert [it["kind"] for it in recorder.posted] == ["revoke", "request", "request"]


def wait_until_posted(several: Several) -> None:
    until = time.monotonic() + PATIENCE
    while several.who_lack():
        assert time.monotonic() < until, several.who_lack()
        time.sleep(0.1)


def judge(several: Several, confirmed: list[tuple[str, int]]) -> None:
    """Each desk has each message once, and what the outbox has."""
    kept = sorted(body for body, _ in several.kept())
    asked = [json.loads(body) for body in kept if '"kind":"request"' in body]
    names = [(it["by"], it["no"]) for it in asked]
    lost = [it for it in confirmed if it not in names]
    twice = {it for it in names if names.count(it) > 1}
    print(f"{KILLS} kills: {len(confirmed)} confirmed, {len(lost)} lost, {len(twice)} twice")
    assert not lost and not twice
    assert len(confirmed) > KILLS // 4
    assert [several.held(it) for it in NAMES] == [kept] * len(NAMES)
    assert [state for _, state in several.kept()] == ["acked"] * len(kept)
