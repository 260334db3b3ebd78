"""Killed at any moment, a relay loses no word that it confirmed, and asks nothing twice."""

import json
import os
import random
import re
import signal
import subprocess
import threading
import time
from collections.abc import Iterator
from pathlib import Path

import pytest
import requests

from relays.tests.front import Front
from relays.tests.site import Site
from relays.tests.test_page import confirmation, token

ROUNDS = 100
PAGE_ROUNDS = 10
DOWN_SECONDS = 60
LINE = "ask db-care --on db1 --as root --for 1h --yes --again /usr/bin/id"


@pytest.fixture(scope="module", autouse=True)
def down(tmp_path_factory: pytest.TempPathFactory) -> Iterator[tuple[Site, float, str]]:
    """A site whose desk is down from now on, and what the relay said when it was asked."""
    site = Site(tmp_path_factory.mktemp("down"))
    site.hear()
    site.start("post", "--every", "0.5")
    began = time.monotonic()
    ran = site.run("ann", LINE)
    assert ran.returncode == 3, ran
    yield site, began, ran.stdout
    site.close()


def killed(
    site: Site, person: str, chance: random.Random, whole: float, is_held: bool
) -> str:
    """What a call printed before it was killed: anywhere, or shortly after it kept the message; and
    where the desk is held meanwhile, before that answered."""
    environment = os.environ | {"SSH_ORIGINAL_COMMAND": LINE}
    assert site.desk
    if is_held:
        site.desk.send_signal(signal.SIGSTOP)
    call = subprocess.Popen(
        site.words(person), stdout=subprocess.PIPE, stdin=subprocess.DEVNULL, env=environment
    )
    assert call.stdout
    said = b""
    if not is_held and chance.random() < 0.5:
        time.sleep(chance.uniform(0, whole))
    else:
        while not said.endswith(b".\n") and (line := call.stdout.readline()):
            said += line
        time.sleep(chance.uniform(0, 0.03))
    call.send_signal(signal.SIGKILL)
    site.desk.send_signal(signal.SIGCONT)
    said += call.stdout.read()
    call.wait(timeout=60)
    call.stdout.close()
    return said.decode("utf-8")


def whole_time(site: Site) -> float:
    began = time.monotonic()
    assert site.run("ann", LINE).returncode == 0
    return time.monotonic() - began


def test_killed_between_a_word_and_the_ack(site: Site) -> None:
    chance = random.Random(os.environ.get("SEED", "4"))
    whole, confirmed, after, poster = whole_time(site), [], 0, site.start("post", "--every", "0.2")
    for number in range(ROUNDS):
        person = chance.choice(["ann", "carol"])
        said = killed(site, person, chance, whole, number % 10 == 0)
        found = re.search(r"Kept as ([a-z]+) ([0-9]+)\.", said)
        if found:
            confirmed.append((found[1], int(found[2])))
            after += "To approve it" not in said
        if number % 10 == 5:
            poster.kill()
            poster.wait(timeout=60)
            poster = site.start("post", "--every", "0.2")
    site.wait_until_posted()
    site.stop_desk()
    stored = [json.loads(body) for body in site.stored()]
    names = [(it["by"], it["no"]) for it in stored]
    print(f"{ROUNDS} kills: {len(confirmed)} confirmed, {after} of them before the answer was out")
    assert len(confirmed) >= 20 and after >= 5 and len(confirmed) < ROUNDS
    assert len(set(confirmed)) == len(confirmed)
    assert [names.count(it) for it in confirmed] == [1] * len(confirmed)
    assert len(set(names)) == len(names)
    assert sorted(site.stored()) == sorted(body for body, _ in site.kept())


def test_the_page_is_killed(site: Site) -> None:
    chance = random.Random(5)
    page = site.start_page()
    front, sent = Front(site, ["ann"]), 0
    try:
        for number in range(PAGE_ROUNDS):
            shown = confirmation(front, commands=f"/usr/local/sbin/tool{number}")
            data = {"token": token(shown.text), "what": "request"}
            timer = threading.Timer(chance.uniform(0, 0.6), page.kill)
            timer.start()
            first = requests.post(
                f"{front.url('ann')}/send", data, timeout=60, allow_redirects=False
            )
            sent += first.status_code == 303
            timer.join()
            page.wait(timeout=60)
            page = site.start_page()
            again = requests.post(
                f"{front.url('ann')}/send", data, timeout=60, allow_redirects=False
            )
            assert again.status_code == 303
            if first.status_code == 303:
                assert first.headers["Location"] == again.headers["Location"]
    finally:
        front.stop()
    site.start("post", "--every", "0.2")
    site.wait_until_posted()
    site.stop_desk()
    tools = [json.loads(body)["cmnds"] for body in site.stored()]
    print(f"{PAGE_ROUNDS} kills of the page: {sent} answers came through")
    assert sorted(tools) == [[f"/usr/local/sbin/tool{number}"] for number in range(PAGE_ROUNDS)]


def test_the_desk_is_down_for_a_minute(down: tuple[Site, float, str]) -> None:
    site, began, said = down
    assert "Kept as ann 1." in said
    assert "It is kept here and not yet at the desk." in said
    assert "The last time: the desk cannot be reached" in said
    assert "It is kept here" in site.run("ann", "mine -l").stdout
    assert "does not answer" in site.run("ann", "live").stderr
    time.sleep(max(0.0, began + DOWN_SECONDS - time.monotonic()))
    assert [state for _, state in site.kept()] == ["kept"]
    site.start_desk()
    site.wait_until_posted()
    assert "nobody approved it yet" in site.run("ann", "mine -l").stdout
    site.wait_until_said("post", "ann asks, ann 1: ack")
    log = (Path(site.folder) / "post.log").read_text()
    assert log.count("cannot be reached") == 1
    site.stop_desk()
    assert site.stored() == [body for body, _ in site.kept()]
