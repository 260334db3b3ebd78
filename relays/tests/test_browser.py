"""A real browser: ask as ann, approve as bob, see it in force, let sudo decide, revoke."""

from collections.abc import Iterator
from pathlib import Path

import pytest
from selenium import webdriver
from selenium.webdriver.common.by import By
from selenium.webdriver.common.keys import Keys

from relays.tests import sudo_says
from relays.tests.chromium import browser, press, see
from relays.tests.front import Front
from relays.tests.site import ROOT, Site, wait_for_next_second
from steelnewt_client.moments import now, of_stamp, stamp

SHOTS = ROOT / "build" / "relays-screenshots"


@pytest.fixture(scope="module")
def fronted(tmp_path_factory: pytest.TempPathFactory) -> Iterator[tuple[Site, Front]]:
    site = Site(tmp_path_factory.mktemp("browser"))
    try:
        site.start_desk()
        site.start_page()
        front = Front(site, ["ann", "bob", "dave"])
        yield site, front
        front.stop()
    finally:
        site.close()


@pytest.fixture(scope="module")
def browsers(tmp_path_factory: pytest.TempPathFactory) -> Iterator[dict[str, webdriver.Chrome]]:
    SHOTS.mkdir(parents=True, exist_ok=True)
    found: dict[str, webdriver.Chrome] = {}
    try:
        for name in ("ann", "bob"):
            found[name] = browser(tmp_path_factory.mktemp(name))
        yield found
    finally:
        for each in found.values():
            each.quit()


def shoot(driver: webdriver.Chrome, name: str) -> None:
    driver.save_screenshot(str(SHOTS / f"{name}.png"))


def fetched(site: Site) -> str:
    return site.ask("/v1/hosts/db1/sudoers")


def test_a_grants_life_in_two_browsers(
    fronted: tuple[Site, Front], browsers: dict[str, webdriver.Chrome]
) -> None:
    site, front = fronted
    ann, bob = browsers["ann"], browsers["bob"]
    ann.get(front.url("ann"))
    for field, words in (("hosts", "db1"), ("commands", "/usr/bin/id"), ("length", "1h")):
        ann.find_element(By.ID, field).send_keys(words)
    shoot(ann, "1-ask")
    press(ann, "#show")
    see(ann, "Ask for this?", "1 hour", "UTC (")
    shoot(ann, "2-ask-confirm")
    press(ann, "#yes")
    see(ann, "ann 1: It waits for approval. It needs 1 approval; nobody approved it yet; bob, carol")
    bob.get(front.url("bob"))
    shoot(bob, "3-waits")
    press(bob, "#waits-ann-1 button.approve")
    see(bob, "Approve ann 1?", "/usr/bin/id")
    shoot(bob, "4-approve-confirm")
    press(bob, "#yes")
    see(bob, "ann 1: The desk has your approval.", "Nothing waits for your approval.")
    ann.get(front.url("ann"))
    see(ann, "It is in force from")
    assert ann.find_elements(By.CSS_SELECTOR, "svg rect.bar")
    shoot(ann, "5-in-force")
    granted = fetched(site)
    sudo_allows_exactly_it(site, granted)
    # revoked in the second of its approval, it would have been in force at no moment
    wait_for_next_second()
    press(ann, "#mine-1 button.revoke")
    see(ann, "Revoke ann 1?")
    press(ann, "#yes")
    see(ann, "ann 1: The desk has your revocation.")
    see(ann, "It was in force from", "Nothing is in force.")
    shoot(ann, "6-revoked")
    rows = [("ann", "db1", "root", stamp(now()), ["/usr/bin/id"])]
    assert sudo_says.ask(site.folder, fetched(site), rows) == [False]


def sudo_allows_exactly_it(site: Site, granted: str) -> None:
    """`sudo -l` by the host's file, within the window and outside it, and for all else."""
    line = next(it for it in granted.splitlines() if it.startswith("ann "))
    first = line.partition("NOTBEFORE=")[2][:15]
    last = line.partition("NOTAFTER=")[2][:15]
    before = stamp(of_stamp(first).replace(year=of_stamp(first).year - 1))
    after = stamp(of_stamp(last).replace(year=of_stamp(last).year + 1))
    run = ["/usr/bin/id"]
    rows: list[tuple[str, str, str, str, list[str]]] = [
        ("ann", "db1", "root", first, run),
        ("ann", "db1", "root", last, run),
        ("ann", "db1", "root", last, [*run, "-u"]),
        ("ann", "db1", "root", before, run),
        ("ann", "db1", "root", after, run),
        ("ann", "db1", "postgres", last, run),
        ("ann", "db2", "root", last, run),
        ("bob", "db1", "root", last, run),
        ("ann", "db1", "root", last, ["/usr/bin/env"]),
    ]
    assert sudo_says.ask(site.folder, granted, rows) == [True] * 3 + [False] * 6


def test_by_keyboard_alone(
    fronted: tuple[Site, Front], browsers: dict[str, webdriver.Chrome]
) -> None:
    _, front = fronted
    ann = browsers["ann"]
    ann.get(front.url("ann"))
    ann.switch_to.active_element.send_keys(Keys.TAB)
    assert ann.switch_to.active_element.text == "To the content"
    given = {"hosts": "db2", "commands": "/usr/local/sbin/w", "length": "30m"}
    for _ in range(60):
        ann.switch_to.active_element.send_keys(Keys.TAB)
        at = ann.switch_to.active_element
        if at.get_attribute("id") in given:
            at.send_keys(given[str(at.get_attribute("id"))])
        if at.get_attribute("id") == "show":
            break
    ann.switch_to.active_element.send_keys(Keys.ENTER)
    see(ann, "Ask for this?")
    for _ in range(10):
        if ann.switch_to.active_element.get_attribute("id") == "yes":
            break
        ann.switch_to.active_element.send_keys(Keys.TAB)
    ann.switch_to.active_element.send_keys(Keys.ENTER)
    see(ann, "It needs 1 approval; nobody approved it yet")


def test_a_form_of_another_site(
    fronted: tuple[Site, Front], browsers: dict[str, webdriver.Chrome], tmp_path: Path
) -> None:
    site, front = fronted
    ann, before = browsers["ann"], site.kept()
    for path in ("send", "ask"):
        trap = tmp_path / "trap.html"
        fields = '<input name="what" value="request"><input name="token" value="x">'
        action = f'<form method="post" action="{front.url("ann")}/{path}">'
        trap.write_text(f"{action}{fields}<button>Win</button></form>")
        ann.get(f"file://{trap}")
        press(ann, "button")
        see(ann, "The form came from another site.")
    frame = tmp_path / "frame.html"
    frame.write_text(f'<iframe id="inner" src="{front.url("ann")}/"></iframe>')
    ann.get(f"file://{frame}")
    ann.switch_to.frame("inner")
    assert not ann.find_elements(By.ID, "main")
    ann.switch_to.default_content()
    assert site.kept() == before
