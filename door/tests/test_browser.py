"""A real browser with a virtual authenticator: people make passkeys on the door's page, ask,
approve and revoke by a touch there, led by a relay's page; and a relay that cheats gets nothing."""

import json
from collections.abc import Iterator
from pathlib import Path
from typing import Any
from zoneinfo import ZoneInfo

import pytest
from selenium import webdriver
from selenium.webdriver.common.by import By

from door.tests.authenticator import encoded
from door.tests.doors import SITE, Doored
from door.tests.paged import Paged
from relays.tests.chromium import press, see
from relays.tests.site import ROOT
from steelnewt_client.moments import of_stamp
from steelnewt_client.signed import NAMESPACE, Signed, challenge, digest

SHOTS = ROOT / "build" / "door-screenshots"
WIDTHS = (360, 1_440)
# What a relay's own page does that wants a touch for itself.
TOUCH = """
const [challenge, id, done] = arguments;
const bytes = text => Uint8Array.from(
  atob(text.replaceAll("-", "+").replaceAll("_", "/")), it => it.charCodeAt(0));
const text = it => btoa(String.fromCharCode(...new Uint8Array(it)))
  .replaceAll("+", "-").replaceAll("/", "_").replaceAll("=", "");
navigator.credentials.get({ publicKey: {
  challenge: bytes(challenge), rpId: "localhost", userVerification: "required",
  allowCredentials: [{ type: "public-key", id: bytes(id) }],
} }).then(it => done([it.rawId, it.response.authenticatorData, it.response.clientDataJSON,
  it.response.signature].map(text).join(".")), it => done("" + it));
"""
# A form of a relay's that names another request than it shows.
CHEAT = """
const [where, fields] = arguments, form = document.createElement("form");
form.method = "post"; form.action = where;
for (const [name, value] of fields) {
  const it = document.createElement("input");
  it.name = name; it.value = value; form.append(it);
}
document.body.append(form); form.submit();
"""


@pytest.fixture(scope="module")
def paged(tmp_path_factory: pytest.TempPathFactory) -> Iterator[Paged]:
    SHOTS.mkdir(parents=True, exist_ok=True)
    found = Paged(Doored(tmp_path_factory.mktemp("p"), people=("erin",)))
    try:
        found.start()
        yield found
    finally:
        found.close()


@pytest.fixture(scope="module")
def people(paged: Paged, tmp_path_factory: pytest.TempPathFactory) -> dict[str, webdriver.Chrome]:
    """ann and bob, who have no key of ssh's, each with a browser and a passkey."""
    found = {it: paged.browser(it, tmp_path_factory.mktemp(it)) for it in ("ann", "bob")}
    for name, driver in found.items():
        paged.enrolled(driver, name)
    return found


def shoot(driver: webdriver.Chrome, name: str) -> None:
    """A picture at each width, on which nothing stands beside the screen."""
    for width in WIDTHS:
        size = {"width": width, "height": 900, "deviceScaleFactor": 1, "mobile": width < 500}
        driver.execute_cdp_cmd("Emulation.setDeviceMetricsOverride", size)
        wide = driver.execute_script("return document.documentElement.scrollWidth")
        driver.save_screenshot(str(SHOTS / f"{name}-{width}.png"))
        assert wide <= width, (name, width, wide)
    driver.execute_cdp_cmd("Emulation.clearDeviceMetricsOverride", {})


def touches(driver: webdriver.Chrome) -> int:
    """How often somebody's passkey signed."""
    counts = [int(it.sign_count) for it in driver.get_credentials()]
    return max(counts)


def faults(driver: webdriver.Chrome) -> list[dict[str, Any]]:
    """What the browser refused, or a script stumbled over."""
    found: list[dict[str, Any]] = driver.get_log("browser")
    return [it for it in found if "favicon" not in it["message"]]


def in_force(paged: Paged) -> list[str]:
    return [" ".join(it.split(" ")[:2]) for it in paged.doored.in_force()]


def newest(paged: Paged) -> str:
    """The request that was asked last."""
    requests = [it for it in paged.doored.held() if '"kind":"request"' in it]
    return max(requests, key=lambda it: int(json.loads(it)["no"]))


def test_from_the_notices_link_to_the_grant(
    paged: Paged, people: dict[str, webdriver.Chrome]
) -> None:
    ann, bob = people["ann"], people["bob"]
    paged.asked(ann, "/usr/bin/id", "it won't start")
    see(ann, "Ask for this?", "You sign as ann", "You write: it won't start", "root on db1, 1 hour")
    shoot(ann, "ask")
    press(ann, "#yes")
    see(ann, "ann 1: It waits for approval.")
    bob.execute_cdp_cmd("Emulation.setTimezoneOverride", {"timezoneId": "Europe/Berlin"})
    bob.get(f"{paged.relay}/r/ann/1")
    see(bob, "Approve with your passkey", "Or write: mydesk approve ann 1")
    shoot(bob, "request")
    press(bob, "#yes")
    see(bob, "The desk’s door", "Approve ann 1?", "/usr/bin/id", "ann wrote: it won't start")
    assert bob.current_url == f"{paged.door}/confirm"
    ends = of_stamp(json.loads(newest(paged))["until"])
    here = ends.astimezone(ZoneInfo("Europe/Berlin"))
    see(bob, f"{ends:%Y-%m-%d %H:%M:%S} UTC ({here:%Y-%m-%d %H:%M:%S}")
    shoot(bob, "approve")
    press(bob, "#yes")
    see(bob, "ann 1: The desk has your approval.")
    assert bob.current_url.startswith(f"{paged.relay}/r/ann/1?sent=")
    assert in_force(paged) == ["ann 1"]
    press(bob, "button.revoke")
    see(bob, "Revoke ann 1?")
    bob.find_element(By.ID, "why").send_keys("the incident is over")
    press(bob, "#yes")
    see(bob, "The desk’s door", "Revoke ann 1?", "You write: the incident is over")
    shoot(bob, "revoke")
    press(bob, "#yes")
    see(bob, "ann 1: The desk has your revocation.")
    assert not in_force(paged)
    ann.get(f"{paged.relay}/r/ann/1")
    see(ann, "the incident is over")
    rows = [it for it in paged.doored.rows("came") if it["how"] != "refused"]
    assert [it["how"] for it in rows] == ["signed"] * 3
    assert all(it["signature"].startswith("webauthn:") for it in rows)
    assert not faults(ann) + faults(bob)


def test_several_by_one_touch(paged: Paged, people: dict[str, webdriver.Chrome]) -> None:
    ann, bob = people["ann"], people["bob"]
    for _ in range(2):
        paged.asked(ann, "/usr/bin/id")
        press(ann, "#yes")
        see(ann, "It waits for approval.")
    bob.get(f"{paged.relay}/?ticked=ann")
    press(bob, ".bar.several button.approve")
    see(bob, "Approve 2 requests?", "Approve with your passkey")
    press(bob, "#yes")
    see(bob, "The desk’s door", "Approve 2 requests?", "ann 2: root on db1", "ann 3: root on db1")
    shoot(bob, "list")
    before = touches(bob)
    press(bob, "#yes")
    see(bob, "ann 2: The desk has your approval.", "ann 3: The desk has your approval.")
    assert touches(bob) == before + 1
    assert in_force(paged) == ["ann 2", "ann 3"]
    assert not faults(bob)


def test_a_relay_that_shows_one_and_wants_a_touch_for_another(
    paged: Paged, people: dict[str, webdriver.Chrome]
) -> None:
    """Attack 1: with all that a relay has, its page, its origin and its forms."""
    ann, bob = people["ann"], people["bob"]
    paged.asked(ann, "/usr/bin/id", "harmless")
    press(ann, "#yes")
    see(ann, "It waits for approval.")
    request = newest(paged)
    no = json.loads(request)["no"]
    # its own page asks the passkey, for the same site: the browser says at which origin that was
    verdict = paged.doored.verdict(no=no)
    said = Signed(verdict, "", digest(request))
    bob.get(paged.relay)
    wanted = encoded(challenge(NAMESPACE, said.payload(SITE)))
    made = bob.execute_async_script(TOUCH, wanted, bob.get_credentials()[0].id.rstrip("="))
    assert made.count(".") == 3, made
    stolen = Signed(verdict, f"webauthn:{made}", said.about)
    assert paged.doored.post(stolen) == "A20 BadSignature"
    assert "another page asked for it: http://localhost:" in paged.doored.said()
    # it shows something harmless, and hands over another: the door shows that one
    bob.get(f"{paged.relay}/r/ann/1")
    see(bob, "ann: root on db1, 1 hour")
    fields = [("kind", "approve"), ("name", f"ann {no}"), ("reason", "nothing"), ("ticket", "")]
    bob.execute_script(CHEAT, f"{paged.door}/confirm", fields)
    see(bob, "The desk’s door", f"Approve ann {no}?", "ann wrote: nothing")
    # and where somebody touches it all the same, the reason that they saw is none of the request's
    press(bob, "#yes")
    see(bob, "was signed with another reason or ticket")
    assert f"ann {no}" not in in_force(paged)


def test_whoever_has_no_passkey_or_no_finger_for_it(paged: Paged, tmp_path: Path) -> None:
    carol = paged.browser("carol", tmp_path / "carol")
    bob = paged.browser("bob", tmp_path / "other", is_known=False)
    held = paged.doored.held()
    carol.get(paged.relay)
    link = carol.find_element(By.LINK_TEXT, "Your passkeys")
    assert link.get_attribute("href") == f"{paged.door}/passkey"
    carol.get(f"{paged.relay}/r/ann/{json.loads(newest(paged))['no']}")
    press(carol, "#yes")
    see(carol, "You have no passkey here: make one, or write mydesk approve.")
    carol.find_element(By.LINK_TEXT, "make one").click()
    see(carol, "Your passkeys", "You have none here.")
    shoot(carol, "passkey")
    # an authenticator that does not know its owner makes none
    bob.get(f"{paged.door}/passkey")
    bob.find_element(By.ID, "word").send_keys("0123456789abcdef")
    press(bob, "#make")
    see(bob, "Nothing was sent:")
    # a word that nobody told them
    carol.find_element(By.ID, "word").send_keys("0123456789abcdef")
    press(carol, "#make")
    see(carol, "It is made.")
    paged.doored.signer("enrol", "carol")
    said = paged.doored.signer("add", "carol", str(paged.folder / "made" / "carol"), status=2)
    assert "carol did not sign the word with this key" in said
    assert paged.doored.held() == held


def test_without_scripts_nothing_can_be_pressed(paged: Paged, tmp_path: Path) -> None:
    bob = paged.browser("bob", tmp_path / "plain", has_scripts=False)
    bob.get(f"{paged.relay}/r/ann/{json.loads(newest(paged))['no']}")
    press(bob, "#yes")
    see(bob, "Without scripts you sign by ssh, with mydesk.")
    assert not bob.find_element(By.ID, "yes").is_enabled()


def test_a_ceiling_of_ssh_alone_is_said_on_the_page(
    paged: Paged, people: dict[str, webdriver.Chrome]
) -> None:
    ann = people["ann"]
    ann.get(paged.relay)
    press(ann, "#ceiling option[value='db-emergency']")
    for field, words in (("hosts", "db1"), ("commands", "ALL"), ("length", "15m"), ("why", "x")):
        ann.find_element(By.ID, field).send_keys(words)
    press(ann, "#show")
    see(ann, "Ask with your passkey")
    press(ann, "#yes")
    see(ann, "Nothing was signed", "Under db-emergency only a signature by ssh counts: mydesk ask")
    shoot(ann, "wrong")
