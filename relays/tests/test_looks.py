"""How the page looks in a browser, over a site that has everything: on a phone and on a desk, light
and dark, with letters twice as large, by the tree that a screen reader has, and by keyboard."""

import base64
import re
from collections.abc import Iterator
from typing import Any, NamedTuple

import pytest
from selenium import webdriver
from selenium.webdriver.common.by import By
from selenium.webdriver.common.keys import Keys

from relays.tests.chromium import browser, wait_until
from relays.tests.everything import Everything
from relays.tests.front import Front
from relays.tests.site import ROOT

SHOTS = ROOT / "build" / "relays-screenshots"
SIZES = ((360, 740), (768, 1024), (1440, 900))
SCHEMES = ("light", "dark")
# A page may be so much higher, and a place so much further, than the numbers say.
TOLERANCE = 0.15
# The pages by their names: whose they are, and where. NAME stands for the number of that request.
PAGES = {
    "home": ("bob", "/"),
    "mine": ("ann", "/"),
    "findings": ("dave", "/"),
    "request": ("bob", "/r/ann/WIDE"),
    "own": ("ann", "/r/ann/LIVE"),
    "refused": ("ann", "/r/ann/OBJECTED"),
    "approve": ("bob", "/verdict?kind=approve&of=ann&no=WIDE"),
    "several": ("bob", "/verdict?kind=approve&each=ann+WIDE&each=ann+SHORT&each=carol+2"),
    "refuse": ("bob", "/verdict?kind=refuse&of=ann&no=SHORT"),
    "again": ("ann", "/again?no=LIVE-WIDE"),
    "wrong": ("ann", "/usual?no=REFUSED"),
    "history": ("dave", "/history"),
}
# The contrast of each text with what is behind it, by WCAG 2: 4.5, and 3 for large texts.
CONTRAST = """
const part = v => (v /= 255) <= .03928 ? v / 12.92 : ((v + .055) / 1.055) ** 2.4;
const light = c => .2126 * part(c[0]) + .7152 * part(c[1]) + .0722 * part(c[2]);
const rgb = text => text.match(/[0-9.]+/g).map(Number);
const behind = e => { for (; e; e = e.parentElement) {
  const c = rgb(getComputedStyle(e).backgroundColor); if (c.length == 3 || c[3] == 1) return c; }
  return [255, 255, 255]; };
return [...document.querySelectorAll('body *')].filter(e => !e.closest('svg') && e.offsetWidth > 1
  && [...e.childNodes].some(n => n.nodeType == 3 && n.data.trim())).map(e => {
  const a = light(rgb(getComputedStyle(e).color)), b = light(behind(e));
  return [(Math.max(a, b) + .05) / (Math.min(a, b) + .05), e.tagName + e.textContent.trim()]; });
"""
# Whatever can be pressed or filled in, as far as it is shown.
SHOWN = """
const shown = e => { const r = e.getBoundingClientRect(); return r.width > 1 && r.height > 1
  && e.checkVisibility({visibilityProperty: true}); };
const all = [...document.querySelectorAll('a[href], button, input, select, textarea, summary')]
  .filter(e => e.type != 'hidden' && !e.classList.contains('skip') && shown(e));
"""
# The contrast of the ring that each of these has with what is behind it, and with its own paper.
RINGS = SHOWN + CONTRAST.partition("return [...document")[0] + """
const page = behind(document.body);
return all.map(e => { e.focus(); const s = getComputedStyle(e), r = light(rgb(s.outlineColor));
  const b = light(behind(e.parentElement));
  return [(Math.max(r, b) + .05) / (Math.min(r, b) + .05), parseFloat(s.outlineWidth),
    document.activeElement == e, e.outerHTML.slice(0, 120)]; });
"""
# How large they are, without those within a line of text.
TARGETS = SHOWN + """
return all.filter(e => !(e.tagName == 'A' && getComputedStyle(e).display == 'inline')).map(e => {
  const r = e.getBoundingClientRect();
  return [r.width, r.height, e.tagName, e.outerHTML.slice(0, 120)]; });
"""
# Those that stand before others in the text and below them on the screen.
OUT_OF_ORDER = SHOWN + """
const at = all.filter(e => !e.closest('.bar')).map(e => [e.getBoundingClientRect(), e]);
return at.slice(1).map(([r, e], n) => [at[n][0].top - r.bottom, e.outerHTML.slice(0, 120)])
  .filter(([far]) => far > 0);
"""
# The names of buttons that stand for more than one thing.
AMBIGUOUS = """
const by = {};
for (const b of document.querySelectorAll('button')) {
  const fields = [...new FormData(b.form)].filter(([name]) => name != 'token').join('&');
  (by[b.textContent.trim().replace(/\\s+/g, ' ')] ||= new Set()).add(b.form.action + fields); }
return Object.entries(by).filter(([, found]) => found.size > 1).map(([name]) => name);
"""
# What is read, but for a picture (its caption says the zone), people's reasons and help with a field.
READ = """
const page = document.body.cloneNode(true);
page.querySelectorAll('svg, q, [id$=-help]').forEach(e => e.remove());
return page.textContent.replace(/\\s+/g, ' ');
"""
# What has a place on the first screen, and how high the page is.
PLACES = """
const top = q => { const e = document.querySelector(q);
  return e ? Math.round(e.getBoundingClientRect().bottom) : null; };
return {high: document.documentElement.scrollHeight, wide: document.documentElement.scrollWidth,
  approve: top('button.approve'), yes: top('#yes'), show: top('#show'), card: top('article')};
"""


class Place(NamedTuple):
    """How high a page is, and how far down these end: its first card, its first button of an
    approval, its yes, and the button that shows what one asks for."""

    high: int
    card: int | None = None
    approve: int | None = None
    yes: int | None = None
    show: int | None = None


# By page and width. (With 34 own requests and 58 that waited, a phone's home was 69,007 high.)
NUMBERS: dict[tuple[str, int], Place] = {
    ("home", 360): Place(23_663, 735, 675),
    ("home", 768): Place(18_429, 598, 535),
    ("home", 1440): Place(18_268, 577, 514),
    ("mine", 360): Place(14_126, 739, show=13_890),
    ("mine", 768): Place(10_857, 593, show=10_631),
    ("mine", 1440): Place(10_591, 593, show=10_364),
    ("findings", 360): Place(2_120),
    ("findings", 768): Place(1_838),
    ("findings", 1440): Place(1_860),
    ("request", 360): Place(2_864, 2_405, yes=697),
    ("request", 768): Place(1_574, 1_157, yes=1_010),
    ("request", 1440): Place(1_502, 1_085, yes=886),
    ("own", 360): Place(1_144, 667),
    ("own", 768): Place(1_024, 586),
    ("own", 1440): Place(940, 562),
    ("refused", 360): Place(1_040, 619, yes=677),
    ("refused", 768): Place(1_024, 562, yes=834),
    ("refused", 1440): Place(912, 562, yes=834),
    ("approve", 360): Place(2_650, 2_384, 729, 729),
    ("approve", 768): Place(1_427, 1_139, 1_010, 1_010),
    ("approve", 1440): Place(1_355, 1_067, 886, 886),
    ("several", 360): Place(3_761, 2_384, 729, 729),
    ("several", 768): Place(2_311, 1_139, 1_010, 1_010),
    ("several", 1440): Place(2_239, 1_067, 886, 886),
    ("refuse", 360): Place(894, 736, yes=729),
    ("refuse", 768): Place(1_024, 655, yes=758),
    ("refuse", 1440): Place(900, 655, yes=758),
    ("again", 360): Place(1_171, show=1_044),
    ("again", 768): Place(1_024, show=817),
    ("again", 1440): Place(942, show=796),
    ("wrong", 360): Place(1_451, show=1_270),
    ("wrong", 768): Place(1_189, show=989),
    ("wrong", 1440): Place(1_147, show=947),
    ("history", 360): Place(17_687, 827),
    ("history", 768): Place(12_518, 667),
    ("history", 1440): Place(12_518, 667),
}


class Looking:
    """A browser over everything, which goes from one person's page to another's."""

    def __init__(self, everything: Everything, front: Front, driver: webdriver.Chrome) -> None:
        self.everything, self.front, self.driver = everything, front, driver

    def open(self, name: str) -> None:
        person, path = PAGES[name]
        # (one word is the end of another)
        for word in sorted(self.everything.numbers, key=len, reverse=True):
            path = path.replace(word.upper(), str(self.everything.numbers[word]))
        self.driver.get(self.front.url(person) + path)

    def wait_for(self, heading: str) -> None:
        """Until the next page is there: the one that is left has a heading, too."""
        wait_until(
            self.driver, lambda it: it.find_element(By.TAG_NAME, "h1").text == heading, heading, 20
        )

    def screen(self, width: int, height: int, scheme: str = "light") -> None:
        size = {"width": width, "height": height, "deviceScaleFactor": 1, "mobile": width < 500}
        self.driver.execute_cdp_cmd("Emulation.setDeviceMetricsOverride", size)
        features = [{"name": "prefers-color-scheme", "value": scheme}]
        self.driver.execute_cdp_cmd("Emulation.setEmulatedMedia", {"features": features})

    def ask(self, script: str) -> Any:
        return self.driver.execute_script(script)

    def shoot(self, name: str) -> None:
        """The first screen, as somebody sees it who has just come."""
        SHOTS.mkdir(parents=True, exist_ok=True)
        self.ask("document.activeElement.blur(); scrollTo(0, 0)")
        found = self.driver.execute_cdp_cmd("Page.captureScreenshot", {})
        (SHOTS / f"{name}.png").write_bytes(base64.b64decode(found["data"]))

    def tree(self) -> list[dict[str, Any]]:
        """What a screen reader has of the page."""
        found = self.driver.execute_cdp_cmd("Accessibility.getFullAXTree", {})["nodes"]
        return [it for it in found if not it.get("ignored")]


def value(node: dict[str, Any], name: str) -> Any:
    return node.get(name, {}).get("value", "")


def property_of(node: dict[str, Any], name: str) -> Any:
    found = {it["name"]: it["value"].get("value") for it in node.get("properties", [])}
    return found.get(name)


@pytest.fixture(scope="module")
def served(tmp_path_factory: pytest.TempPathFactory) -> Iterator[tuple[Everything, Front]]:
    everything = Everything(tmp_path_factory.mktemp("everything"))
    try:
        everything.site.start_page()
        front = Front(everything.site, ["ann", "bob", "dave"])
        yield everything, front
        front.stop()
    finally:
        everything.site.close()


@pytest.fixture(scope="module", params=[16, 32], ids=["letters", "large letters"])
def looking(
    request: pytest.FixtureRequest,
    served: tuple[Everything, Front],
    tmp_path_factory: pytest.TempPathFactory,
) -> Iterator[Looking]:
    driver = browser(tmp_path_factory.mktemp("looks"), with_scripts=True, letters=request.param)
    try:
        yield Looking(*served, driver)
    finally:
        driver.quit()


@pytest.mark.parametrize("name", PAGES)
def test_each_page_at_each_size(
    looking: Looking, name: str, request: pytest.FixtureRequest
) -> None:
    """Nothing stands beside the screen, texts and rings can be seen, what is pressed is large
    enough and in order, and the yes is always on the screen."""
    is_large = "large" in request.node.name
    looking.open(name)
    for width, height in ((320, 640), *SIZES, (1920, 1080)):
        looking.screen(width, height)
        looking.ask("scrollTo(0, 0)")
        found = looking.ask(PLACES)
        print(name, width, found)
        assert found["wide"] <= width, (width, found)
        if found["yes"] and (width > 320 or not is_large):
            assert found["yes"] <= height, (width, found)
        sized(looking, width)
        if (name, width) in NUMBERS and not is_large:
            near(found, NUMBERS[name, width], (name, width))
        for scheme in SCHEMES:
            looking.screen(width, height, scheme)
            seen(looking, (name, width, scheme))
            looking.shoot(f"{name}-{width}-{scheme}{'-large' if is_large else ''}")
    # (a form that is wrong comes with 400)
    said = [it["message"] for it in looking.driver.get_log("browser")]
    assert not [it for it in said if "favicon" not in it and "status of 400" not in it], said


def near(found: dict[str, int], wanted: Place, what: tuple[str, int]) -> None:
    for name, number in wanted._asdict().items():
        if number is not None:
            assert abs(found[name] - number) <= TOLERANCE * number, (what, name, found, number)


def sized(looking: Looking, width: int) -> None:
    """WCAG 2.2, 2.5.8; buttons are as high as a finger."""
    for wide, high, tag, text in looking.ask(TARGETS):
        assert wide >= 24 and high >= 24, (width, wide, high, text)
        assert tag != "BUTTON" or high >= 40, (width, high, text)
    assert not looking.ask(OUT_OF_ORDER), (width, looking.ask(OUT_OF_ORDER))


def seen(looking: Looking, what: tuple[str, int, str]) -> None:
    """WCAG 2.2, 1.4.3 and 1.4.11."""
    found = looking.ask(CONTRAST)
    assert len(found) > 5 and not [it for it in found if it[0] < 4.5], (what, sorted(found)[:5])
    dark = looking.ask("return getComputedStyle(document.body).backgroundColor")
    is_dark = sum(int(it) for it in re.findall("[0-9]+", dark)[:3]) < 150
    assert is_dark == (what[2] == "dark"), (what, dark)
    for contrast, width, is_there, text in looking.ask(RINGS):
        assert is_there and width >= 2 and contrast >= 3, (what, contrast, width, text)


@pytest.mark.parametrize("name", PAGES)
def test_what_a_screen_reader_has(looking: Looking, name: str) -> None:
    looking.open(name)
    nodes = looking.tree()
    by_role: dict[str, list[dict[str, Any]]] = {}
    for node in nodes:
        by_role.setdefault(value(node, "role"), []).append(node)
    # names, and buttons of one name do the same
    widgets = ("button", "link", "textbox", "combobox", "checkbox", "article", "region", "heading")
    for role in (*widgets, "DisclosureTriangle", "image", "figure"):
        for node in by_role.get(role, []):
            is_named = value(node, "name") or role == "figure"
            assert is_named, (role, node)
    assert not looking.ask(AMBIGUOUS)
    # roles: one of each landmark, and nothing that takes the focus has none
    for role in ("banner", "main", "RootWebArea"):
        assert len(by_role[role]) == 1, role
    for node in nodes:
        if property_of(node, "focusable"):
            assert value(node, "role") not in ("generic", "none", ""), node
    # labels, headings and the language
    script = "return [...document.querySelectorAll('input:not([type=hidden]), select, textarea')]"
    assert all(looking.ask(f"{script}.map(e => e.labels.length == 1)"))
    levels = [property_of(it, "level") for it in by_role["heading"]]
    assert levels[0] == 1 and levels.count(1) == 1, levels
    assert all(after <= before + 1 for before, after in zip(levels, levels[1:])), levels
    assert looking.ask("return document.documentElement.lang") == "en"
    assert value(by_role["RootWebArea"][0], "name").endswith(("The desk", ": the desk"))


@pytest.mark.parametrize("name", PAGES)
def test_words_for_people_and_hours_with_their_zone(looking: Looking, name: str) -> None:
    looking.open(name)
    text = looking.ask(READ)
    assert not re.findall(r"\b(relay|roster|outbox|acknowledged)\b", text.lower()), text
    hours = re.findall(r"\b\d\d:\d\d(?::\d\d)?\b(.{0,5})", text)
    assert all(re.match(" (UTC|CES?T)", it) for it in hours), text
    assert hours or name in ("findings", "wrong", "again"), text


def test_a_field_that_is_wrong(looking: Looking) -> None:
    """The focus is in it, and what is wrong is said with it."""
    looking.open("wrong")
    found = [it for it in looking.tree() if property_of(it, "invalid") == "true"]
    assert [value(it, "name") for it in found] == ["On which hosts"], found
    assert "web1 is outside db-care" in value(found[0], "description")
    assert looking.ask("return document.activeElement.id") == "hosts"


def test_ticked_and_decided_by_keyboard(looking: Looking) -> None:
    """The bar of what is ticked comes to the screen, and a page shows each whole."""
    looking.screen(360, 740)
    looking.open("home")
    driver = looking.driver
    bar = "return document.querySelector('.bar.several').getBoundingClientRect().top < innerHeight"
    assert looking.ask(bar) is False
    boxes = driver.find_elements(By.CSS_SELECTOR, ".tick input")
    for box in boxes[:2]:
        box.send_keys(Keys.SPACE)
    # (the first one ticked is on the screen, and the bar with it)
    looking.ask("document.querySelector('.tick :checked').scrollIntoView({block: 'center'})")
    assert looking.ask(bar) is True
    driver.find_element(By.CSS_SELECTOR, ".bar.several button").send_keys(Keys.ENTER)
    looking.wait_for("Approve 2 requests?")
    assert len(driver.find_elements(By.CSS_SELECTOR, "main article")) == 2
    assert driver.find_element(By.ID, "yes").text == "Yes, approve 2"


def test_the_yes_by_keyboard(looking: Looking) -> None:
    """At most six keys behind a notice's link; from the list they were 14 for the request that
    stood first."""
    looking.screen(1440, 900)
    looking.open("request")
    keys = 1  # (Return)
    while looking.ask("return document.activeElement.id") != "yes":
        looking.driver.switch_to.active_element.send_keys(Keys.TAB)
        keys += 1
        assert keys <= 6, looking.ask("return document.activeElement.outerHTML")


def test_a_tap_reaches_what_it_shows(looking: Looking) -> None:
    """On a phone, as soon as something is in force that its reader may end."""
    looking.screen(360, 740)
    looking.open("mine")
    looking.ask("document.querySelector('#show').scrollIntoView({block: 'center'})")
    assert looking.ask(
        "const r = document.querySelector('#show').getBoundingClientRect();"
        "const e = document.elementFromPoint(r.x + r.width / 2, r.y + r.height / 2);"
        "return e && e.id"
    ) == "show"
    driver = looking.driver
    for field, text in (("hosts", "db1"), ("commands", "/usr/bin/id"), ("length", "1h")):
        driver.find_element(By.ID, field).send_keys(text)
    driver.find_element(By.ID, "show").click()
    looking.wait_for("Ask for this?")
