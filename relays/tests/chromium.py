"""A browser for tests: Debian's chromium, driven by selenium. It needs nothing else of this folder:
tests/documents/check_team.py puts it on a machine that has the packages alone."""

from collections.abc import Callable
from pathlib import Path

from selenium import webdriver
from selenium.common.exceptions import WebDriverException
from selenium.webdriver.chrome.service import Service
from selenium.webdriver.common.by import By
from selenium.webdriver.support.wait import WebDriverWait


def browser(
    folder: Path, *words: str, with_scripts: bool = False, letters: int = 16
) -> webdriver.Chrome:
    """A browser with a profile of its own, started with these words too, and with letters so many
    pixels high. Nobody needs a script."""
    options = webdriver.ChromeOptions()
    options.binary_location = "/usr/bin/chromium"
    for word in (
        "--headless=new",
        "--no-sandbox",
        "--disable-gpu",
        "--disable-dev-shm-usage",
        "--window-size=1100,1400",
        "--no-first-run",
        "--disable-background-networking",
        f"--user-data-dir={folder}",
        *words,
    ):
        options.add_argument(word)
    chosen = {"webkit.webprefs.default_font_size": letters}
    if not with_scripts:
        chosen["profile.managed_default_content_settings.javascript"] = 2
    options.add_experimental_option("prefs", chosen)
    found = webdriver.Chrome(service=Service("/usr/bin/chromedriver"), options=options)
    found.set_page_load_timeout(180)
    return found


def wait_until(
    driver: webdriver.Chrome,
    check: Callable[[webdriver.Chrome], bool],
    said: str,
    seconds: float = 90,
) -> None:
    """Waits until a check holds. While one page makes way for another its elements are gone, and
    chromedriver says so in several ways, one of which has no name of its own."""
    WebDriverWait(driver, seconds, ignored_exceptions=[WebDriverException]).until(check, said)


def see(driver: webdriver.Chrome, *pieces: str) -> None:
    """Waits until the page has these texts."""

    def is_there(each: webdriver.Chrome) -> bool:
        text = each.find_element(By.TAG_NAME, "body").text
        return all(piece in text for piece in pieces)

    wait_until(driver, is_there, str(pieces))


def press(driver: webdriver.Chrome, selector: str) -> None:
    driver.find_element(By.CSS_SELECTOR, selector).click()
