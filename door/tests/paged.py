"""A site with a door, its own page and a relay's, behind nginx, for tests with a browser: who calls
is told by the browser's name (User-Agent), for a certificate is nothing that selenium chooses."""

import subprocess
import time
from pathlib import Path

from selenium import webdriver
from selenium.webdriver.common.by import By
from selenium.webdriver.common.virtual_authenticator import VirtualAuthenticatorOptions

from door.tests.authenticator import word_for
from door.tests.doors import SITE, Doored, program
from relays.tests.chromium import browser, press, see
from relays.tests.front import NGINX
from relays.tests.site import PATIENCE, SECRET, wait_for_port
from tests.common.ports import free_port

NGINX_CONF = """\
daemon off;
user root;
pid {folder}/nginx.pid;
error_log {folder}/nginx.log;
worker_processes 1;
events {{}}
http {{
    access_log off;
    client_body_temp_path {folder}/body;
    proxy_temp_path {folder}/proxy;
    fastcgi_temp_path {folder}/fastcgi;
    uwsgi_temp_path {folder}/uwsgi;
    scgi_temp_path {folder}/scgi;
    server {{
        listen 127.0.0.1:{relay};
        location / {{
            proxy_pass http://unix:{folder}/page.sock;
            proxy_set_header Host $http_host;
            proxy_set_header X-Desk-Person $http_user_agent;
            proxy_set_header X-Desk-Front {secret};
        }}
    }}
    server {{
        listen 127.0.0.1:{door};
        location / {{
            proxy_pass http://unix:{folder}/confirm.sock;
            proxy_set_header Host $http_host;
            proxy_set_header X-Desk-Person $http_user_agent;
        }}
    }}
}}
"""
SETTINGS = """
origin = "{door}"
relay_pages = ["{relay}"]
by_ssh = ["db-emergency"]
page = "unix:{folder}/confirm.sock"
made = "{folder}/made"
"""
SIGNING = """
[signing]
site = "{site}"
confirm = "{door}"
"""


class Paged:
    """The site. `start` is apart, so that a failed one is closed as well."""

    def __init__(self, doored: Doored) -> None:
        self.doored, self.site, self.folder = doored, doored.site, doored.folder
        self.ports = {"relay": free_port(), "door": free_port()}
        self.jobs: list[subprocess.Popen[bytes]] = []
        self.browsers: list[webdriver.Chrome] = []

    @property
    def relay(self) -> str:
        return f"http://localhost:{self.ports['relay']}"

    @property
    def door(self) -> str:
        return f"http://localhost:{self.ports['door']}"

    def configure(self) -> None:
        """What a relay and a door have for each other."""
        (self.folder / "made").mkdir(exist_ok=True)
        places = {"relay": self.relay, "door": self.door, "folder": self.folder}
        self.doored.configure(more=SETTINGS.format(**places))
        text = self.site.config.read_text().replace("/desk.sock", "/door.sock", 1)
        signing = SIGNING.format(site=SITE, door=self.door)
        self.site.config.write_text(text.replace("[page]", f"{signing}[page]", 1))

    def start_page(self) -> None:
        """The door's page, once it listens."""
        words = [*program("desk-door"), "--config", str(self.doored.config), "confirm"]
        with open(self.folder / "confirm.log", "ab") as log:
            self.jobs.append(subprocess.Popen(words, stdout=log, stderr=log))
        until = time.monotonic() + PATIENCE
        while b"listening" not in (self.folder / "confirm.log").read_bytes():
            assert time.monotonic() < until
            time.sleep(0.1)

    def start(self) -> None:
        self.configure()
        self.doored.start()
        self.site.hear()
        self.site.start_page()
        self.start_page()
        conf = self.folder / "nginx.conf"
        conf.write_text(NGINX_CONF.format(folder=self.folder, secret=SECRET, **self.ports))
        words = [NGINX, "-e", f"{self.folder}/nginx.log", "-c", str(conf)]
        self.jobs.append(subprocess.Popen(words))
        for port in self.ports.values():
            wait_for_port(port)

    def browser(self, person: str, folder: Path, **more: bool) -> webdriver.Chrome:
        """Somebody's browser, with an authenticator of its own."""
        has_scripts = more.pop("has_scripts", True)
        found = browser(folder, f"--user-agent={person}", with_scripts=has_scripts)
        self.browsers.append(found)
        options = VirtualAuthenticatorOptions()
        options.has_user_verification = True
        options.is_user_verified = more.get("is_known", True)
        options.is_user_consenting = more.get("is_willing", True)
        found.add_virtual_authenticator(options)
        return found

    def enrolled(self, driver: webdriver.Chrome, person: str) -> str:
        """Somebody makes a passkey on the door's page, here, and root adds it: its fingerprint."""
        word = word_for(self.doored, person)
        driver.get(f"{self.door}/passkey")
        driver.find_element(By.ID, "word").send_keys(word)
        press(driver, "#make")
        see(driver, "It is made.", "SHA256:")
        mark = driver.find_element(By.ID, "mark").text
        said = self.doored.signer("add", person, str(self.folder / "made" / person))
        assert mark in said
        return mark

    def asked(self, driver: webdriver.Chrome, command: str, why: str = "") -> None:
        """Somebody asks on the relay's page, and signs on the door's."""
        driver.get(self.relay)
        fields = ("hosts", "db1"), ("commands", command), ("length", "1h"), ("why", why)
        for field, words in fields:
            driver.find_element(By.ID, field).send_keys(words)
        press(driver, "#show")
        see(driver, "Ask for this?", "Ask with your passkey")
        press(driver, "#yes")
        see(driver, "The desk’s door", command)

    def close(self) -> None:
        for each in self.browsers:
            each.quit()
        for job in self.jobs:
            job.terminate()
            job.wait(timeout=PATIENCE)
        self.doored.close()
