"""People at their own machines, with mydesk: `ssh` is a stand-in that starts the relay as sshd
would, for whoever calls. (test_sshd.py does the same with a real sshd.)"""

import os
import pty
import shlex
import subprocess
from pathlib import Path

from door.tests.doors import MYDESK, SITE, Doored

SSH = """\
#!/bin/sh
# ssh [OPTION..] -- HOST LINE, as sshd would answer it
while [ "$1" != -- ]; do shift; done
export SSH_ORIGINAL_COMMAND="$3"
exec {command}
"""
SIGNING = """
[signing]
site = "{site}"
required = {required}
"""


class Person:
    """Somebody's own machine: their settings, and their ssh."""

    def __init__(self, doored: Doored, name: str, key: str = "", site: str = SITE) -> None:
        self.doored, self.name = doored, name
        self.home = doored.folder / f"home-{name}"
        (self.home / ".config").mkdir(parents=True, exist_ok=True)
        key = key or str(doored.folder / name)
        settings = f"desk = desk\nsite = {site}\nperson = {name}\nkey = {key}\n"
        (self.home / ".config" / "mydesk").write_text(settings)
        self.relay(shlex.join(doored.site.words(name)))

    def relay(self, command: str) -> None:
        """What answers for the relay."""
        folder = self.home / "bin"
        folder.mkdir(exist_ok=True)
        (folder / "ssh").write_text(SSH.format(command=command))
        (folder / "ssh").chmod(0o755)

    def run(self, *words: str, given: str = "y\n", status: int = 0, **more: str) -> str:
        """Runs mydesk: what it says."""
        path = f"{self.home}/bin:/usr/bin:/bin"
        environment = {"HOME": str(self.home), "PATH": path, "TZ": "Europe/Berlin"} | more
        ran = subprocess.run(
            [str(MYDESK), *words], input=given, capture_output=True, text=True,
            env=environment, check=False, timeout=180,
        )  # fmt: skip
        assert ran.returncode == status, ran
        return ran.stdout + ran.stderr

    def typed(self, *words: str) -> str:
        """Runs mydesk at a terminal: what is shown."""
        here, there = pty.openpty()
        environment = {"HOME": str(self.home), "PATH": f"{self.home}/bin:/usr/bin:/bin"}
        call = subprocess.Popen(
            [str(MYDESK), *words], stdin=there, stdout=there, stderr=there, env=environment
        )
        os.close(there)
        call.wait(timeout=180)
        shown = os.read(here, 65536).decode("utf-8")
        os.close(here)
        return shown.replace("\r", "")


def behind_door(doored: Doored, required: bool = True) -> None:
    """Lets the relay of a site post to its door, and take what is signed."""
    config = doored.site.config
    text = config.read_text().replace("/desk.sock", "/door.sock", 1)
    signing = SIGNING.format(site=SITE, required=str(required).lower())
    config.write_text(text.replace("[page]", f"{signing}[page]", 1))


def script(path: Path, text: str) -> str:
    path.write_text(f"#!/bin/sh\n{text}\n")
    path.chmod(0o755)
    return str(path)
