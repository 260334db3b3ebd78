"""The program `desk-demo`: a grant's life by ssh, from asking to the auditor's line.

A desk, a relay and people's keys live in a folder that goes at the end, also when the demo is
stopped. No port is opened: each call starts a sshd of its own that talks through a pipe, and the
desk listens at a socket in the folder. Nothing of the machine's own desk, keys or sudo is touched.
"""

import argparse
import os
import pwd
import shutil
import signal
import subprocess
import sys
import tempfile
import time
from collections.abc import Iterator
from contextlib import contextmanager
from dataclasses import dataclass
from pathlib import Path

from steelnewt_client.desk import Desk
from steelnewt_client.moments import now, stamp
from steelnewt_client.places import place

ROSTER = """\
relays = ["demo"]
hosts = ["db1"]
duties = ["approve", "audit", "operate"]
conflicts = [["approve", "audit"]]

[people]
ann = ["operate"]
bob = ["approve"]

[ceilings.db-care]
ask = "operate"
approve = "approve"
needs = 1
hosts = ["db1"]
runas = ["root"]
commands = ["/usr/bin/id", "/usr/bin/systemctl restart postgresql"]
longest = 7200
"""
BASE = "dba ALL = (postgres) ALL\n"
SETTINGS = """\
desk = "unix:{folder}/desk.sock"
relay = "demo"
roster = "{folder}/roster.toml"
outbox = "{folder}/outbox.db"

[ssh]
keys = "{folder}/keys"
"""
# (sshd talks to its log alone, and asks neither PAM nor the machine's files who may call)
DAEMON = """\
HostKey {folder}/host
AuthorizedKeysFile {folder}/keys
AuthenticationMethods publickey
StrictModes no
UsePAM no
PidFile none
"""
CALLER = """\
Host desk
    User {user}
    IdentityFile {folder}/{person}
    IdentitiesOnly yes
    BatchMode yes
    UserKnownHostsFile {folder}/known
    GlobalKnownHostsFile /dev/null
    LogLevel ERROR
    ProxyCommand {sshd} -i -E {folder}/sshd.log -f {folder}/sshd_config
"""
PEOPLE = ("ann", "bob")
COMMAND = "/usr/bin/id"
PATIENCE = 60.0  # seconds: the machine may be busy
# what Debian's sshd asks for where it runs as root; its service makes it
SSHD_FOLDER = Path("/run/sshd")


class Lacking(Exception):
    """The demo cannot run; the text says what is missing."""


def found(name: str, package: str) -> str:
    """The whole path of a program of one of Debian's packages."""
    folders = f"{os.environ.get('PATH', os.defpath)}:/usr/sbin"
    if (path := shutil.which(name, path=folders)) is None:
        raise Lacking(f"it needs the program {name}: install the package {package}")
    return os.path.abspath(path)


@dataclass(frozen=True)
class Programs:
    """The programs that the demo starts, by their paths."""

    desk: str
    audit: str
    ssh: str
    sshd: str

    @staticmethod
    def of(desk: str) -> "Programs":
        """The desk's program of this name, and desk-audit beside it."""
        folder, name = os.path.split(desk)
        audit = os.path.join(folder, name.replace("desk", "desk-audit", 1))
        return Programs(
            found(desk, "steelnewt"),
            found(audit, "steelnewt"),
            found("ssh", "openssh-client"),
            found("sshd", "openssh-server"),
        )


class Site:
    """A desk over a file, and a relay that people call by ssh, in one folder."""

    def __init__(self, folder: Path, programs: Programs) -> None:
        self.folder, self.programs = folder, programs
        self.user = pwd.getpwuid(os.getuid())
        self.write("roster.toml", ROSTER)
        self.write("base.sudo", BASE)
        self.write("relay.toml", SETTINGS.format(folder=folder))
        self.write("sshd_config", DAEMON.format(folder=folder))
        self.write("sshd.log", "")
        for name in ("host", *PEOPLE):
            self.make_key(name)
        host_key = (folder / "host.pub").read_text(encoding="ascii")
        self.write("known", f"desk {host_key}")
        for person in PEOPLE:
            self.let_in(person)

    def write(self, name: str, text: str) -> None:
        (self.folder / name).write_text(text, encoding="utf-8")

    def make_key(self, name: str) -> None:
        words = ["-q", "-t", "ed25519", "-N", "", "-C", name, "-f", str(self.folder / name)]
        subprocess.run(["ssh-keygen", *words], check=True, stdin=subprocess.DEVNULL)

    def let_in(self, person: str) -> None:
        """The person's key goes into the relay's file, as an operator puts it there."""
        program = place("relays/desk-relay-person", "sbin/desk-relay-person")
        words = ["add", "--config", str(self.folder / "relay.toml")]
        keys = ["--keys", str(self.folder / "keys"), *words]
        key = str(self.folder / f"{person}.pub")
        subprocess.run([program, *keys, person, key], check=True, stdout=subprocess.DEVNULL)
        settings = {"folder": self.folder, "user": self.user.pw_name, "sshd": self.programs.sshd}
        self.write(f"{person}.ssh", CALLER.format(person=person, **settings))

    @contextmanager
    def served(self) -> Iterator[Desk]:
        """The desk, while it serves."""
        url = f"unix:{self.folder}/desk.sock"
        files = [str(self.folder / name) for name in ("roster.toml", "base.sudo", "desk.db")]
        with open(self.folder / "desk.log", "wb") as log:
            words = [self.programs.desk, "serve", *files, url]
            desk = subprocess.Popen(words, stdout=subprocess.PIPE, stderr=log)
        try:
            assert desk.stdout
            if not desk.stdout.readline():
                raise Lacking((self.folder / "desk.log").read_text(encoding="utf-8").strip())
            yield Desk(url, "demo", None, None)
        finally:
            desk.terminate()
            desk.communicate()

    def call(self, person: str, line: str) -> None:
        """A call by ssh, and what it answers."""
        print(f"{person}$ ssh desk {line}", flush=True)
        ran = subprocess.run(
            [self.programs.ssh, "-F", str(self.folder / f"{person}.ssh"), "desk", line],
            stdin=subprocess.DEVNULL,
            stdout=subprocess.PIPE,
            stderr=subprocess.STDOUT,
            text=True,
            timeout=PATIENCE,
            check=False,
        )
        if ran.returncode != 0 or not ran.stdout.strip():
            shell = self.user.pw_shell
            log = (self.folder / "sshd.log").read_text(encoding="utf-8").strip()
            raise Lacking(
                f"no answer came by ssh, which ended with {ran.returncode}: does this account's"
                f" shell, {shell}, run commands?\n{ran.stdout}{log}"
            )
        print(ran.stdout.rstrip("\n"), end="\n\n", flush=True)

    def show_host(self, desk: Desk) -> None:
        """What host db1 fetches, and what that file decides now."""
        print("db1# cat /etc/sudoers.d/desk")
        text = desk.exchange("GET", "/v1/hosts/db1/sudoers").text
        print(text, end="")
        self.write("db1.sudo", text)
        moment = stamp(now())
        print(f"$ desk decide /etc/sudoers.d/desk ann db1 root {moment} {COMMAND}")
        words = ["decide", str(self.folder / "db1.sudo"), "ann", "db1", "root", moment, COMMAND]
        ran = subprocess.run([self.programs.desk, *words], stdout=subprocess.PIPE, check=False)
        print(ran.stdout.decode("ascii"), flush=True)

    def show_audit(self, desk: Desk) -> None:
        """What an auditor reads of all messages."""
        print("auditor$ desk-audit roster.toml base.sudo - < messages")
        files = [str(self.folder / name) for name in ("roster.toml", "base.sudo")]
        ran = subprocess.run(
            [self.programs.audit, *files, "-"],
            input=desk.exchange("GET", "/v1/messages").text,
            stdout=subprocess.PIPE,
            text=True,
            check=True,
        )
        print(ran.stdout, end="", flush=True)


def story(site: Site) -> None:
    """Ann asks, bob approves, the host's file changes, and ann revokes."""
    with site.served() as desk:
        site.call("ann", f"ask db-care --on db1 --as root --for 1h --yes {COMMAND}")
        site.show_host(desk)
        site.call("bob", "approve ann 1 --yes")
        site.show_host(desk)
        time.sleep(1)  # (a window has one second at least)
        site.call("ann", "revoke ann 1 --yes")
        site.show_host(desk)
        site.show_audit(desk)


@contextmanager
def sshd_folder() -> Iterator[None]:
    """The folder that a sshd of root asks for, which goes again if it was not there."""
    is_made = os.geteuid() == 0 and not SSHD_FOLDER.exists()
    if is_made:
        SSHD_FOLDER.mkdir(mode=0o755)
    try:
        yield
    finally:
        if is_made:
            SSHD_FOLDER.rmdir()


def main(words: list[str] | None = None) -> int:
    parser = argparse.ArgumentParser(
        "desk-demo", description="Show a grant's life by ssh, with names and keys that go again."
    )
    parser.add_argument("--desk", default="desk", help="the desk's program (default: desk)")
    said = parser.parse_args(words)
    for number in (signal.SIGINT, signal.SIGTERM):
        signal.signal(number, lambda number, _: sys.exit(128 + number))
    os.umask(0o077)
    try:
        programs = Programs.of(said.desk)
        with tempfile.TemporaryDirectory(prefix="desk-demo-") as folder, sshd_folder():
            story(Site(Path(folder), programs))
    except (Lacking, OSError, subprocess.SubprocessError) as fault:
        print(f"desk-demo: {fault}", file=sys.stderr)
        return 2
    return 0
