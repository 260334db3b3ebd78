"""A real sshd on a loopback port, with keys and certificates of people."""

import os
import pwd
import subprocess
from pathlib import Path

from relays.tests.site import RELAY, ROOT, Site, wait_for_port
from tests.common.ports import free_port

SSHD = "/usr/sbin/sshd"
PERSON = str(ROOT / "relays" / "desk-relay-person")
CONFIG = """\
ListenAddress 127.0.0.1:{port}
HostKey {folder}/host
PidFile none
StrictModes no
UsePAM no
PasswordAuthentication no
KbdInteractiveAuthentication no
AuthorizedKeysFile {folder}/authorized_keys
TrustedUserCAKeys {folder}/people-ca.pub
AuthorizedPrincipalsFile {folder}/authorized_principals
RevokedKeys {folder}/revoked
ExposeAuthInfo yes
AcceptEnv LANG LC_* PYTHON* SSH_ORIGINAL_COMMAND
Subsystem sftp internal-sftp
"""
USER = pwd.getpwuid(os.getuid()).pw_name


def keygen(*words: str) -> None:
    subprocess.run(["ssh-keygen", "-q", *words], check=True, stdin=subprocess.DEVNULL)


class Sshd:
    """Keys for some people, a certificate for one more, and the daemon that knows them."""

    def __init__(self, site: Site, keys: list[str], certified: str) -> None:
        self.folder, self.port, self.config = site.folder, free_port(), site.config
        for name in ("host", "people-ca", "stranger", certified, *keys):
            keygen("-t", "ed25519", "-N", "", "-C", name, "-f", str(self.folder / name))
        public = self.folder / f"{certified}.pub"
        keygen("-s", str(self.folder / "people-ca"), "-I", "id", "-n", certified, str(public))
        for name in keys:
            self.person("add", "--config", str(self.config), name, str(self.folder / f"{name}.pub"))
        principal = f"{self.options(certified)} {certified}\n"
        (self.folder / "authorized_principals").write_text(principal)
        config = CONFIG.format(port=self.port, folder=self.folder)
        (self.folder / "sshd_config").write_text(config)
        self.start()

    def person(self, *words: str, status: int = 0) -> str:
        """Runs desk-relay-person over this daemon's file of keys: what it says."""
        keys = ["--keys", str(self.folder / "authorized_keys")]
        ran = subprocess.run([PERSON, *keys, *words], capture_output=True, text=True, check=False)
        assert ran.returncode == status, ran
        return ran.stdout + ran.stderr

    def options(self, person: str) -> str:
        """What stands before the principal of a certificate."""
        command = f"{RELAY} --config {self.config} --person {person} --certificate"
        return f'restrict,pty,command="{command}"'

    def start(self) -> None:
        if os.geteuid() == 0:
            Path("/run/sshd").mkdir(exist_ok=True)
        words = [SSHD, "-D", "-e", "-f", str(self.folder / "sshd_config")]
        with open(self.folder / "sshd.log", "wb") as log:
            self.daemon = subprocess.Popen(words, stderr=log)
        wait_for_port(self.port)

    def stop(self) -> None:
        self.daemon.terminate()
        self.daemon.wait(timeout=60)

    def client(self, key: str, *options: str) -> list[str]:
        """The words of ssh with somebody's key."""
        known = "UserKnownHostsFile=/dev/null"
        return [
            "ssh",
            "-F",
            "/dev/null",
            "-q",
            "-i",
            str(self.folder / key),
            "-p",
            str(self.port),
            "-o",
            "IdentitiesOnly=yes",
            "-o",
            "BatchMode=yes",
            "-o",
            known,
            "-o",
            "StrictHostKeyChecking=no",
            *options,
            f"{USER}@127.0.0.1",
            "--",
        ]

    def ssh(
        self, key: str, *words: str, given: str = "", options: tuple[str, ...] = ()
    ) -> subprocess.CompletedProcess[str]:
        """Calls as a person would, by Debian's ssh."""
        return subprocess.run(
            [*self.client(key, *options), *words],
            input=given,
            capture_output=True,
            text=True,
            timeout=180,
            check=False,
        )
