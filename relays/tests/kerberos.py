"""A KDC of MIT's krb5 for tests: two realms on loopback, of which one trusts the other."""

from __future__ import annotations

import os
import shutil
import subprocess
from pathlib import Path

from relays.tests.site import wait_for_port
from tests.common.ports import free_port

OURS, OTHER = "EXAMPLE.COM", "OTHER.EXAMPLE"
PASSWORD = "only for this test"
CLIENT = """\
[libdefaults]
default_realm = {ours}
dns_lookup_kdc = false
dns_lookup_realm = false
dns_canonicalize_hostname = false
rdns = false
udp_preference_limit = 1
[realms]
{ours} = {{
    kdc = 127.0.0.1:{port}
}}
{other} = {{
    kdc = 127.0.0.1:{port}
}}
[domain_realm]
.example = {ours}
[capaths]
{other} = {{
    {ours} = .
}}
"""
SERVER = """\
[kdcdefaults]
kdc_listen = ""
kdc_tcp_listen = 127.0.0.1:{port}
[realms]
{ours} = {{
    database_name = {folder}/ours.db
    key_stash_file = {folder}/ours.stash
    acl_file = {folder}/acl
}}
{other} = {{
    database_name = {folder}/other.db
    key_stash_file = {folder}/other.stash
    acl_file = {folder}/acl
}}
"""


class Kerberos:
    """The two realms, and who has a ticket of which."""

    def __init__(self, folder: Path) -> None:
        self.folder, port = folder, free_port()
        folder.mkdir()
        folder.chmod(0o755)
        names = {"ours": OURS, "other": OTHER, "port": port, "folder": folder}
        (folder / "krb5.conf").write_text(CLIENT.format(**names))
        (folder / "kdc.conf").write_text(SERVER.format(**names))
        self.settings = {
            "KRB5_CONFIG": str(folder / "krb5.conf"),
            "KRB5_KDC_PROFILE": str(folder / "kdc.conf"),
            "KRB5RCACHENAME": f"file2:{folder}/replays/cache",
        }
        (folder / "replays").mkdir(mode=0o700)
        for realm in (OURS, OTHER):
            self.run("kdb5_util", "-r", realm, "create", "-s", "-P", PASSWORD)
            # (the trust: who is of the other realm may get tickets of ours)
            self.make(f"krbtgt/{OURS}@{OTHER}", realm)
        with open(folder / "kdc.log", "wb") as log:
            words = ["krb5kdc", "-n", "-r", OURS, "-r", OTHER]
            self.process = subprocess.Popen(
                words, env=os.environ | self.settings, stdout=log, stderr=log
            )
        wait_for_port(port)

    def run(self, *words: str, given: str = "") -> str:
        environment = os.environ | self.settings | {"PATH": f"{os.environ['PATH']}:/usr/sbin"}
        ran = subprocess.run(
            words, env=environment, input=given, capture_output=True, text=True, check=False
        )
        assert ran.returncode == 0, ran
        return ran.stdout

    def make(self, principal: str, realm: str = OURS) -> None:
        """A principal in a realm's database, with the password that all have."""
        words = ["-pw", f'"{PASSWORD}"', f'"{principal}"']
        self.run("kadmin.local", "-r", realm, "-q", f"addprinc {' '.join(words)}")

    def keytab(self, principal: str, account: str) -> str:
        """A service's key, in a file that its account may read."""
        path = self.folder / "http.keytab"
        self.make(principal)
        self.run("kadmin.local", "-r", OURS, "-q", f"ktadd -k {path} {principal}")
        shutil.chown(path, group=account)
        path.chmod(0o640)
        shutil.chown(self.folder / "replays", user=account)
        return str(path)

    def sign_on(self, principal: str) -> dict[str, str]:
        """A ticket for a principal: the variables by which a client finds it."""
        cache = f"FILE:{self.folder}/{principal.replace('/', '_')}.tickets"
        self.run("kinit", "-c", cache, principal, given=f"{PASSWORD}\n")
        return self.settings | {"KRB5CCNAME": cache}

    def tickets(self, principal: str) -> str:
        """What a principal has a ticket for."""
        return self.run("klist", f"{self.folder}/{principal.replace('/', '_')}.tickets")

    def stop(self) -> None:
        self.process.terminate()
        self.process.wait(timeout=60)
