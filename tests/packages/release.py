#!/usr/bin/env python3
"""Makes a release with a key that is thrown away, and installs from it in a root that has nothing
of ours: by README's commands, and by apt from the signed folder.
`python3 -m tests.packages.release`; it needs root, and build/desk.

The root is this machine's, under an overlay that is thrown away, with a network of its own: what
the packages depend on has to be there already (scripts/tools.sh). apt knows no other folder.
"""

import hashlib
import os
import re
import subprocess
import sys
import tempfile

from tests.common import desk
from tests.packages.package_test import Trial, furnish

RELEASE = os.path.join(desk.BUILD, "release")
NAME = "Trial <trial@desk.invalid>"
LINES = "== peers\nseveral: whole\n12 passed, 0 failed\n"
SOURCE = "deb [signed-by=/srv/release/steelnewt.asc] file:/srv/release ./\n"
# (the machine's own lists of packages say nothing of ours, and no network is there to ask)
APT = ["apt-get", "-o", "Dir::Etc::sourcelist=/etc/apt/ours.list", "-o", "Dir::Etc::sourceparts=-"]
APT += ["-o", "APT::Sandbox::User=root", "-o", "DPkg::Options::=--force-unsafe-io", "--yes"]
PACKAGES = ("steelnewt", "steelnewt-relay", "steelnewt-tools", "steelnewt-host")
UNATTENDED = 'APT::Get::Assume-Yes "true";\nDPkg::Options:: "--force-unsafe-io";\n'


class Maker:
    """What makes releases, with a key of its own."""

    def __init__(self, trial: Trial, folder: str) -> None:
        self.trial, self.folder = trial, folder
        self.env = {**os.environ, "GNUPGHOME": os.path.join(folder, "keys")}
        os.mkdir(self.env["GNUPGHOME"], mode=0o700)
        self.gpg("--passphrase", "", "--quick-generate-key", NAME, "ed25519", "sign", "1d")

    def gpg(self, *words: str) -> subprocess.CompletedProcess[str]:
        whole = ["gpg", "--batch", "--pinentry-mode", "loopback", *words]
        return subprocess.run(whole, env=self.env, capture_output=True, text=True, check=False)

    def log(self, text: str) -> str:
        path = os.path.join(self.folder, "gate.log")
        with open(path, "w", encoding="utf-8") as file:
            file.write(text)
        return path

    def make(self, text: str, key: str) -> subprocess.CompletedProcess[str]:
        """A release after a gate that said this."""
        env = {**self.env, "GATE": self.log(text), "KEY": key}
        words = ["bash", os.path.join(desk.ROOT, "scripts", "release.sh")]
        return subprocess.run(words, env=env, capture_output=True, text=True, check=False)

    def refused(self, what: str, text: str, key: str, says: str) -> None:
        ran = self.make(text, key)
        is_right = ran.returncode == 1 and says in ran.stderr
        self.trial.check(what, is_right, ran.stdout + ran.stderr)


def made(maker: Maker) -> None:
    """A release, and what refuses one."""
    trial = maker.trial
    failed = LINES.replace("0 failed", "1 failed")
    maker.refused("a gate that failed", failed, NAME, "is not 'N passed, 0 failed'")
    maker.refused("a key that is not there", LINES, "nobody", "gpg has no secret key")
    maker.refused("no key", LINES, "", "KEY names no key")
    maker.gpg("--passphrase", "", "--quick-generate-key", "Nobody", "ed25519", "sign", "1d")
    maker.refused("a key without an address", LINES, "Nobody", "names no address, to which holes")
    ran = maker.make(LINES, NAME)
    trial.check("a release", "the same in two folders" in ran.stdout, ran.stdout + ran.stderr)
    gate = desk.read("build", "release", "GATE")
    digest = hashlib.sha256(LINES.encode()).hexdigest()
    is_said = gate.endswith(LINES) and f"the gate: {digest}\n" in gate
    trial.check("what the gate said", is_said, gate)
    commit = subprocess.run(["git", "rev-parse", "HEAD"], cwd=desk.ROOT, capture_output=True)
    trial.check("the commit", f"commit {commit.stdout.decode()}" in gate, gate)
    shown = maker.gpg("--show-keys", os.path.join(RELEASE, "steelnewt.asc")).stdout
    trial.check("whom a hole is reported to", NAME in shown, shown)
    sums = maker.gpg("--decrypt", os.path.join(RELEASE, "SHA256SUMS.asc"))
    words = ["sha256sum", "--check", "--strict", "--quiet"]
    summed = subprocess.run(words, cwd=RELEASE, input=sums.stdout, capture_output=True, text=True)
    names = {line.split()[-1] for line in sums.stdout.splitlines()}
    rest = set(os.listdir(RELEASE)) - names - {"SHA256SUMS.asc", "InRelease", "Release"}
    is_right = sums.returncode == 0 and summed.returncode == 0 and not rest
    trial.check("the sums", is_right, f"{sums.stderr}{summed.stdout}{summed.stderr}{rest}")


def has_nothing(trial: Trial) -> None:
    """The root has no package and no program of ours."""
    ran = trial.run("sh", "-c", "dpkg-query -l '*steelnewt*'; command -v desk desk-audit")
    trial.check("a root with nothing of ours", ran.returncode != 0, ran.stdout)


def as_readme_says(trial: Trial) -> None:
    """README's two commands, as they stand there, in the folder of the release."""
    has_nothing(trial)
    subprocess.run(["cp", "-r", RELEASE, trial.path("/srv/release")], check=True)
    part = desk.read("README.md").split("\n## Two commands\n", 1)[1]
    block = part.split("```sh\n", 1)[1].split("```\n", 1)[0]
    # (nobody is there to say yes)
    trial.write("/etc/apt/apt.conf.d/99yes", UNATTENDED)
    script = f"cd /srv/release\n{block}"
    trial.does("README's commands", "sh", "-ec", script, says="(?m)^ann 1  granted ")
    trial.does("purge", "apt-get", "purge", "steelnewt*", "python3-steelnewt-client")


def installed(trial: Trial) -> None:
    """apt takes the packages from the folder, and refuses a package that was changed."""
    has_nothing(trial)
    trial.write("/etc/apt/ours.list", SOURCE)
    trial.does("apt reads the folder", *APT, "update", says="Reading package lists")
    trial.does("apt installs", *APT, "install", *PACKAGES, says="Setting up steelnewt-relay")
    [package] = re.findall(r"\A\w+ \(([\w.]+)\)", desk.read("packaging/debian/changelog"))
    trial.does("desk --version", "desk", "--version", says=rf"\b{re.escape(package)}\b")
    trial.does("desk-demo", "desk-demo", says="(?m)^ann 1  granted ")
    changed = "/srv/release/python3-steelnewt-client_*.deb"
    trial.run("sh", "-c", f"echo | tee -a {changed}; apt-get clean")
    again = [*APT, "install", "--reinstall", "python3-steelnewt-client"]
    trial.does("a changed package", *again, status=100, says="Hash Sum mismatch|unexpected size")
    forged = "cd /srv/release && sed -i s/Steelnewt/Steelnevt/ InRelease && rm Release"
    trial.run("sh", "-c", forged)
    # (apt goes on with the lists that it has, and warns)
    trial.does("a changed list", *APT, "update", says="is not updated .*BADSIG")


def inside() -> None:
    with tempfile.TemporaryDirectory() as folder:
        trial = Trial(furnish(folder, ""))
        try:
            made(Maker(trial, folder))
            as_readme_says(trial)
            installed(trial)
        finally:
            subprocess.run(["umount", "--lazy", folder], check=True)
    print(f"a release, and apt from its folder: {trial.checks} checks, {trial.wrong} wrong")
    sys.exit(1 if trial.wrong else 0)


def main() -> None:
    if os.geteuid() != 0:
        sys.exit("it needs root: it installs packages in a root of its own")
    words = ["unshare", "--mount", "--net", "--pid", "--ipc", "--fork", "--kill-child"]
    words += ["--mount-proc", "--propagation", "private", *desk.again()]
    sys.exit(subprocess.run([*words, "--inside"], check=False).returncode)


if __name__ == "__main__":
    if sys.argv[1:2] == ["--inside"]:
        inside()
    main()
