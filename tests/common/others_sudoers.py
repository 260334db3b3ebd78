"""Fetches sudoers files that others wrote, by apt-get's ordinary ways: those of sudo's own
regression tests and of its examples, from its Debian source package, into build/sudoers-peers; and
those of packages that ship one, into build/sudoers-packages. Nothing of them is kept in the
repository."""

import io
import os
import shutil
import subprocess
import tarfile
import tempfile
from collections.abc import Callable
from fnmatch import fnmatch

from tests.common import desk

PEERS = os.path.join(desk.BUILD, "sudoers-peers")
OF_PACKAGES = os.path.join(desk.BUILD, "sudoers-packages")
# all of Debian 12's that have a file for sudo below /etc, by its lists of contents: 27 files
PACKAGES = """\
sudo apt-dater-host biglybtd ceilometer-instance-poller ceph-base cinder-common ctdb debci
designate-common freedombox fvwm-crystal glance-store-common hobbit-plugins ironic-common
ironic-inspector libkf5su-data manila-common masakari-monitors-common neutron-common nova-common
open-infrastructure-compute-tools openstack-cluster-installer pconsole x2gobroker-ssh x2goserver
zvmcloudconnector-common
""".split()
WANTED = ("*/regress/sudoers/test*.in", "*/regress/cvtsudoers/sudoers*", "*/examples/sudoers.in")
SOURCES = """\
Types: deb-src
URIs: http://deb.debian.org/debian
Suites: bookworm
Components: main
Signed-By: /usr/share/keyrings/debian-archive-keyring.gpg
"""
PATIENCE = 240
# (a mirror that fails once is no reason to do without)
RETRIED = ("-o", "Acquire::Retries=3")


class NoNetwork(Exception):
    """The packages cannot be fetched here."""


def apt(folder: str, *words: str) -> None:
    try:
        ran = subprocess.run(
            ["apt-get", "-qq", *RETRIED, *words],
            cwd=folder,
            capture_output=True,
            text=True,
            check=False,
            timeout=PATIENCE,
        )
    except (FileNotFoundError, subprocess.TimeoutExpired) as fault:
        raise NoNetwork(str(fault)) from None
    if ran.returncode:
        raise NoNetwork(ran.stderr.strip()[-300:])


def fetch_source(folder: str) -> list[tuple[str, bytes]]:
    """The files of sudo's source package."""
    for name in ("lists/partial", "cache/archives/partial"):
        os.makedirs(os.path.join(folder, name))
    with open(os.path.join(folder, "src.sources"), "w", encoding="utf-8") as file:
        file.write(SOURCES)
    options = {"Dir::Etc::SourceList": f"{folder}/src.sources"}
    options |= {"Dir::Etc::SourceParts": "/nonexistent"}
    options |= {"Dir::State::Lists": f"{folder}/lists", "Dir::Cache": f"{folder}/cache"}
    said = [word for key, value in options.items() for word in ("-o", f"{key}={value}")]
    apt(folder, *said, "update")
    apt(folder, *said, "source", "--download-only", "sudo")
    found = []
    for name in os.listdir(folder):
        if fnmatch(name, "sudo_*.orig.tar.gz"):
            with tarfile.open(os.path.join(folder, name)) as archive:
                for member in archive.getmembers():
                    if member.isfile() and any(fnmatch(member.name, form) for form in WANTED):
                        held = archive.extractfile(member)
                        assert held is not None
                        found.append(("-".join(member.name.split("/")[-2:]), held.read()))
    return found


def fetch_packages(folder: str) -> list[tuple[str, bytes]]:
    """The files below /etc that packages ship for sudo."""
    found = []
    apt(folder, "download", *PACKAGES)
    for name in sorted(os.listdir(folder)):
        if not name.endswith(".deb"):
            continue
        words = ["dpkg-deb", "--fsys-tarfile", name]
        ran = subprocess.run(words, cwd=folder, capture_output=True, check=True)
        with tarfile.open(fileobj=io.BytesIO(ran.stdout)) as archive:
            for member in archive.getmembers():
                base = os.path.basename(member.name)
                is_meant = fnmatch(member.name, "./etc/sudoers*") and base != "README"
                if member.isfile() and is_meant:
                    held = archive.extractfile(member)
                    assert held is not None
                    found.append((f"{name.partition('_')[0]}-{base}", held.read()))
    return found


def kept(folder: str, fetch: Callable[[str], list[tuple[str, bytes]]]) -> list[str]:
    """The paths of the files in a folder, which are fetched the first time."""
    if not os.path.isdir(folder):
        # (where DESK names a program of another folder, there may be no build yet)
        os.makedirs(desk.BUILD, exist_ok=True)
        with tempfile.TemporaryDirectory() as room:
            files = fetch(room)
            new = tempfile.mkdtemp(prefix=f"{os.path.basename(folder)}.", dir=desk.BUILD)
        for name, data in files:
            with open(os.path.join(new, name), "wb") as file:
                file.write(data)
        try:
            os.rename(new, folder)
        except OSError:  # (another part of the gate was the first)
            shutil.rmtree(new)
    return [os.path.join(folder, name) for name in sorted(os.listdir(folder))]


def of_packages() -> list[str]:
    """The files of packages."""
    return kept(OF_PACKAGES, fetch_packages)


def fetched() -> list[str]:
    """All files."""
    return [*kept(PEERS, fetch_source), *of_packages()]
