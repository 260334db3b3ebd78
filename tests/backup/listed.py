#!/usr/bin/env python3
"""The list of what a machine keeps (steelnewt_backup/state.toml) lacks nothing: each folder that a
unit writes, that a package makes, and each file below /etc/desk that a document, a package or a
program names is taken, or is named as left out. Needs nothing but the repository."""

from __future__ import annotations

import glob
import os
import re
import sys
from collections.abc import Iterator

from steelnewt_backup.listed import is_named, items_of, the_list
from tests.common import desk

# What a unit keeps, and where: a folder of each name below the second.
UNIT = {"StateDirectory": "/var/lib", "ConfigurationDirectory": "/etc", "LogsDirectory": "/var/log"}
# Texts that name files of a machine.
TEXTS = (
    "docs/*.md", "packaging/*", "packaging/*/*", "examples/*", "examples/*/*", "relays/*",
    "door/*", "broker/*", "steelnewt_*/*.py", "scripts/install.sh",
)  # fmt: skip
NAMED = re.compile(r"(?<![\w.@-])(/(?:etc/desk|var/lib/desk[\w-]*)(?:/[\w.@*{}-]+)*)")
FOLDERS = {"/etc/desk", "/var/lib/desk"}


def written() -> Iterator[tuple[str, str]]:
    """Each folder that a unit makes or may write to, and the unit."""
    for path in sorted(glob.glob(os.path.join(desk.ROOT, "packaging", "units", "*"))):
        name = os.path.relpath(path, desk.ROOT)
        for line in desk.read(path).splitlines():
            key, equals, value = line.partition("=")
            if equals and key in UNIT:
                yield from ((f"{UNIT[key]}/{it}", name) for it in value.split())
            elif equals and key == "ReadWritePaths":
                yield from ((it.lstrip("-+"), name) for it in value.split())


def named() -> Iterator[tuple[str, str]]:
    """Each file of a machine that a text of the repository names, and the text."""
    for form in TEXTS:
        for path in sorted(glob.glob(os.path.join(desk.ROOT, form))):
            if os.path.isfile(path) and not path.endswith((".pyc", ".svg")):
                for found in NAMED.findall(desk.read(path)):
                    yield found.rstrip("."), os.path.relpath(path, desk.ROOT)


def faults() -> Iterator[str]:
    for path, where in dict.fromkeys([*written(), *named()]):
        if path not in ("/etc/sudoers.d",) and not is_named(path):
            yield f"{where} names {path}: it is neither taken nor named as left out"
    parts = the_list()[0]
    stores = {os.path.join(part.paths[-1], it) for part in parts for it in part.stores}
    if stores != {"/var/lib/desk/desk.db", "/var/lib/desk-relay/outbox.db"}:
        yield f"other stores than those that are written while they are read: {stores}"


def secrets() -> Iterator[str]:
    """What only its owner may read is secret, wherever a program of ours makes it."""
    folder = os.path.join(desk.BUILD, "listed")
    for name in (
        "front/ca.key", "front/server.key", "page.secret", "page.key", "page.front", "page.apache",
        "http.keytab", "openidc.secret", "webhook", "consume-a.password", "host.key", "relay.key",
        "front/relay-chat.key", "front/index.txt", "whatever", "backups/old.key",
    ):  # fmt: skip
        path = os.path.join(folder, "etc", "desk", name)
        os.makedirs(os.path.dirname(path), exist_ok=True)
        desk.write(os.path.dirname(path), os.path.basename(path), "secret")
    for part in the_list()[0]:
        for item in items_of(part, folder):
            if not item.is_secret and os.path.isfile(folder + item.path):
                yield f"{item.path} is not taken for a secret"


def main() -> int:
    found = [*faults(), *secrets()]
    print("\n".join(found) if found else "the list of what a machine keeps lacks nothing")
    return 1 if found else 0


if __name__ == "__main__":
    sys.exit(main())
