"""The program `desk-relay-person`: the relay's authorized_keys, a line for each person's key."""

import argparse
import contextlib
import fcntl
import os
import re
import secrets
import stat
import sys
from collections.abc import Iterator

from steelnewt_client.names import PERSON
from steelnewt_client.places import place
from steelnewt_relay.calls import end_calls
from steelnewt_relay.config import BadConfig, read_config
from steelnewt_relay.keys import (
    KEY,
    KEYS,
    LINE,
    BadKey,
    Holder,
    digest_of,
    fingerprints,
    holders_in,
    lines_of,
)
from steelnewt_relay.roster import BadRoster

CONFIG = "/etc/desk/relay.toml"
RELAY = place("relays/desk-relay", "bin/desk-relay")
# The longest file that is read: a public key of 16,384 bits has some 3,000 bytes.
MOST = 8192


class Refused(Exception):
    """Nothing was changed; the text says why."""


def key_in(path: str) -> str:
    """The one public key in a file, which has nothing beside it: its kind and itself."""
    try:
        with open(path, "rb") as file:
            given = file.read(MOST + 1)
    except OSError as fault:
        raise Refused(f"{path} cannot be read: {fault.strerror}") from None
    if b"PRIVATE KEY" in given:
        raise Refused(f"{path} has a private key: it belongs to nobody else, so ask for a new one")
    lines = [it.removesuffix(b"\r") for it in given.split(b"\n")]
    lines = [it for it in lines if it]
    if len(lines) != 1 or len(given) > MOST:
        raise Refused(f"{path} has {len(lines)} lines: it may have one, which is one public key")
    found = KEY.fullmatch(lines[0].decode("utf-8", "replace"))
    if not found:
        raise Refused(
            f"{path} is no public key alone: its line begins with the key's kind, as ssh-ed25519,"
            " and has no options"
        )
    return f"{found[1]} {found[2]}"


class Keys:
    """The file of keys in its folder, which is held open. Only root, and what runs as desk-relay
    outside the relay's units, could put another folder in its place before."""

    def __init__(self, path: str) -> None:
        self.path = path
        folder, self.name = os.path.split(os.path.abspath(path))
        try:
            self.folder = os.open(folder, os.O_RDONLY | os.O_DIRECTORY | os.O_NOFOLLOW)
        except OSError as fault:
            raise Refused(f"the folder {folder} cannot be used: {fault.strerror}") from None
        found = os.fstat(self.folder)
        if found.st_uid != os.geteuid() or found.st_mode & (stat.S_IWGRP | stat.S_IWOTH):
            raise Refused(f"the folder {folder} is not yours alone to write: see docs/RELAYS.md")
        fcntl.flock(self.folder, fcntl.LOCK_EX)

    def lines(self) -> list[str]:
        try:
            file = os.open(self.name, os.O_RDONLY | os.O_NOFOLLOW, dir_fd=self.folder)
        except FileNotFoundError:
            return []
        except OSError as fault:
            raise Refused(f"{self.path} cannot be read: {fault.strerror}") from None
        with open(file, encoding="utf-8", newline="\n") as text:
            try:
                return lines_of(text.read())
            except ValueError:
                raise Refused(f"{self.path} is no text") from None

    def holders(self) -> Iterator[tuple[int, str, Holder | None]]:
        """Each line that lets somebody in: its number, itself, and whose it is."""
        yield from holders_in("\n".join(self.lines()))

    def known(self) -> dict[Holder, str]:
        """The keys of persons, each with its fingerprint; refused where a line is something else,
        or names another key's digest."""
        listed = list(self.holders())
        found = [holder for _, _, holder in listed if holder]
        prints = dict(zip(found, fingerprints(it.bare for it in found), strict=True))
        for number, _, holder in listed:
            if holder is None:
                raise Refused(
                    f"{self.path}: line {number} is no person's key, and may let its holder in as"
                    " everybody: look at it, and take it away"
                )
            if holder.said and holder.said != digest_of(prints[holder]):
                raise Refused(f"{self.path}: line {number} names the digest of another key")
        return prints

    def write(self, lines: list[str]) -> None:
        """Puts these lines into the place of all others, in one step."""
        new = f".{self.name}.{secrets.token_hex(8)}"
        flags = os.O_WRONLY | os.O_CREAT | os.O_EXCL | os.O_NOFOLLOW
        file = os.open(new, flags, 0o600, dir_fd=self.folder)
        try:
            with open(file, "w", encoding="utf-8") as text:
                text.write("".join(f"{line}\n" for line in lines))
                # (sshd reads it as the relay's account)
                os.fchmod(file, 0o644)
                text.flush()
                os.fsync(file)
            os.rename(new, self.name, src_dir_fd=self.folder, dst_dir_fd=self.folder)
            os.fsync(self.folder)
        except OSError as fault:
            with contextlib.suppress(OSError):
                os.unlink(new, dir_fd=self.folder)
            raise Refused(f"{self.path} cannot be written: {fault.strerror}") from None


def line_of(name: str, key: str, digest: str, config: str | None) -> str:
    """The line that lets a person in with a key."""
    settings = f" --config {config}" if config else ""
    command = f"{RELAY}{settings} --person {name} --key {digest}"
    line = f'restrict,pty,command="{command}" {key} {name}'
    if not LINE.fullmatch(line):
        raise Refused(f"no such line can stand in the file: {line}")
    return line


def add(keys: Keys, name: str, path: str, config: str | None) -> str:
    key = key_in(path)
    [print_of] = fingerprints([key])
    # (sshd compares keys as they are read, and one may be written in several ways)
    for holder, known in keys.known().items():
        if digest_of(known) == digest_of(print_of) and holder.name != name:
            raise Refused(f"that key is {holder.name}'s: {print_of}")
        if digest_of(known) == digest_of(print_of):
            return f"{name} has that key: {print_of}"
    keys.write([*keys.lines(), line_of(name, key, digest_of(print_of), config)])
    return f"{name} may call with {print_of}"


def unlisted(name: str, config: str) -> str:
    """What to say of somebody whom the roster does not have: a slip in the name shows days later."""
    try:
        settings = read_config(config)
        people = settings.read_roster().people
    except (BadConfig, BadRoster, OSError):
        return ""
    if name in people:
        return ""
    return f"{settings.roster} has nobody whose name is {name}: until it has, calls get no answer"


def remove(keys: Keys, name: str) -> str:
    """Takes away a person's keys, and ends the calls that began with one of them."""
    gone = {holder: it for holder, it in keys.known().items() if holder.name == name}
    if not gone:
        raise Refused(f"{name} has no key here")
    lines = {holder.line for holder in gone}
    keys.write([line for line in keys.lines() if line not in lines])
    ended = end_calls(name, [digest_of(it) for it in gone.values()])
    were = f" {ended} of {name}'s calls were open, and ended." if ended else ""
    prints = ", ".join(gone.values())
    return f"{name} may call no longer with {prints}.{were} What was granted stays: revoke that"


def renew(keys: Keys) -> str:
    """Writes each line of an older version, which names no digest, as this one does."""
    new = {
        holder.line: renewed(holder, digest_of(it))
        for holder, it in keys.known().items()
        if not holder.said
    }
    if new:
        keys.write([new.get(line, line) for line in keys.lines()])
    return f"{len(new)} lines were written anew"


def renewed(holder: Holder, digest: str) -> str:
    """The line of a holder with the key's digest behind the name."""
    command = f" --person {holder.name}"
    return holder.line.replace(f'{command}"', f'{command} --key {digest}"', 1)


def show(keys: Keys) -> int:
    """Prints who has which key; 1 where a line is no person's."""
    status, listed = 0, list(keys.holders())
    prints = iter(fingerprints(holder.bare for _, _, holder in listed if holder))
    for number, _, holder in listed:
        if holder:
            print(f"{holder.name} {next(prints)}")
        else:
            print(f"line {number} is no person's key: look at it", file=sys.stderr)
            status = 1
    return status


def parser() -> argparse.ArgumentParser:
    found = argparse.ArgumentParser(
        "desk-relay-person", description="Who may call the relay by ssh, and with which key."
    )
    found.add_argument("--keys", default=KEYS, help=f"the file of keys (default {KEYS})")
    jobs = found.add_subparsers(dest="job", metavar="JOB", required=True)
    adding = jobs.add_parser("add", help="let a person call with the public key of a file")
    adding.add_argument("--config", help="the relay's settings, where they are elsewhere")
    adding.add_argument("name", metavar="NAME")
    adding.add_argument("file", metavar="FILE")
    removing = jobs.add_parser("remove", help="take away each key of a person")
    removing.add_argument("name", metavar="NAME")
    jobs.add_parser("list", help="print who has which key")
    jobs.add_parser("renew", help="write the lines of an older version as this one does")
    return found


def main(words: list[str] | None = None) -> int:
    said = parser().parse_args(words)
    try:
        if said.job in ("add", "remove") and not re.fullmatch(PERSON, said.name):
            raise Refused(f"{ascii(said.name)} is no person's name, such as ann")
        keys = Keys(said.keys)
        if said.job == "list":
            return show(keys)
        if said.job == "add":
            print(add(keys, said.name, said.file, said.config))
            if told := unlisted(said.name, said.config or CONFIG):
                print(f"desk-relay-person: {told}", file=sys.stderr)
        elif said.job == "remove":
            print(remove(keys, said.name))
        else:
            print(renew(keys))
        return 0
    except (Refused, BadKey) as fault:
        print(f"desk-relay-person: {fault}", file=sys.stderr)
        return 2
