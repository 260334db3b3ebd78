"""A relay's settings: one file of TOML (relays/relay.example.toml)."""

import os
import re
import tomllib
from dataclasses import dataclass
from datetime import tzinfo

from steelnewt_client.desk import ANSWERS_IN, AnyDesk, BadAddress, Desk, Place
from steelnewt_client.names import is_label
from steelnewt_client.signed import ORIGIN, SITE
from steelnewt_relay.caller import Files
from steelnewt_relay.desks import Desks
from steelnewt_relay.moments import zone_of
from steelnewt_relay.outbox import Outbox
from steelnewt_relay.reasons import Demand, demand_of
from steelnewt_relay.roster import Roster
from steelnewt_relay.shares import Share, share_of

KEYS = {"desk", "desks", "patience", "relay", "roster", "outbox", "zone", "numbers", "auditors"}
KEYS |= {"tls", "page", "why", "notify", "ssh", "signing"}
KEYS |= {"share", "days"}
MOST_DAYS = 36_500
SIGNING_KEYS = {"site", "required", "confirm"}
NOTIFY_KEYS = {"program", "seconds", "link", "first", "minutes", "urgent"}
MOST_MINUTES = 1440  # for which the people who are told first are the only ones
MOST_PATIENCE = 20  # seconds for which people wait for a desk
MOST_SECONDS = 600  # that a program may take to tell: the unit's stop waits longer
PAGE_KEYS = {"listen", "secret", "signing_key"}
TLS_KEYS = {"certificate", "key", "ca", "reader_certificate", "reader_key"}
SSH_KEYS = {"keys", "principals", "revoked"}


TWO_KEYS = (
    "the front has the first and not the second. Make one by"
    " (umask 077; openssl rand -hex 32 > /etc/desk/page.key), give it to desk-relay by chown, and"
    ' write signing_key = "/etc/desk/page.key" below [page]'
)


class BadConfig(ValueError):
    """The settings cannot be used."""


@dataclass(frozen=True)
class Notify:
    """What is run for each event, for how long at most, where the page is, which duty is told
    first, how many minutes before the others, and the ceilings and people that are urgent."""

    program: list[str]
    seconds: float
    link: str
    first: str
    minutes: int
    urgent: tuple[str, ...] = ()


def notify_of(table: dict[str, object]) -> Notify:
    """The settings below [notify]."""
    if unknown := table.keys() - NOTIFY_KEYS:
        raise ValueError(f"[notify] has no setting {', '.join(sorted(unknown))}")
    program, seconds = table.get("program"), table.get("seconds", 30)
    link = table.get("link", "")
    words = [it for it in program if isinstance(it, str)] if isinstance(program, list) else []
    if not words or words != program or not words[0].startswith("/"):
        raise ValueError("[notify] program is a list: a program's whole path, and its arguments")
    if not isinstance(seconds, int | float) or not 1 <= seconds <= MOST_SECONDS:
        raise ValueError(f"[notify] seconds is a number from 1 to {MOST_SECONDS}")
    if not isinstance(link, str) or not link.isprintable():
        raise ValueError("[notify] link is no text of one line")
    first, minutes = table.get("first", ""), table.get("minutes", 10)
    if not isinstance(first, str) or (first and not is_label(first)):
        raise ValueError("[notify] first is a duty, such as on-call")
    if not isinstance(minutes, int) or not 1 <= minutes <= MOST_MINUTES:
        raise ValueError(f"[notify] minutes is a number from 1 to {MOST_MINUTES}")
    urgent = table.get("urgent", [])
    names = [it for it in urgent if isinstance(it, str)] if isinstance(urgent, list) else []
    if names != urgent:
        raise ValueError('[notify] urgent is a list of ceilings and people, as ["break-glass"]')
    return Notify(words, seconds, link, first, minutes, tuple(names))


@dataclass(frozen=True)
class Signing:
    """How people sign (docs/SIGNING.md): the site's name, whether what is not signed is taken here,
    and the origin of the door's page, where the relay's page leads; empty where there is none."""

    site: str
    required: bool
    confirm: str = ""


def signing_of(table: object) -> Signing:
    """The settings below [signing]."""
    if not isinstance(table, dict) or table.keys() - SIGNING_KEYS:
        raise ValueError("[signing] has site, required and confirm, and nothing else")
    site, required = table.get("site"), table.get("required", True)
    confirm = table.get("confirm", "")
    if not isinstance(site, str) or not SITE.fullmatch(site):
        raise ValueError("[signing] site is the name that door.toml has, as desk.example")
    if not isinstance(required, bool):
        raise ValueError("[signing] required is true or false")
    if not isinstance(confirm, str) or (confirm and not re.fullmatch(ORIGIN, confirm)):
        raise ValueError("[signing] confirm is the origin of the door's page, https://HOST:8444")
    return Signing(site, required, confirm)


@dataclass(frozen=True)
class Config:
    desks: tuple[str, ...]
    relay: str
    roster: str
    outbox: str
    zone: tzinfo
    numbers: tuple[int, int]
    auditors: str
    tls: dict[str, str]
    page: dict[str, str]
    ssh: Files
    demand: Demand
    notify: Notify | None
    signing: Signing | None = None
    share: Share = Share()
    days: int = 400
    patience: float = 2.0

    def open_outbox(self) -> Outbox:
        return Outbox(self.outbox, self.numbers, self.signing is not None, self.share)

    @property
    def is_signed(self) -> bool:
        """Whether nothing unsigned is sent from here."""
        return self.signing is not None and self.signing.required

    @property
    def confirm(self) -> str:
        """Where people sign with passkeys what they send from the page; empty if they do not."""
        return self.signing.confirm if self.signing and self.signing.required else ""

    def open_desk(self, asks_for: float = ANSWERS_IN) -> AnyDesk:
        """The desk, or several that are asked as one. A question takes so many seconds at most."""
        own, reader = self.pair("certificate", "key"), self.pair("reader_certificate", "reader_key")
        ca = self.tls.get("ca")
        found = [Desk(it, self.relay, own, ca, reader, ANSWERS_IN, asks_for) for it in self.desks]
        return found[0] if len(found) == 1 else Desks(found)

    def pair(self, certificate: str, key: str) -> tuple[str, str] | None:
        """A certificate and its key; neither has a meaning without the other."""
        named = [name for name in (certificate, key) if name in self.tls]
        if not named:
            return None
        if len(named) == 1:
            raise BadConfig(f"[tls] has {named[0]}, and so needs {certificate} and {key}")
        return self.tls[certificate], self.tls[key]

    def read_roster(self) -> Roster:
        return Roster.read(self.roster)

    def page_place(self) -> str | tuple[str, int]:
        """Where the page listens: the path of a socket, or an address and a port."""
        listen = self.page.get("listen", "")
        if listen.startswith("unix:/"):
            return listen.removeprefix("unix:")
        host, _, port = listen.rpartition(":")
        if not host or not re.fullmatch("[0-9]{1,5}", port):
            raise BadConfig(
                f"[page] listen = {listen!r} is no place: write unix:/run/desk-relay/page.sock"
            )
        return host, int(port)

    def page_keys(self) -> tuple[str, str]:
        """What only the front knows beside the page, and what the page alone signs its forms with:
        whoever gets the one has not got the other."""
        if "secret" not in self.page or "signing_key" not in self.page:
            raise BadConfig(f"[page] needs secret and signing_key, two files: {TWO_KEYS}")
        secret, signing = (key_of(self.page[name]) for name in ("secret", "signing_key"))
        if secret == signing:
            raise BadConfig(f"[page] secret and signing_key hold the same key: {TWO_KEYS}")
        return secret, signing


def days_of(given: object) -> int:
    """For how many days what is over stays in the outbox: as long at least as a window may be."""
    if not isinstance(given, int) or isinstance(given, bool) or not 31 <= given <= MOST_DAYS:
        raise ValueError(f"days is a number from 31 to {MOST_DAYS}")
    return given


def key_of(path: str) -> str:
    """A key from its file, which its owner and their group alone may read or write."""
    try:
        with open(path, encoding="ascii") as file:
            key, mode = file.read().strip(), os.fstat(file.fileno()).st_mode
    except (OSError, ValueError) as fault:
        raise BadConfig(f"{path} cannot be read: {fault}") from None
    if len(key) < 32:
        raise BadConfig(f"{path} has fewer than 32 characters")
    if mode & 0o007:
        raise BadConfig(f"{path} may be read or written by every account: chmod 600 {path}")
    return key


def check_address(text: str, ca: str | None) -> None:
    """Refuses a way to the desk on which others could answer in its place, and acknowledge what it
    never got."""
    try:
        place = Place.of(text)
    except BadAddress as fault:
        raise BadConfig(f"desk = {fault}") from None
    if place.is_here:
        return
    if not place.is_encrypted:
        raise BadConfig(f"desk = {text!r}: without TLS only at 127.0.0.1; write https://")
    if ca is None:
        raise BadConfig(f"desk = {text!r}: name the authority of its front, [tls] ca")


def desks_of(found: dict[str, object], ca: str | None) -> tuple[str, ...]:
    """The addresses of the desk, or of several."""
    if ("desk" in found) == ("desks" in found):
        raise BadConfig('name the desk, desk = "..", or several, desks = ["..", ..]: one of both')
    listed = [found["desk"]] if "desk" in found else found["desks"]
    if not isinstance(listed, list) or not listed:
        raise BadConfig('desks is a list of addresses, ["https://desk-a.example", ..]')
    texts = [str(it) for it in listed]
    for text in texts:
        check_address(text, ca)
    names = [Desk(it).label for it in texts]
    if twice := [it for it in names if names.count(it) > 1]:
        raise BadConfig(f"desks names {twice[0]} twice")
    return tuple(texts)


def patience_of(found: dict[str, object]) -> float:
    """For how many seconds the desk is asked, before people are shown what is kept here."""
    patience = found.get("patience", Config.patience)
    if not isinstance(patience, int | float) or not 0.1 <= patience <= MOST_PATIENCE:
        raise BadConfig(f"patience is a number of seconds, up to {MOST_PATIENCE}")
    return patience


def read_config(path: str) -> Config:
    try:
        with open(path, "rb") as file:
            found = tomllib.load(file)
        tls, page, ssh = (found.get(it, {}) for it in ("tls", "page", "ssh"))
        unknown = (found.keys() - KEYS) | (page.keys() - PAGE_KEYS) | (tls.keys() - TLS_KEYS)
        unknown |= ssh.keys() - SSH_KEYS
        if unknown:
            raise BadConfig(f"{path}: no setting is named {', '.join(sorted(unknown))}")
        if not all(isinstance(it, str) for it in (*page.values(), *tls.values(), *ssh.values())):
            raise BadConfig(f"{path}: a setting of [page], [ssh] or [tls] is no text in quotes")
        first, last = found.get("numbers", [1, 999_999_999])
        return Config(
            desks=desks_of(found, tls.get("ca")),
            patience=patience_of(found),
            relay=found["relay"],
            roster=found["roster"],
            outbox=found["outbox"],
            zone=zone_of(found.get("zone", "UTC")),
            numbers=(first, last),
            auditors=found.get("auditors", ""),
            tls=tls,
            page=page,
            ssh=Files(**ssh),
            demand=demand_of(found.get("why", {})),
            notify=notify_of(found["notify"]) if "notify" in found else None,
            signing=signing_of(found["signing"]) if "signing" in found else None,
            share=share_of(found.get("share", {})),
            days=days_of(found.get("days", 400)),
        )
    except KeyError as fault:
        raise BadConfig(f"{path}: the setting {fault} is missing") from None
    except (OSError, ValueError, TypeError, AttributeError) as fault:
        raise BadConfig(f"{path}: {fault}") from None
