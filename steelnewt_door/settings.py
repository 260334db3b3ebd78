"""The door's settings: one file of TOML (door/door.example.toml)."""

import os
import re
import tomllib
from dataclasses import dataclass

from steelnewt_client.desk import BadAddress, Desk, Place
from steelnewt_client.moments import FORM as MOMENT
from steelnewt_client.names import LABEL, LABELS
from steelnewt_client.signed import ORIGIN, SITE
from steelnewt_door.changes import Two
from steelnewt_door.journal import Journal, Room
from steelnewt_door.judge import Judge
from steelnewt_door.others import FOLDER, Others
from steelnewt_door.serving import post_to
from steelnewt_door.signers import SIGNERS, Signers
from steelnewt_door.taking import Door, Rules

CONFIG = "/etc/desk/door.toml"
TEXTS = {
    "site": "",
    "signing": "yes",
    "desk": "unix:/run/desk-posts/desk.sock",
    "questions": "",
    "listen": "unix:/run/desk-door/desk.sock",
    "root": "unix:/run/desk-door/root/desk.sock",
    "signers": SIGNERS,
    "journal": "/var/lib/desk-door",
    "answers": "unix:/run/desk-answers/desk.sock",
    "file_key": "/var/lib/desk-answers/key",
    "signed_since": "",
    "certificate": "",
    "key": "",
    "ca": "",
    "origin": "",
    "verified": "yes",
    "page": "unix:/run/desk-confirm/page.sock",
    "made": "/var/lib/desk-confirm",
}
LISTS = ("by_ssh", "relay_pages")
NUMBERS = {"late": 86_400, "changes_by": 1, "journal_bytes": 4 << 30, "file_bytes": 16 << 20}
LEAST = {"late": 60, "changes_by": 1, "journal_bytes": 1 << 20, "file_bytes": 1 << 16}


class BadSettings(ValueError):
    """The settings cannot be used."""


@dataclass(frozen=True)
class Page:
    """The page at which people sign with passkeys: its origin, empty where there is none; whether a
    new passkey has to know its owner; the pages of relays that lead to it; its socket; and where
    the passkeys are that people made there."""

    origin: str
    is_verified: bool
    relays: tuple[str, ...]
    listen: str
    made: str


@dataclass(frozen=True)
class Settings:
    site: str
    desk: str
    questions: str
    listen: str
    root: str
    signers: str
    journal: str
    rules: Rules
    room: Room
    answers: str
    file_key: str
    doors: dict[str, Desk]
    page: Page

    def judge(self) -> Judge:
        return Judge(self.site)

    def two(self) -> Two:
        return Two(self.judge(), Signers(self.signers), self.rules.changes_by)

    def asked(self) -> Desk:
        """The desk, to be asked by the door itself: where messages go, so that whoever asks much at
        the socket for questions keeps none waiting."""
        return Desk(f"unix:{self.desk}", "")

    def asked_by_others(self) -> Desk:
        """The desk at its socket for questions."""
        return Desk(f"unix:{self.questions}", "")

    def kept(self) -> Journal:
        return Journal(self.journal, self.site, self.room)

    def others(self) -> Others:
        return Others(os.path.join(self.journal, FOLDER), tuple(self.doors))

    def door(self, journal: Journal | None = None) -> Door:
        parts = Signers(self.signers), journal or self.kept(), self.asked()
        return Door(self.rules, self.judge(), *parts, post_to(self.desk), others=self.others())


def socket_of(name: str, text: str) -> str:
    """The path of a socket, from `unix:/PATH`."""
    try:
        found = Place.of(text).path
    except BadAddress:
        found = ""
    if not found or os.path.normpath(found) != found:
        raise BadSettings(f"{name} = {text!r} is no socket: write unix:/PATH")
    return found


def doors_of(found: dict[str, object], texts: dict[str, str]) -> dict[str, Desk]:
    """The other doors, each by where it answers auditors."""
    told = found.get("doors", {})
    named = told.items() if isinstance(told, dict) else [("", told)]
    pair = (texts["certificate"], texts["key"]) if texts["certificate"] else None
    try:
        if not all(LABELS.fullmatch(name) for name, _ in named):
            raise ValueError("doors are named as relays are")
        return {
            name: Desk(str(where), "", pair, texts["ca"] or None, patience=120.0)
            for name, where in named
        }
    except (BadAddress, ValueError) as fault:
        raise BadSettings(f"doors: {fault}") from None


def programs_of(found: dict[str, object]) -> frozenset[str]:
    """The relays that sign for nobody."""
    told = found.get("programs", [])
    if not isinstance(told, list) or not all(LABELS.fullmatch(str(it)) for it in told):
        raise BadSettings('programs is a list of relays, as ["tickets"]')
    return frozenset(map(str, told))


def listed(name: str, value: object) -> tuple[str, ...]:
    """A list of ceilings, or of the pages of relays."""
    found = value if isinstance(value, list) else [None]
    form = LABEL if name == "by_ssh" else ORIGIN
    if not all(isinstance(it, str) and re.fullmatch(form, it) for it in found):
        wanted = "ceilings" if name == "by_ssh" else "origins, as https://desk.example:8443"
        raise BadSettings(f"{name} is a list of {wanted}")
    return tuple(found)


def page_of(texts: dict[str, str], relays: tuple[str, ...]) -> Page:
    origin = texts["origin"]
    if origin and not re.fullmatch(ORIGIN, origin):
        raise BadSettings("origin is where browsers find the page, as https://desk.example:8444")
    if origin in relays:
        raise BadSettings("origin is the door's own: no page of a relay has it")
    if texts["verified"] not in ("yes", "no"):
        raise BadSettings('verified is "yes", or "no" for passkeys without a PIN or a finger')
    listen = socket_of("page", texts["page"])
    return Page(origin, texts["verified"] == "yes", relays, listen, texts["made"])


def checked(
    found: dict[str, object],
) -> tuple[dict[str, str], dict[str, int], dict[str, tuple[str, ...]]]:
    """The settings, each of its kind."""
    found = {name: value for name, value in found.items() if name not in ("doors", "programs")}
    if unknown := found.keys() - TEXTS.keys() - NUMBERS.keys() - set(LISTS):
        raise BadSettings(f"no setting is named {', '.join(sorted(unknown))}")
    texts, numbers = dict(TEXTS), dict(NUMBERS)
    lists = {name: listed(name, found.get(name, [])) for name in LISTS}
    for name, value in found.items():
        if name in LISTS:
            continue
        if name in TEXTS and isinstance(value, str):
            texts[name] = value
        elif name in NUMBERS and type(value) is int and value >= LEAST[name]:
            numbers[name] = value
        else:
            least = LEAST.get(name)
            wanted = "a text between quotes" if least is None else f"a number, {least} or more"
            raise BadSettings(f"{name} is {wanted}")
    if not SITE.fullmatch(texts["site"]):
        raise BadSettings("site is a name as desk.example")
    if texts["signing"] not in ("yes", "no"):
        raise BadSettings('signing is "yes", or "no" where the door keeps the journal alone')
    if texts["signed_since"] and not MOMENT.fullmatch(texts["signed_since"]):
        raise BadSettings("signed_since is a moment as 20260105090000Z")
    return texts, numbers, lists


def read_settings(path: str) -> Settings:
    try:
        with open(path, "rb") as file:
            found = tomllib.load(file)
        texts, numbers, lists = checked(found)
        return Settings(
            site=texts["site"],
            desk=socket_of("desk", texts["desk"]),
            questions=socket_of("questions", texts["questions"] or texts["desk"]),
            listen=socket_of("listen", texts["listen"]),
            root=socket_of("root", texts["root"]),
            signers=texts["signers"],
            journal=texts["journal"],
            rules=Rules(
                texts["signing"] == "yes", numbers["late"], numbers["changes_by"],
                texts["signed_since"], programs_of(found), frozenset(lists["by_ssh"]),
            ),
            room=Room(numbers["journal_bytes"], numbers["file_bytes"]),
            answers=socket_of("answers", texts["answers"]),
            file_key=texts["file_key"],
            doors=doors_of(found, texts),
            page=page_of(texts, lists["relay_pages"]),
        )  # fmt: skip
    except (OSError, ValueError) as fault:
        raise BadSettings(f"{path}: {fault}") from None
