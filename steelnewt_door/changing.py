"""Changes the folder of signers: shown, and whole or not at all, by whom it belongs to."""

import contextlib
import fcntl
import os
import re
import stat
import subprocess
import time
from codecs import BOM_UTF8, BOM_UTF16_BE, BOM_UTF16_LE

from steelnewt_client.moments import stamp_of
from steelnewt_door.changes import Two, takes_away, text_of
from steelnewt_client.signed import PASSKEY
from steelnewt_door.signers import ALLOWED, CHANGE, KINDS, KRL, PASSKEYS, REVOKED, YESES
from steelnewt_door.signers import BadSigners, Signer, Signers, Version

DRAFT, TO_SIGN = "draft", "to-sign"
KEY = re.compile(rf"({KINDS}) +([A-Za-z0-9+/]+={{0,2}})(?: [ -~]*)?")
MOST_KEY = 8_192  # bytes of a file with a public key
MARKS = {BOM_UTF8: "utf-8", BOM_UTF16_LE: "utf-16-le", BOM_UTF16_BE: "utf-16-be"}


def fingerprint(public: str) -> str:
    """What ssh-keygen says of one public key. The same key has the same, however it is written."""
    words = ["ssh-keygen", "-lf", "-"]
    text = f"{public} key\n"
    ran = subprocess.run(words, input=text, capture_output=True, text=True, check=False)
    lines = ran.stdout.splitlines()
    if ran.returncode != 0 or len(lines) != 1:
        raise BadSigners(f"ssh-keygen takes it for no public key: {ran.stderr.strip()}")
    return lines[0].split(" ")[1]


def plainly(public: str) -> str:
    """A public key as ssh-keygen itself writes it, so that no two texts are the same key."""
    if public.startswith("sk-"):
        return public  # (ssh-keygen converts none of these, and they have one form)
    made = subprocess.run(
        ["ssh-keygen", "-e", "-m", "RFC4716", "-f", "/dev/stdin"],
        input=f"{public}\n", capture_output=True, text=True, check=False,
    )  # fmt: skip
    words = ["ssh-keygen", "-i", "-m", "RFC4716", "-f", "/dev/stdin"]
    ran = subprocess.run(words, input=made.stdout, capture_output=True, text=True, check=False)
    found = KEY.fullmatch(ran.stdout.strip())
    if not found:
        raise BadSigners(f"ssh-keygen takes it for no public key: {made.stderr.strip()}")
    return f"{found[1]} {found[2]}"


def given_in(path: str, most: int = MOST_KEY) -> bytes:
    """A file's bytes, of which there may be so many; `-` is the standard input."""
    try:
        with open(0 if path == "-" else path, "rb", closefd=path != "-") as file:
            given = file.read(most + 1)
    except OSError as fault:
        raise BadSigners(f"{path} cannot be read: {fault.strerror}") from None
    if len(given) > most:
        raise BadSigners(f"{path} is longer than {most} bytes")
    return given


def text_in(path: str) -> bytes:
    """A file's text, as it would be written here: Windows' programs end lines otherwise, put a mark
    before a text, or write UTF-16."""
    given = given_in(path)
    for mark, name in MARKS.items():
        if given.startswith(mark):
            given = given[len(mark) :].decode(name, "replace").encode("utf-8")
            break
    return given.replace(b"\r\n", b"\n")


def public_in(path: str, given: bytes) -> str:
    """The one public key in a file, which has nothing beside it."""
    if b"PRIVATE KEY" in given:
        raise BadSigners(f"{path} has a private key, which nobody else may have: ask for a new one")
    lines = [it for it in given.decode("utf-8", "replace").splitlines() if it]
    found = KEY.fullmatch(lines[0]) if len(lines) == 1 else None
    if not found:
        raise BadSigners(f"{path} is no public key alone, on one line, without options")
    return f"{found[1]} {found[2]}"


def lines_of(signers: list[Signer]) -> str:
    return "".join(f"{it.line()}\n" for it in signers)


def texts_of(signers: list[Signer], revoked: list[str]) -> dict[str, bytes]:
    """The files with who signs and which keys are revoked. (ssh-keygen reads none of passkeys.)"""
    mine = [it for it in signers if it.is_passkey]
    lost = [it for it in revoked if it.startswith(f"{PASSKEY} ")]
    passkeys = lines_of(mine) + "".join(f"revoked {it}\n" for it in lost)
    found = {
        ALLOWED: lines_of([it for it in signers if not it.is_passkey]),
        REVOKED: "".join(f"{it}\n" for it in revoked if it not in lost),
    } | ({PASSKEYS: passkeys} if passkeys else {})
    return {name: text.encode("ascii") for name, text in found.items()}


def written(path: str, given: bytes) -> None:
    with open(path, "xb") as file:
        file.write(given)
        # (the door reads it, and so may everybody: it has public keys alone)
        os.fchmod(file.fileno(), 0o644)
        file.flush()
        os.fsync(file.fileno())


def synced(folder: str) -> None:
    found = os.open(folder, os.O_RDONLY | os.O_DIRECTORY)
    os.fsync(found)
    os.close(found)


def emptied(folder: str) -> None:
    with contextlib.suppress(FileNotFoundError):
        for name in os.listdir(folder):
            os.unlink(os.path.join(folder, name))
        os.rmdir(folder)


class Changing:
    """A folder of versions that is being changed. `two` says how many people have to say yes."""

    def __init__(self, folder: str, two: Two) -> None:
        self.signers, self.two = Signers(folder), two
        try:
            os.makedirs(folder, 0o755, exist_ok=True)
            self.lock = os.open(folder, os.O_RDONLY | os.O_DIRECTORY | os.O_NOFOLLOW)
        except OSError as fault:
            raise BadSigners(f"the folder {folder} cannot be used: {fault.strerror}") from None
        found = os.fstat(self.lock)
        if found.st_uid != os.geteuid() or found.st_mode & (stat.S_IWGRP | stat.S_IWOTH):
            raise BadSigners(f"the folder {folder} is not yours alone to write")
        fcntl.flock(self.lock, fcntl.LOCK_EX)

    def close(self) -> None:
        os.close(self.lock)

    @property
    def draft(self) -> Version:
        return Version(DRAFT, os.path.join(self.signers.folder, DRAFT))

    def now(self) -> Version | None:
        """The version that holds; None before the first."""
        return self.signers.now() if self.signers.moments() else None

    def held(self) -> tuple[list[Signer], list[str]]:
        """Who signs now, and which keys are revoked."""
        now = self.now()
        return (now.signers(), now.revoked()) if now else ([], [])

    def write_draft(
        self, signers: list[Signer], revoked: list[str], change: str, krl: bytes | None = None
    ) -> Version:
        """Writes a version that holds nowhere yet, and the text that people sign."""
        now, draft = self.now(), self.draft
        if krl is None and now and now.has(KRL):
            krl = now.bytes(KRL)
        texts = {CHANGE: f"{change}\n".encode("ascii")} | texts_of(signers, revoked)
        texts |= {KRL: krl} if krl else {}
        try:
            emptied(draft.folder)
            os.mkdir(draft.folder, 0o755)
            for name, text in texts.items():
                written(draft.path(name), text)
            told = text_of(self.two.judge.site, now, draft)
            written(draft.path(TO_SIGN), told.encode("ascii"))
        except OSError as fault:
            raise BadSigners(f"{draft.folder} cannot be written: {fault.strerror}") from None
        return draft

    def needs(self) -> int:
        """How many people have to say yes to the draft."""
        now = self.now()
        is_free = now is None or takes_away(now, self.draft)
        return 0 if is_free or self.two.count < 2 else self.two.count

    def put(self, yeses: str = "") -> str:
        """Makes the draft the version that holds, once enough people said yes to it."""
        now, draft, folder = self.now(), self.draft, self.signers.folder
        told = text_of(self.two.judge.site, now, draft)
        if draft.text(TO_SIGN) != told:
            raise BadSigners("the signers have changed since the draft was made: make it anew")
        at = self.next_moment()
        found = self.two.who_said(now, told, yeses, at) if now and yeses else set()
        if len(found) < self.needs():
            raise BadSigners(f"{len(found)} people said yes to it, and {self.needs()} have to")
        try:
            if yeses:
                written(draft.path(YESES), yeses.encode("ascii"))
            os.unlink(draft.path(TO_SIGN))
            synced(draft.folder)
            os.rename(draft.folder, os.path.join(folder, at))
            os.fsync(self.lock)
        except OSError as fault:
            raise BadSigners(f"{folder} cannot be written: {fault.strerror}") from None
        return at

    def next_moment(self) -> str:
        """This second, once it is later than every version's: a moment has one version."""
        newest = ([""] + self.signers.moments())[-1]
        if newest > stamp_of(time.time() + 5):
            raise BadSigners(f"the newest version is of {newest}, which is ahead of the clock here")
        while (at := stamp_of(time.time())) <= newest:
            time.sleep(0.05)
        return at
