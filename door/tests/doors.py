"""A small site with a door, for tests: its desk, people's keys, and signed messages."""

import atexit
import contextlib
import hashlib
import io
import os
import re
import shutil
import socket
import subprocess
import sys
import tempfile
import time
from collections.abc import Callable
from dataclasses import replace
from datetime import timedelta
from functools import cache
from pathlib import Path

from relays.tests.site import PATIENCE, Site
from steelnewt_client.desk import Desk
from steelnewt_client.messages import Request, Verdict, Wish, canonical
from steelnewt_client.moments import now, stamp
from steelnewt_client.signed import LIST, NAMESPACE, Signed, digest, list_payload, list_signature
from steelnewt_door import program as door_program
from steelnewt_door import signer_program
from steelnewt_door.changes import Two
from steelnewt_door.changing import Changing, public_in
from steelnewt_door.journal import files_of, rows_of
from steelnewt_door.judge import Judge, bare
from steelnewt_door.rows import Row
from steelnewt_door.signers import Signer, Signers

TOP = Path(__file__).resolve().parents[2] / "door"
MYDESK = TOP.parent / "packaging" / "mydesk"
SITE = "desk.example"
# Whom the roster also has: they may revoke.
OTHERS = tuple("erin frank grace heidi0 heidi1 ivan judy ken mary nora olga".split())
SETTINGS = """\
site = "{site}"
signing = "{signing}"
desk = "unix:{folder}/desk.sock"
listen = "unix:{folder}/door.sock"
root = "unix:{folder}/root/desk.sock"
signers = "{folder}/signers"
journal = "{folder}/journal"
answers = "unix:{folder}/answers.sock"
file_key = "{folder}/key"
late = 3600
"""


def program(name: str) -> list[str]:
    """What starts a program of the door's."""
    return [sys.executable, "-B", str(TOP / name)]


def keygen(*words: str, given: bytes | None = None) -> bytes:
    ran = subprocess.run(["ssh-keygen", "-q", *words], input=given, capture_output=True, check=True)
    return ran.stdout


def ran(main: Callable[[list[str]], int], words: list[str], status: int) -> str:
    """What a program says to words. (Here, for a process of its own takes a second to begin.)"""
    said = io.StringIO()
    with contextlib.redirect_stdout(said), contextlib.redirect_stderr(said):
        found = main(words)
    assert found == status, (words, found, said.getvalue())
    return said.getvalue()


@cache
def prepared(people: tuple[str, ...]) -> str:
    """A folder with keys of people and of a thief, and with the people's as signers, made once."""
    folder = tempfile.mkdtemp(prefix="door-keys.")
    atexit.register(shutil.rmtree, folder, True)
    for name in (*people, "thief"):
        keygen("-t", "ed25519", "-N", "", "-C", name, "-f", os.path.join(folder, name))
    changing = Changing(os.path.join(folder, "signers"), Two(Judge(SITE), Signers(folder)))
    at = stamp(now() - timedelta(hours=1))
    signers = []
    for name in people:
        public = Path(folder, f"{name}.pub").read_bytes()
        kind, key = public_in(name, public).split(" ")
        signers.append(Signer(name, kind, key, at))
    if signers:
        changing.write_draft(signers, [], "{}")
        changing.put()
    changing.close()
    return folder


class Doored:
    """A site whose desk is behind a door."""

    def __init__(self, folder: Path, people: tuple[str, ...] = ("ann", "bob", "carol")) -> None:
        self.folder, self.site = folder, Site(folder)
        roster = folder / "site.roster"
        more = "".join(f'{it} = ["audit"]\n' for it in OTHERS)
        roster.write_text(roster.read_text().replace("[people]\n", f"[people]\n{more}", 1))
        self.door: subprocess.Popen[str] | None = None
        self.prefix: list[str] = []
        # (each test of a site that several share has a hundred numbers of its own)
        self.block = 0
        self.config = folder / "door.toml"
        (folder / "root").mkdir(mode=0o700)
        (folder / "journal").mkdir(mode=0o700)
        self.configure()
        shutil.copytree(prepared(people), folder, dirs_exist_ok=True)

    def add(self, name: str, file: str = "") -> str:
        """Somebody signs with a public key, which they did not prove to be theirs."""
        return self.signer("add", name, file or self.public(name), "--unproved")

    def configure(self, signing: str = "yes", site: str = SITE, more: str = "") -> None:
        text = SETTINGS.format(site=site, folder=self.folder, signing=signing)
        self.config.write_text(text + more)

    def new_key(self, name: str, kind: str = "ed25519") -> Path:
        path = self.folder / name
        keygen("-t", kind, "-N", "", "-C", name, "-f", str(path))
        return path

    def public(self, name: str) -> str:
        return str(self.folder / f"{name}.pub")

    def signer(self, *words: str, status: int = 0) -> str:
        """Runs desk-signer over this site's folder: what it says."""
        return ran(signer_program.main, ["--config", str(self.config), "--yes", *words], status)

    def run(self, *words: str, status: int = 0) -> str:
        """Runs a job of desk-door: what it says."""
        return ran(door_program.main, ["--config", str(self.config), *words], status)

    def start(self) -> None:
        self.site.start_desk()
        self.start_door()

    def start_door(self) -> None:
        words = [*self.prefix, *program("desk-door"), "--config", str(self.config), "serve"]
        with open(self.folder / "door.log", "ab") as log:
            self.door = subprocess.Popen(words, stdout=subprocess.PIPE, stderr=log, text=True)
        assert self.door.stdout
        first = self.door.stdout.readline()
        assert first.startswith("listening unix:"), self.said()

    def stop_door(self) -> None:
        if self.door:
            self.door.terminate()
            self.door.wait(timeout=PATIENCE)
            assert self.door.stdout
            self.door.stdout.close()
            self.door = None

    def close(self) -> None:
        self.stop_door()
        self.site.close()

    def said(self) -> str:
        return (self.folder / "door.log").read_text()

    @property
    def url(self) -> str:
        return f"unix:{self.folder}/door.sock"

    # what people write and sign

    def request(
        self, by: str = "ann", no: int = 1, command: str = "/usr/bin/id", at: str = ""
    ) -> str:
        begins = at or stamp(now())
        ends = stamp(now() + timedelta(minutes=15))
        ceiling = "db-emergency" if command == "ALL" else "db-care"
        wish = Wish.of(ceiling, ["db1"], "root", [command], (begins, ends))
        return Request(by, self.block + no, begins, wish).text()

    def verdict(
        self, by: str = "bob", kind: str = "approve", of: str = "ann", no: int = 1, at: str = ""
    ) -> str:
        return Verdict(by, kind, of, self.block + no, at or stamp(now())).text()

    def sign(
        self,
        key: str,
        message: str,
        request: str = "",
        site: str = SITE,
        namespace: str = NAMESPACE,
        why: str = "",
    ) -> Signed:
        """A message with the signature of a key, of an approval about a request's bytes."""
        said = Signed(message, "", digest(request) if request else "", why)
        raw = self.signature(key, said.payload(site), namespace)
        return replace(said, signature=f"ssh:{raw}")

    def signature(self, key: str, what: bytes, namespace: str = NAMESPACE) -> str:
        """The base64 of a signature with a key."""
        words = ["-Y", "sign", "-f", str(self.folder / key), "-n", namespace, "-"]
        return bare(keygen(*words, given=what).decode("ascii"))

    def sign_list(self, key: str, said: list[Signed], site: str = SITE) -> list[Signed]:
        """The same messages with one signature over all of them."""
        listed = [it.said(site) for it in said]
        raw = self.signature(key, list_payload(site, listed), LIST)
        return [replace(it, signature=list_signature(raw, listed)) for it in said]

    # what is posted

    def post(self, signed: Signed | str, root: bool = False, relay: str = "chat") -> str:
        """What the door answers to a message: `ack`, or the code of a refusal."""
        line = signed.line() if isinstance(signed, Signed) else signed
        reply = self.raw(posted(line.encode("utf-8"), relay), root)
        return reply.partition(b"\r\n\r\n")[2].decode("utf-8").strip()

    def raw(self, given: bytes, root: bool = False) -> bytes:
        """What comes back over a socket of the door."""
        path = self.folder / ("root/desk.sock" if root else "door.sock")
        return exchanged(path, given)

    def get(self, path: str) -> str:
        return Desk(self.url).get(path)

    def rows(self, kind: str = "") -> list[Row]:
        """The rows of the journal."""
        found = [row for _, path in files_of(str(self.folder / "journal")) for row in rows_of(path)]
        return [it for it in found if kind in ("", it["row"])]

    def is_mine(self, text: str) -> bool:
        """Whether a message has a number of this test's."""
        found = re.search(r'"no":([0-9]+)', text)
        return found is not None and self.block <= int(found[1]) < self.block + 100

    def came(self) -> list[Row]:
        """The rows of messages that were taken."""
        found = [it for it in self.rows("came") if it["how"] != "refused"]
        return [it for it in found if self.is_mine(it["message"])]

    def codes(self) -> list[str]:
        """What was answered, in the order of the answers."""
        mine = {it["no"] for it in self.rows("came") if self.is_mine(it["message"])}
        return [it["code"] for it in self.rows("answered") if it["of"] in mine]

    def in_force(self) -> list[str]:
        """The grants in force of this test's numbers."""
        lines = Desk(self.site.url).get(f"/v1/grants/{stamp(now())}").splitlines()
        return [it for it in lines if self.block <= int(it.split(" ")[1]) < self.block + 100]

    def all_held(self) -> list[str]:
        return Desk(self.site.url).get("/v1/messages").splitlines()

    def held(self) -> list[str]:
        """The messages that the desk holds."""
        return [it for it in self.all_held() if self.is_mine(it)]


def chained(row: Row) -> str:
    """The digest of a row, which has the one before it in itself."""
    told = {name: value for name, value in row.items() if name != "chain"}
    return hashlib.sha256(canonical(told).encode("utf-8")).hexdigest()


def posted(body: bytes, relay: str = "chat") -> bytes:
    head = f"POST /v1/relays/{relay}/messages HTTP/1.1\r\nHost: desk\r\n"
    return f"{head}Content-Length: {len(body)}\r\n\r\n".encode("ascii") + body


def exchanged(path: Path | str, given: bytes) -> bytes:
    with socket.socket(socket.AF_UNIX) as peer:
        peer.settimeout(60)
        peer.connect(str(path))
        peer.sendall(given)
        said = b""
        while piece := peer.recv(65_536):
            said += piece
    return said


def wait_until(is_so: object, seconds: float = PATIENCE) -> None:
    until = time.monotonic() + seconds
    while not is_so():  # type: ignore[operator]
        assert time.monotonic() < until
        time.sleep(0.05)


IS_ROOT = os.geteuid() == 0
