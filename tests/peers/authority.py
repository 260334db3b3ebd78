#!/usr/bin/env python3
"""Tries examples/front-ca.sh as an authority that is used for years: certificates that are made
again, lost, revoked and made again, by two people at once and by runs that are ended halfway.

openssl judges each certificate by the authority's own list of revoked ones. Needs strace, which
ends a run at a system call.
"""

import glob
import os
import re
import shutil
import subprocess
import sys
import tempfile
from collections.abc import Iterator

from tests.common import desk, front

Row = tuple[str, bool, object]
AT_ONCE = 6
# what is no name of a client: more than a name in a subject, or not what a front lets through
NO_NAMES = [
    "",
    "db1/CN=chat",
    "db1/OU=relay",
    "db1+CN=chat",
    "db1,OU=relay",
    "DB1",
    "../db1",
    "-db1",
    "db1 ",
    "db 1",
    "db1\nx",
    "db1\n",
    "*",
    ".",
    "d\xe4",
    "db1\\",
    "$(id)",
]


class Authority:
    """A folder of the authority's, and copies of what it made."""

    def __init__(self, folder: str, name: str) -> None:
        self.folder = os.path.join(folder, name)
        self.copies = os.path.join(folder, f"{name}.copies")
        os.mkdir(self.copies)
        self.run("init")

    def run(self, *words: str, before: tuple[str, ...] = (), **more: str) -> desk.Run:
        return subprocess.run(
            [*before, "sh", front.AUTHORITY, self.folder, *words],
            capture_output=True,
            text=True,
            check=False,
            env={**os.environ, **more},
        )

    def path(self, name: str) -> str:
        return os.path.join(self.folder, name)

    def make(self, kind: str, name: str, copy: str) -> str:
        """Makes a certificate, and keeps a copy as a thief does: its path."""
        ran = self.run(kind, name)
        if ran.returncode:
            sys.exit(f"{kind} {name} is not made: {ran.stderr}")
        kept = os.path.join(self.copies, f"{copy}.pem")
        shutil.copy(self.path(f"{kind}-{name}.pem"), kept)
        return kept

    def holds(self, certificate: str) -> bool:
        """Whether who has the authority and its list takes a certificate."""
        words = ["openssl", "verify", "-crl_check", "-CAfile", self.path("ca.pem")]
        ran = desk.run([*words, "-CRLfile", self.path("crl.pem"), certificate])
        if ran.returncode and "certificate revoked" not in ran.stderr:
            sys.exit(f"{certificate}: {ran.stderr}")
        return ran.returncode == 0

    def signed(self, subject: str) -> list[str]:
        """All that the authority ever signed for a subject."""
        paths = glob.glob(self.path("issued/*.pem"))
        words = ["openssl", "x509", "-noout", "-subject", "-nameopt", "RFC2253", "-in"]
        return [path for path in paths if desk.run([*words, path]).stdout[8:].strip() == subject]

    def serials(self, subject: str) -> set[str]:
        return {serial(path) for path in self.signed(subject)}

    def listed(self) -> set[str]:
        """The serials of the list of revoked ones."""
        ran = desk.run(["openssl", "crl", "-in", self.path("crl.pem"), "-noout", "-text"])
        return set(re.findall(r"Serial Number: ([0-9A-F]+)", ran.stdout))

    def fits(self, files: str) -> bool:
        """Whether a certificate and its key belong together, or neither is there."""
        pem, key = (self.path(f"{files}.{end}") for end in ("pem", "key"))
        if not os.path.exists(pem) and not os.path.exists(key):
            return True
        of_pem = desk.run(["openssl", "x509", "-in", pem, "-noout", "-pubkey"])
        of_key = desk.run(["openssl", "pkey", "-in", key, "-pubout"])
        return of_pem.returncode == 0 and of_pem.stdout == of_key.stdout


def serial(certificate: str) -> str:
    words = ["openssl", "x509", "-in", certificate, "-noout", "-serial"]
    return desk.run(words).stdout.strip().partition("=")[2]


def made_again(folder: str) -> Iterator[Row]:
    """A host's certificate is made three times; the key of the first is lost."""
    it = Authority(folder, "again")
    first = it.make("host", "db1", "first")
    second = it.run("host", "db1")
    says = [serial(first), "revoke-older host-db1", "revoke host-db1"]
    yield "what is said", all(word in second.stderr for word in says), second
    until = re.search(r"until (\d{14}Z)", second.stderr)
    ends = desk.run(["openssl", "x509", "-in", first, "-noout", "-enddate", "-dateopt", "iso_8601"])
    stands = re.sub(r"\D", "", ends.stdout) + "Z"
    yield "until when", until is not None and until[1] == stands, (second, ends)
    third = it.make("host", "db1", "third")
    others = [it.make(*words, "-".join(words)) for words in OTHERS]
    ran = it.run("revoke-older", "host-db1")
    yield "the older ones", not it.holds(first) and ran.returncode == 0, ran
    yield "the newest stays", it.holds(third) and all(map(it.holds, others)), ran
    again = it.run("host", "db1")
    yield "and no older one is told but that", serial(first) not in again.stderr, again


def revoked(folder: str) -> Iterator[Row]:
    """A host's certificates are revoked whose files are gone, and it gets new ones."""
    it = Authority(folder, "revoked")
    first, second = it.make("host", "db1", "first"), it.make("host", "db1", "second")
    others = [it.make(*words, "-".join(words)) for words in OTHERS]
    os.unlink(it.path("host-db1.pem"))
    shutil.rmtree(it.path("issued"))
    os.mkdir(it.path("issued"))
    ran = it.run("revoke", "host-db1")
    is_done = not it.holds(first) and not it.holds(second)
    yield "all, without a file", is_done and "2 revoked now, 0 hold" in ran.stderr, ran
    yield "and nobody else's", all(map(it.holds, others)), ran
    ran = it.run("revoke-older", "host-db1")
    yield "without the newest one's file", ran.returncode == 1 and "could stay" in ran.stderr, ran
    third = it.make("host", "db1", "third")
    yield "a revoked client gets a new one", it.holds(third) and not it.holds(second), ""
    yield "and that alone holds", it.run("list").stdout.count("/OU=host/CN=db1\n") == 1, ""
    it.run("renew")
    yield "a new list has the old ones", not it.holds(second) and it.holds(third), ""
    it.run("revoke", "host-db1")
    yield "it is revoked again", not it.holds(third), ""
    it.run("server", "desk.example")
    ran = it.run("revoke", "server-desk.example")
    is_done = not it.holds(it.path("server.pem"))
    yield "a front's", is_done and "ask no list about a front" in ran.stderr, ran


# who has nothing to do with the host db1
OTHERS = [
    ("host", "db10"),
    ("host", "db"),
    ("host", "db1-a"),
    ("relay", "db1"),
    ("auditor", "db1"),
    ("person", "db1"),
    ("person", "a.b_c-d"),
]


def names(folder: str) -> Iterator[Row]:
    it = Authority(folder, "names")
    it.make("host", "db1", "one")
    index = desk.read(it.path("index.txt"))
    for name in NO_NAMES:
        for kind in ("host", "relay", "auditor", "person"):
            if kind == "person" and name == ".":
                continue
            ran = it.run(kind, name)
            yield f"{kind} {name!r}", ran.returncode == 2 and "is not the name" in ran.stderr, ran
        ran = it.run("revoke", f"host-{name}")
        yield f"revoke {name!r}", ran.returncode == 2, ran
    for words in (["user", "ann"], ["revoke", "db1"], ["revoke"], ["revoke", "../x/host-db1"]):
        ran = it.run(*words)
        yield " ".join(words), ran.returncode == 2 and "front-ca.sh DIR" in ran.stderr, ran
    yield "nothing was made", desk.read(it.path("index.txt")) == index, ""
    ran = it.run("revoke", "host-db2")
    yield "a client that never was", ran.returncode == 1 and "was never a" in ran.stderr, ran
    ran = desk.run(["sh", front.AUTHORITY, os.path.join(folder, "nowhere"), "revoke", "host-db1"])
    is_left = os.path.exists(os.path.join(folder, "nowhere"))
    yield "a folder that is not there", ran.returncode != 0 and not is_left, ran
    ran = it.run("init")
    yield "a second authority", ran.returncode == 1 and it.holds(it.path("host-db1.pem")), ran


def at_once(folder: str) -> Iterator[Row]:
    """Several make a certificate for one client in the same second."""
    it = Authority(folder, "at-once")
    words = ["sh", front.AUTHORITY, it.folder, "host", "db1"]
    quiet = {"stdout": subprocess.DEVNULL, "stderr": subprocess.DEVNULL}
    runs = [subprocess.Popen(words, **quiet) for _ in range(AT_ONCE)]
    statuses = [run.wait() for run in runs]
    made = it.signed("CN=db1,OU=host")
    yield "each gets one", statuses == [0] * AT_ONCE and len(made) == AT_ONCE, (statuses, made)
    yield "key and certificate", it.fits("host-db1"), ""
    it.run("revoke", "host-db1")
    yield "all are revoked", not any(map(it.holds, made)), made


def people(folder: str) -> Iterator[Row]:
    """A person's certificate is a client's and nothing more; it ends and is revoked for itself."""
    it = Authority(folder, "people")
    made = it.make("person", "ann", "ann")
    others = [it.make(kind, "ann", f"{kind}-ann") for kind in ("relay", "host", "auditor")]
    words = ["openssl", "x509", "-noout", "-subject", "-nameopt", "RFC2253", "-in", made]
    subject = desk.run(words)
    yield "the subject", subject.stdout == "subject=CN=ann,OU=person\n", subject
    verify = ["openssl", "verify", "-CAfile", it.path("ca.pem"), "-purpose"]
    for purpose, is_fit in (("sslclient", True), ("sslserver", False)):
        ran = desk.run([*verify, purpose, made])
        yield f"for {purpose}", (ran.returncode == 0) == is_fit, ran
    minted = os.path.join(it.copies, "minted.pem")
    words = ["openssl", "req", "-x509", "-newkey", "ec", "-pkeyopt", "ec_paramgen_curve:P-256"]
    words += ["-nodes", "-subj", "/OU=relay/CN=chat", "-keyout", f"{minted}.key", "-out", minted]
    desk.run([*words, "-CA", made, "-CAkey", it.path("person-ann.key")])
    ran = desk.run([*verify, "sslclient", "-untrusted", made, minted])
    is_right = os.path.exists(minted) and "invalid CA certificate" in ran.stderr
    yield "what a person signs", ran.returncode != 0 and is_right, ran
    for older in ("revoke-older", "revoke"):
        it.run("person", "ann")
        ran = it.run(older, "person-ann")
        yield f"{older}: the older one", not it.holds(made) and ran.returncode == 0, ran
        is_held = it.holds(it.path("person-ann.pem"))
        yield f"{older}: the newest one", is_held == (older == "revoke-older"), ran
        yield f"{older}: nobody else's", all(map(it.holds, others)), ran
    it.run("revoke", "relay-ann")
    again = it.make("person", "ann", "again")
    yield "a relay of that name is revoked", it.holds(again) and not it.holds(others[0]), ""
    gone = it.serials("CN=ann,OU=person") - {serial(again)} | {serial(others[0])}
    yield "one list has both", len(gone) == 4 and it.listed() == gone, (it.listed(), gone)
    dates = {"FROM": "20260101000000Z", "UNTIL": "20260102000000Z"}
    it.run("person", "bob", **dates)
    ran = desk.run([*verify, "sslclient", it.path("person-bob.pem")])
    yield "one that has ended", "certificate has expired" in ran.stderr, ran


# stands before a program of the script's, and kills the script before that program or after it
WRAPPER = """#!/bin/sh
at=$(($(cat "$COUNT") + 1))
echo "$at" > "$COUNT"
[ "$at" != "$BEFORE" ] || kill -KILL $PPID
PATH=${PATH#*:} && NAME "$@" || exit
[ "$at" != "$AFTER" ] || kill -KILL $PPID
"""
WRAPPED = ("openssl", "mv", "chmod")


def endings(it: Authority, folder: str, *words: str) -> Iterator[tuple[str, desk.Run]]:
    """A run, ended at each file that openssl renames, and before and after each program."""
    for number in range(1, 30):
        halt = ("strace", "-f", "-qq", "-o", "/dev/null", "-e", "trace=rename")
        halt += ("-e", f"inject=rename:signal=SIGKILL:when={number}")
        ran = it.run(*words, before=halt)
        yield f"openssl, ended at rename {number}", ran
        if ran.returncode == 0:
            break
    wrappers, count = os.path.join(folder, "wrappers"), os.path.join(folder, "count")
    os.makedirs(wrappers, exist_ok=True)
    for name in WRAPPED:
        desk.write(wrappers, name, WRAPPER.replace("NAME", name))
        os.chmod(os.path.join(wrappers, name), 0o755)
    held = {"PATH": f"{wrappers}:{os.environ['PATH']}", "COUNT": count, "BEFORE": "", "AFTER": ""}
    for number in range(1, 60):
        for when in ("BEFORE", "AFTER"):
            desk.write(folder, "count", "0")
            ran = it.run(*words, **{**held, when: str(number)})
            yield f"ended {when.lower()} program {number}", ran
        if int(desk.read(count)) < number:
            break


def ended(folder: str) -> Iterator[Row]:
    """Runs that are ended halfway: what they leave is good enough for the next run."""
    it = Authority(folder, "ended")
    it.run("host", "db1")
    killed, misfits = 0, []
    for what, ran in endings(it, folder, "host", "db1"):
        killed += ran.returncode != 0
        listed = it.run("list")
        yield f"{what}: the next run", listed.returncode == 0, (ran, listed)
        if not it.fits("host-db1"):
            misfits.append(what)
            it.run("host", "db1")
    # (after the key's own `mv`, and before the certificate's)
    yield "the key and its certificate", len(misfits) <= 2, misfits
    ran = it.run("revoke", "host-db1")
    made = it.signed("CN=db1,OU=host")
    yield "whatever was signed is revoked", not any(map(it.holds, made)) and len(made) > 9, ran
    yield "runs were ended", killed > 12, killed
    it.run("relay", "chat")
    for what, _ in endings(it, folder, "revoke", "relay-chat"):
        kept = it.path("relay-chat.pem")
        again = it.run("revoke", "relay-chat")
        is_right = again.returncode == 0 and not it.holds(kept)
        yield f"a revocation, {what}", is_right, again
        it.run("relay", "chat")


def lost(folder: str) -> Iterator[Row]:
    """What the authority wrote down comes from a copy that is too old, or is gone or damaged."""
    it = Authority(folder, "lost")
    it.make("host", "db2", "db2")
    shutil.copy(it.path("index.txt"), it.path("index.copy"))
    kept = it.make("host", "db1", "kept")
    it.run("revoke", "host-db1")
    newer = desk.read(it.path("index.txt"))
    shutil.copy(it.path("index.copy"), it.path("index.txt"))
    for words in (["renew"], ["revoke", "host-db2"]):
        ran = it.run(*words)
        is_right = ran.returncode == 1 and serial(kept) in ran.stderr and not it.holds(kept)
        yield f"an old index: {words[0]}", is_right, ran
    os.unlink(it.path("index.txt"))
    ran = it.run("renew")
    yield "no index", ran.returncode == 1 and not it.holds(kept), ran
    desk.write(it.folder, "index.txt", newer)
    ran = it.run("revoke", "host-db2")
    is_right = ran.returncode == 0 and not it.holds(it.path("host-db2.pem"))
    yield "the newest index", is_right and not it.holds(kept), ran
    desk.write(it.folder, "crl.pem", "")
    ran = it.run("renew")
    yield "a damaged list", "cannot be read" in ran.stderr and ran.returncode == 1, ran


# On a disk that is full, and then is not: each command with its status, and whether anything was
# written.
FULL = """
mount -t tmpfs -o size=1m none "$1" && cd "$1" || exit 1
ca() { sh "$AUTHORITY" it "$@" > /dev/null 2>&1; }
ca init && ca host db1 && cp -r it "$2"
head -c 2000000 /dev/zero > fill
for words in "revoke host-db1" "host db1" "host db2" "renew"; do
    ca $words && echo "$words: done"
done
diff -r it "$2" && echo same
rm fill
: > it/crlnumber
ca revoke host-db1 && cp it/crl.pem it/ca.pem it/host-db1.pem "$2" && echo revoked
"""


def full(folder: str) -> Iterator[Row]:
    if os.geteuid() != 0:
        return
    disk, kept = os.path.join(folder, "disk"), os.path.join(folder, "full")
    os.mkdir(disk)
    words = ["unshare", "--mount", "bash", "-c", FULL, "full", disk, kept]
    ran = subprocess.run(
        words,
        capture_output=True,
        text=True,
        check=False,
        env={**os.environ, "AUTHORITY": front.AUTHORITY},
    )
    yield "nothing is done, and nothing is lost", ran.stdout == "same\nrevoked\n", ran
    verify = ["openssl", "verify", "-crl_check", "-CAfile", f"{kept}/ca.pem"]
    said = desk.run([*verify, "-CRLfile", f"{kept}/crl.pem", f"{kept}/host-db1.pem"])
    yield "revoked once there is room", "certificate revoked" in said.stderr, said


def published(folder: str) -> Iterator[Row]:
    """Each new list ends with a run of `publish`, and a failure of that is one."""
    it, told = Authority(folder, "published"), os.path.join(folder, "told.pem")
    kept = it.make("host", "db1", "one")
    ran = it.run("renew")
    yield "without it", "copy it to each front" in ran.stderr and ran.returncode == 0, ran
    desk.write(it.folder, "publish", f"#!/bin/sh\nexec cp crl.pem {told}\n")
    os.chmod(it.path("publish"), 0o755)
    ran = it.run("revoke", "host-db1")
    is_there = os.path.exists(told) and desk.read(told) == desk.read(it.path("crl.pem"))
    yield "the new list", is_there and ran.returncode == 0 and not it.holds(kept), ran
    desk.write(it.folder, "publish", "#!/bin/sh\nexit 7\n")
    for words in (["renew"], ["revoke", "host-db1"]):
        ran = it.run(*words)
        is_right = ran.returncode == 1 and "publish failed" in ran.stderr
        yield f"it fails: {words[0]}", is_right, ran


PARTS = (made_again, revoked, names, people, at_once, ended, lost, full, published)


def main() -> None:
    for tool in ("openssl", "strace", "flock"):
        desk.tool(tool)
    checks = wrong = 0
    with tempfile.TemporaryDirectory(dir=desk.MEMORY) as folder:
        for part in PARTS:
            for what, is_right, said in part(folder):
                checks += 1
                if not is_right:
                    wrong += 1
                    print(f"the authority: {part.__name__}: {what}: otherwise. {str(said)[-500:]}")
    print(f"the authority: {checks} checks, {wrong} wrong")
    sys.exit(1 if wrong else 0)


if __name__ == "__main__":
    main()
