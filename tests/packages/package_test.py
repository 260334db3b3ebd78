#!/usr/bin/env python3
"""Tries Debian's packages of build/deb in a root of their own: installed, served, asked by
certificates, upgraded, removed.

The root is this machine's, under an overlay that is thrown away, with namespaces of its own for
mounts, processes and network; with FRESH=FOLDER it is debootstrap's, made there where the folder is
empty. Behind it, a team's life is followed over the packages, in a root of this machine's
(check_team.py --packages): with a real sshd, nginx, Apache, slapd, SMTP server and browser. The
service runs as its unit says, without systemd (service.py). Needs root, and Debian's packages sudo,
faketime, nginx-light, haproxy, openssl, curl, sqlite3, strace, iproute2 and rabbitmq-server.
"""

import contextlib
import os
import re
import shutil
import signal
import socket
import subprocess
import sys
import tempfile
import threading
import time

from steelnewt_host.canaries import Lines
from tests.common import desk, outsider, store_files
from tests.packages import package_broker, package_relay, service, syscalls

DEBS = os.path.join(desk.BUILD, "deb")
NEEDED = "adduser,ca-certificates,curl,faketime,haproxy,nginx-light,openssl,python3"
NEEDED += ",python3-jsonschema,sqlite3,openssh-client,tzdata,python3-flask,python3-waitress"
NEEDED += ",python3-cryptography,python3-fido2,python3-pika,strace,sudo,systemd"
DOC = "/usr/share/doc/steelnewt"
TOOLS = ("desk-lint", "desk-import", "desk-used", "desk-roster", "desk-standing")
TOOLS += ("desk-change-roster", "desk-change-base")
NAMES = ("steelnewt", "steelnewt-host", "steelnewt-host-plugin", "steelnewt-tools")
NAMES += ("python3-steelnewt-client",)
RELAY, BROKER = "steelnewt-relay", "steelnewt-broker"
DOOR = ("steelnewt-door", "steelnewt-backup", "mydesk")
PATIENCE = 120  # the seconds after which something hangs
STORE = "/var/lib/desk/desk.db"
SOCKET = "unix:/run/desk/desk.sock"
SECOND = "unix:/run/desk/second.sock"
AT_DOOR, AT_DOORS_ROOT = (f"/run/desk-door/{it}desk.sock" for it in ("", "root/"))
AT_PAGE = "/run/desk-confirm/page.sock"
AT_POSTS = "/run/desk-posts/desk.sock"  # where the desk takes messages behind a door
STEP = "\n(account|session)\trequired\t+pam_exec.so .*/usr/sbin/desk-host prompt"
DPKG = ["dpkg", "--force-unsafe-io", "--no-triggers"]  # quick: the root is thrown away
DESK = ["setpriv", "--reuid", "desk", "--regid", "desk", "--clear-groups", "desk"]
FILES = [f"{DOC}/examples/roster.toml", f"{DOC}/examples/site.sudo"]
# the day of the examples, and tomorrow, to which the served grant is moved: a host does not fetch
# the
# lines that ended over an hour ago
EXAMPLE, TOMORROW = "20260105", time.gmtime(time.time() + 86_400)
DAY = time.strftime("%Y%m%d", TOMORROW)
# what sudo logged of the examples, beside their grants
AUDITED = f"""cd {DOC}/examples
desk-audit roster.toml site.sudo - --json < audited.messages > /tmp/audit.json
desk-used /tmp/audit.json site.sudo db1=used.log"""
# who may run what on db1 as root at a time of that day, with the grant of the examples
RIGHTS = [
    ("09:30:00", "ann", ["/usr/bin/id"], True),
    ("09:15:00", "ann", ["/usr/bin/id"], True),
    ("09:14:59", "ann", ["/usr/bin/id"], False),
    ("11:00:00", "ann", ["/usr/bin/id"], True),
    ("11:00:01", "ann", ["/usr/bin/id"], False),
    ("09:30:00", "ann", ["/usr/bin/env"], False),
    ("09:30:00", "bob", ["/usr/bin/id"], False),
]


class Trial:
    """A root, and the checks made in it."""

    def __init__(self, root: str) -> None:
        self.root = root
        self.checks = 0
        self.wrong = 0

    def check(self, what: str, is_right: bool, said: str = "") -> None:
        self.checks += 1
        if not is_right:
            self.wrong += 1
            print(f"{what}: otherwise. {said.strip()[-600:]}")

    def run(self, *words: str, given: str | None = None) -> subprocess.CompletedProcess[str]:
        """Runs words in the root."""
        env = {
            "PATH": "/usr/sbin:/usr/bin:/sbin:/bin",
            "LC_ALL": "C",
            "TZ": "UTC",
            "DEBIAN_FRONTEND": "noninteractive",
        }
        return subprocess.run(
            ["chroot", self.root, *words],
            input=given if given is not None else "",
            stdout=subprocess.PIPE,
            stderr=subprocess.STDOUT,
            text=True,
            check=False,
            env=env,
        )

    def does(
        self, what: str, *words: str, given: str | None = None, status: int = 0, says: str = ""
    ) -> str:
        ran = self.run(*words, given=given)
        self.check(
            what,
            ran.returncode == status and re.search(says, ran.stdout) is not None,
            f"status {ran.returncode}: {ran.stdout}",
        )
        return ran.stdout

    def path(self, name: str) -> str:
        return self.root + name

    def write(self, name: str, text: str) -> None:
        os.makedirs(os.path.dirname(self.path(name)), exist_ok=True)
        with open(self.path(name), "w", encoding="utf-8") as file:
            file.write(text)

    def read(self, name: str) -> str:
        with open(self.path(name), encoding="utf-8") as file:
            return file.read()


def install(trial: Trial) -> None:
    debs = sorted(name for name in os.listdir(DEBS) if name.endswith(".deb"))
    for name in debs:
        shutil.copy(os.path.join(DEBS, name), trial.path("/tmp"))
    trial.does("dpkg -i", *DPKG, "-i", *(f"/tmp/{name}" for name in debs))
    trial.does(
        "what is installed is what the package has",
        "dpkg",
        "-V",
        *NAMES,
        RELAY,
        BROKER,
        *DOOR,
        says="^$",
    )
    words = ["stat", "-c", "%U:%G %a", "/var/lib/desk-door"]
    trial.does("the door's folder", *words, says="^desk-door:desk-door 700$")
    more = ("desk-backup", "desk-restore")
    for name in ("desk-door", "desk-signer", "desk-verify", "desk-auditor", "mydesk", *more):
        trial.does(f"{name} --help", name, "--help", says=f"^usage: {name} ")
    trial.does(
        "the account's folder", "stat", "-c", "%U:%G %a", "/var/lib/desk", says="^desk:desk 700$"
    )
    trial.does(
        "conffiles",
        "dpkg-query",
        "-W",
        "-f",
        "${Conffiles}",
        "steelnewt",
        "steelnewt-host",
        says="serve.conf(.|\n)*fetch.conf",
    )
    for kind in ("account", "session-noninteractive"):
        path = f"/etc/pam.d/common-{kind}"
        trial.does(f"the step of PAM, {kind}", "cat", path, says=STEP)
    trial.does("the account has no shell", "getent", "passwd", "desk", says="nologin$")
    group = trial.does("who may open the socket", "getent", "group", "desk-front")
    members = {*group.strip().rpartition(":")[2].split(",")}
    trial.check("its members", members == {"www-data", "haproxy", "desk-relay"}, group)


def tools(trial: Trial) -> None:
    """The tools, as they are installed: a roster with faults, a code's sentence, a base of a
    sudoers file."""
    trial.does(
        "desk-lint", "desk-lint", FILES[0], says="roster.toml:7: warning: .*no ceiling has web1"
    )
    trial.write("/tmp/bad.toml", trial.read(FILES[0]).replace("needs = 1", 'needs = "1"'))
    said = "/tmp/bad.toml:27: O3 WrongType: ceilings.db-care.needs = .*expected a whole number"
    trial.does("desk-lint of a fault", "desk-lint", "/tmp/bad.toml", status=2, says=said)
    trial.does("desk-lint --explain", "desk-lint", "--explain", "O3", says="^O3 WrongType ")
    for name in ("desk_tools", "steelnewt_client", "argparse"):
        trial.write(f"/tmp/evil/{name}.py", "raise SystemExit('taken from the environment')")
    words = ["env", "-C", "/tmp/evil", "PYTHONPATH=/tmp/evil", "desk-lint", "--explain", "O3"]
    trial.does("no module of the caller's", *words, says="^O3 WrongType ")
    trial.write("/tmp/sudoers", "Defaults noexec\nann ALL = /bin/ls, NOEXEC: /usr/bin/less\n")
    base = trial.does(
        "desk-import",
        "desk-import",
        "--host",
        "db1=/tmp/sudoers",
        status=1,
        says="    lost: /usr/bin/less: NOEXEC: ",
    )
    # (/bin is a link there)
    trial.check("the base", base.endswith("\nann db1 = (root) /usr/bin/ls\n"), base)
    said = "\ndb1 eve as root  once"
    told = trial.does("desk-used", "sh", "-c", AUDITED, status=1, says=said)
    trial.check("a grant that was used", "  used twice\n" in told, told)
    for page in (*TOOLS, "desk-evidence"):
        trial.does(f"{page}(1)", "test", "-s", f"/usr/share/man/man1/{page}.1.gz")
    trial.does("the schemas", "test", "-s", "/usr/share/steelnewt/schemas/roster.schema.json")


def tour(trial: Trial) -> None:
    """The commands on a desk, as the unprivileged account."""
    messages = trial.read(f"{DOC}/examples/approved.messages")
    trial.does(
        "deliver",
        *DESK,
        "deliver",
        *FILES,
        "/var/lib/desk/tour.db",
        "chat",
        given=messages,
        says="^ack\nack\nnew store: /var/lib/desk/tour.db\n$",
    )
    trial.does(
        "print",
        *DESK,
        "print",
        *FILES,
        "/var/lib/desk/tour.db",
        "db1",
        says="NOTAFTER=20260105110000Z /usr/bin/id\n",
    )
    trial.does(
        "review",
        *DESK,
        "review",
        *FILES,
        "/var/lib/desk/tour.db",
        "20260105093000Z",
        says="^REVIEW 20260105093000Z\nLIVE\nann",
    )
    empty(trial)


class Service:
    """The desk's unit, started: what it logged, and what it told systemd."""

    def __init__(
        self,
        trial: Trial,
        extra: dict[str, str] | None = None,
        before: list[str] | None = None,
    ) -> None:
        self.socket = service.listen(trial.root)
        self.told: list[bytes] = []
        self.is_ready = threading.Event()
        threading.Thread(target=self.hear, daemon=True).start()
        told = {"NOTIFY_SOCKET": "/run/notify"} | (extra or {})
        self.runtime = service.make_runtime(trial.root, "desk.service")
        self.process = service.start(trial.root, "desk.service", "", before, told)

    def hear(self) -> None:
        """Takes what systemd-notify says: it waits until that is taken."""
        with contextlib.suppress(OSError):
            while said := self.socket.recv(4096):
                self.told.append(said)
                self.is_ready.set()

    def wait_ready(self) -> bytes:
        self.is_ready.wait(PATIENCE)
        return b"".join(self.told)

    def stop(self) -> tuple[int, str]:
        self.process.terminate()
        return self.end()

    def end(self) -> tuple[int, str]:
        """The status, and what it logged; one that does not end is ended."""
        try:
            said, _ = self.process.communicate(timeout=PATIENCE)
        except subprocess.TimeoutExpired:
            self.process.terminate()
            said, _ = self.process.communicate()
            said += "(it did not end by itself)"
        service.remove(self.runtime)
        return self.process.returncode, said


def refused(trial: Trial, what: str, says: str, extra: dict[str, str] | None = None) -> None:
    """The service does not start: status 2, which systemd does not try again, and a line that says
    what to do."""
    status, said = Service(trial, extra).end()
    trial.check(
        what,
        status == 2 and re.search(says, said) is not None and "not started again" in said,
        f"status {status}: {said}",
    )


def child(trial: Trial, process: subprocess.Popen[str]) -> int:
    """The first child of a process."""
    return int(trial.read(f"/proc/{process.pid}/task/{process.pid}/children").split()[0])


def family(trial: Trial, pid: int) -> list[int]:
    """A process, and all below it."""
    below = trial.read(f"/proc/{pid}/task/{pid}/children").split()
    return [pid, *(it for each in below for it in family(trial, int(each)))]


def traced(trial: Trial) -> None:
    """The service makes no system call that its unit does not let through."""
    trace = "/var/lib/desk/trace"
    running = Service(trial, before=["strace", "-f", "-qq", "-o", trace])
    trial.check("it starts, traced", b"READY=1" in running.wait_ready())
    # (it takes a connection, and writes to its store, only where somebody asks)
    for line in trial.read(f"{DOC}/examples/approved.messages").splitlines():
        words = outsider.curl(SOCKET, "/v1/relays/chat/messages", "--data-binary", line)
        trial.does("it keeps a message, traced", *words, says="^ack\n$")
    file = outsider.curl(SOCKET, "/v1/hosts/db1/sudoers")
    trial.does("it answers, traced", *file, says="NOTAFTER=20260105110000Z /usr/bin/id\n")
    os.kill(child(trial, running.process), signal.SIGTERM)
    status, said = running.end()
    trial.check("it ends, traced", status == 0 and "ended, as it was asked to" in said, said)
    settings = service.unit(trial.read("/lib/systemd/system/desk.service"))
    made = syscalls.traced(trial.path(trace))
    beyond = made - syscalls.allowed(settings["SystemCallFilter"])
    trial.check("its system calls", not beyond and "accept4" in made, f"not let through: {beyond}")
    empty(trial)


def empty(trial: Trial) -> None:
    """Takes away what a part left in the desk's folder."""
    with os.scandir(trial.path("/var/lib/desk")) as held:
        for it in held:
            if it.is_dir(follow_symlinks=False):
                shutil.rmtree(it.path)
            else:
                os.unlink(it.path)


def bad_starts(trial: Trial) -> None:
    """Each way in which a start fails, with its line."""
    refused(trial, "no roster", "F1 .*cannot read /etc/desk/roster.toml: write it")
    for name, source in (("roster.toml", FILES[0]), ("base.sudo", FILES[1])):
        trial.write(f"/etc/desk/{name}", trial.read(source))
    trial.write("/etc/desk/bad.toml", trial.read(FILES[0]) + "\nrelay = 1\n")
    trial.write("/etc/desk/bad.sudo", "%wheel ALL = ALL\n")
    refused(
        trial,
        "a roster that is refused",
        "O2 UnknownKey: the roster /etc/desk/bad.toml is refused",
        {"ROSTER": "/etc/desk/bad.toml"},
    )
    refused(
        trial,
        "a base that is refused",
        "S9 LeftOut line 1: the base /etc/desk/bad.sudo is refused",
        {"BASE": "/etc/desk/bad.sudo"},
    )
    refused(trial, "an address of another machine", "F1 .*ADDR", {"ADDR": "192.0.2.1:8080"})
    for address, says in (
        ("unix:desk.sock", "F2 .*ADDR, SYNC or another word has not its form"),
        ("unix:/run/none/desk.sock", "F1 .*there is no folder /run/none for the socket"),
        ("unix:/run/desk.sock", "F1 .*desk cannot make the socket /run/desk.sock"),
        (f"unix:/run/desk/{'x' * 97}", "F1 .*is too long"),
        (f"unix:/run/desk/{'x' * 100}", "(F1 .*is too long|F2 .*has not its form)"),
    ):
        refused(trial, f"ADDR={address}", says, {"ADDR": address})
    empty(trial)
    checked(trial)


def checked(trial: Trial) -> None:
    """`--check` as docs/OPERATING.md has it, of a desk that is stopped: systemd makes /run/desk as
    the unit starts, so that this folder is not there stops nothing."""
    page = desk.read("docs", "OPERATING.md").splitlines()
    (line,) = [it for it in page if it.startswith("runuser -u desk ")]
    there = os.path.exists(trial.path("/run/desk"))
    trial.check("/run/desk is not there while the desk is stopped", not there, "it is there")
    trial.does("--check of a stopped desk", "sh", "-c", line, says="nothing would stop a start")


def bad_stores(trial: Trial) -> None:
    """Stores that are no desk of this roster's; run beside a desk that serves."""
    refused(
        trial,
        "the address is taken",
        "F1 .*unix:/run/desk/desk.sock is taken",
        {"STORE": "/var/lib/desk/second.db"},
    )
    refused(
        trial,
        "the store is in use",
        f"F1 .*another program has {STORE}",
        {"ADDR": SECOND},
    )
    other = {"ADDR": SECOND, "STORE": "/var/lib/desk/second.db"}
    trial.write("/etc/desk/other.toml", trial.read(FILES[0]) + "# another\n")
    trial.run(*DESK, "print", *FILES, other["STORE"], "db1")
    refused(
        trial,
        "the store of another roster",
        "K1 .*another roster than /etc/desk/other.toml: .*desk rebuild",
        other | {"ROSTER": "/etc/desk/other.toml"},
    )
    older = "UPDATE desk SET schema = 1; ALTER TABLE verdicts RENAME TO kept; "
    trial.run("sqlite3", other["STORE"], older + store_files.definition("marks"))
    refused(trial, "a store of an older form", f"K3 .*desk rebuild .*{other['STORE']}", other)
    trial.run("sqlite3", other["STORE"], "UPDATE desk SET schema = 9")
    refused(trial, "a store of another schema", "K2 .*another schema", other)
    trial.write("/var/lib/desk/second.db", "no database at all" * 300)
    refused(trial, "a store that is no database", "F1 .*damaged or no database", other)
    os.chown(trial.path("/var/lib/desk/second.db"), 0, 0)
    os.chmod(trial.path("/var/lib/desk/second.db"), 0o600)
    refused(trial, "a store of root's", "F1 .*cannot read and write", other)
    log_alone(trial, other)
    for name in os.listdir(trial.path("/var/lib/desk")):
        if name.startswith("second"):
            os.unlink(trial.path(f"/var/lib/desk/{name}"))
    full_disk(trial)
    failed_answer(trial)


def log_alone(trial: Trial, other: dict[str, str]) -> None:
    """A log whose file is gone, or empty: it stays as it is."""
    store, text = trial.path(other["STORE"]), b"a log of some messages" * 100
    for what in ("gone", "empty"):
        with contextlib.suppress(FileNotFoundError):
            os.unlink(store)
        if what == "empty":
            trial.write(other["STORE"], "")
        with open(f"{store}-wal", "wb") as file:
            file.write(text)
        refused(trial, f"a file that is {what}", "its log .*-wal is there, .*copy the log", other)
        with open(f"{store}-wal", "rb") as file:
            trial.check(f"its log, {what}", file.read() == text)


def full_disk(trial: Trial) -> None:
    """A disk without a byte to spare."""
    small = trial.path("/var/lib/desk/small")
    os.makedirs(small)
    subprocess.run(["mount", "-t", "tmpfs", "-o", "size=64k", "tmpfs", small], check=True)
    os.chmod(small, 0o777)
    with open(os.path.join(small, "rest"), "wb", buffering=0) as file:
        try:
            while True:
                file.write(b"x" * 4096)
        except OSError:
            pass
    told = {"ADDR": SECOND, "STORE": "/var/lib/desk/small/desk.db"}
    refused(trial, "a full disk", "(F1|K4) .*(full)", told)
    subprocess.run(["umount", small], check=True)
    os.rmdir(small)


def failed_answer(trial: Trial) -> None:
    """A commit that fails while it serves is no end of the service, and the log does not ask for a
    start."""
    stub = "/usr/local/bin/desk-that-answers"
    trial.write(stub, "#!/bin/sh\necho 'answered K4 Storage' >&2\nexit 2\n")
    os.chmod(trial.path(stub), 0o755)
    refused(
        trial,
        "a commit that fails",
        "answered K4 Storage: .*goes on by itself",
        {"ADDR": SECOND, "STORE": "-", "DESK": stub},
    )


def certify(trial: Trial) -> None:
    """The front's authority, and certificates; the front's own, and nginx with the example's
    configuration."""
    ca = f"{DOC}/examples/front-ca.sh"
    for words in (
        ["init"],
        ["server", "desk.example", "127.0.0.1"],
        ["relay", "chat"],
        ["host", "db1"],
        ["auditor", "carol"],
    ):
        trial.does(f"a certificate: {' '.join(words)}", "sh", ca, "/etc/desk/front", *words)
    trial.write("/etc/nginx/conf.d/desk.conf", trial.read(f"{DOC}/examples/nginx/desk.conf"))
    for kind, source in (("pem", "host-db1.pem"), ("key", "host-db1.key")):
        shutil.copy(trial.path(f"/etc/desk/front/{source}"), trial.path(f"/etc/desk/host.{kind}"))
    shutil.copy(trial.path("/etc/desk/front/ca.pem"), trial.path("/etc/desk/ca.pem"))
    text = trial.read("/etc/desk/fetch.conf").replace(
        "https://desk.example", "https://127.0.0.1:1 https://127.0.0.1"
    )
    trial.write("/etc/desk/fetch.conf", text)
    os.chmod(trial.path("/etc/desk/front/server.key"), 0o000)
    os.rename(trial.path("/etc/desk/front/server.key"), trial.path("/etc/desk/front/kept.key"))
    trial.does(
        "a front without its key",
        "nginx",
        "-t",
        status=1,
        says="cannot load certificate key .*/etc/desk/front/server.key",
    )
    os.rename(trial.path("/etc/desk/front/kept.key"), trial.path("/etc/desk/front/server.key"))


def by_curl(trial: Trial, name: str, route: str, *more: str) -> str:
    front = "/etc/desk/front"
    return trial.run(
        "curl",
        "-sS",
        "-m",
        "60",
        "--cert",
        f"{front}/{name}.pem",
        "--key",
        f"{front}/{name}.key",
        "--cacert",
        f"{front}/ca.pem",
        "-w",
        " %{http_code}",
        *more,
        f"https://127.0.0.1{route}",
    ).stdout


def fetch(trial: Trial, before: list[str] | None = None) -> tuple[int, str]:
    """The unit that fetches the file of db1."""
    os.makedirs(trial.path("/var/lib/desk-host"), 0o700, exist_ok=True)
    process = service.start(trial.root, "desk-fetch@.service", "db1", before)
    said, _ = process.communicate(timeout=PATIENCE)
    return process.returncode, said


def traced_fetch(trial: Trial) -> None:
    """A fetch of another file makes no system call that its unit does not let through."""
    trace = "/var/lib/desk-host/trace"
    os.unlink(trial.path("/etc/sudoers.d/desk"))
    status, said = fetch(trial, ["strace", "-f", "-qq", "-o", trace])
    settings = service.unit(trial.read("/lib/systemd/system/desk-fetch@.service"))
    made = syscalls.traced(trial.path(trace))
    beyond = made - syscalls.allowed(settings["SystemCallFilter"])
    is_right = status == 0 and not beyond and "renameat" in " ".join(made)
    trial.check("a fetch's system calls", is_right, f"{status}, not let through: {beyond}: {said}")


def through_the_front(trial: Trial) -> None:
    for line in trial.read(f"{DOC}/examples/approved.messages").replace(EXAMPLE, DAY).splitlines():
        said = by_curl(trial, "relay-chat", "/v1/relays/chat/messages", "--data-binary", line)
        trial.check("a relay posts", said == "ack\n 200", said)
    said = by_curl(trial, "host-db1", "/v1/relays/chat/messages", "--data-binary", "{}")
    trial.check("a host does not", said.endswith(" 403"), said)
    status, said = fetch(trial)
    trial.check(
        "a host fetches, from the second desk",
        status == 0 and "https://127.0.0.1:1: [Errno 111] Connection refused" in said,
        f"{status}: {said}",
    )
    traced_fetch(trial)
    trial.does(
        "the file's owner", "stat", "-c", "%U:%G %a", "/etc/sudoers.d/desk", says="^root:root 440$"
    )
    trial.does("visudo", "visudo", "-c", says="/etc/sudoers.d/desk: parsed OK")
    says = "desk-host's plugin, records of form 1\n"
    trial.does("sudo loads the plugin", "sudo", "-V", says=says)
    trial.does("the sessions of nobody", "desk-host", "end-sessions", says="^$")
    # (a host has the name of its file, accounts for the people in it, and control groups)
    lines = Lines(trial.read("/etc/sudoers.d/desk"))
    for person in {each for it in lines.rules for each in lines.plain("User", it["who"])}:
        trial.run("useradd", person)
    name = socket.gethostname()
    subprocess.run(["hostname", "db1"], check=True)
    os.makedirs(trial.path("/sys/fs/cgroup"), exist_ok=True)
    trial.does("control groups", "mount", "-t", "cgroup2", "none", "/sys/fs/cgroup")
    says = "^DESK HOST OK - .*: 0 to mend [|]"
    trial.does("desk-host check", "desk-host", "check", says=says)
    settings = trial.path("/etc/sudoers.d/desk-defaults")
    trial.run("mv", "/etc/sudoers.d/desk-defaults", "/etc/desk/desk-defaults")
    trial.does(
        "and without sudo's settings",
        "desk-host",
        "check",
        status=1,
        says="^desk-host: sudo compares names without case.*\nDESK HOST WARNING - .*: 1 to mend: ",
    )
    trial.run("mv", "/etc/desk/desk-defaults", "/etc/sudoers.d/desk-defaults")
    trial.check("their mode", os.stat(settings).st_mode & 0o777 == 0o440)
    subprocess.run(["hostname", name], check=True)
    said = by_curl(trial, "auditor-carol", f"/v1/grants/{DAY}093000Z")
    trial.check("an auditor reads", said == f"ann 7 db-care {DAY}091500Z {DAY}110000Z\n 200", said)
    monitored(trial)


def monitored(trial: Trial) -> None:
    """The check of the package, by an auditor's certificate."""
    auditor = "/etc/desk/front/auditor-carol"
    words = ["--desk", "https://127.0.0.1", "--ca", "/etc/desk/ca.pem", "--store", STORE]
    words += [
        "--cert",
        f"{auditor}.pem",
        "--key",
        f"{auditor}.key",
        "--file",
        "/etc/sudoers.d/desk",
    ]
    found = trial.run("python3", "/usr/lib/nagios/plugins/check_desk", *words).stdout
    is_right = "1 conflicting duties" in found and "desk_store_bytes=" in found
    trial.check("the check", is_right and found.startswith("DESK WARNING"), found)


def whose_socket(trial: Trial) -> None:
    """Who may speak to the desk: the group of its socket, and no other account of the machine."""
    path = SOCKET.removeprefix("unix:")
    for name, says in ((os.path.dirname(path), "750"), (path, "660")):
        words = ["stat", "-c", "%U:%G %a", name]
        trial.does(f"{name}: whose it is", *words, says=f"^desk:desk-front {says}$")
    asked = trial.read(f"{DOC}/examples/approved.messages").replace(EXAMPLE, DAY).splitlines()
    for address in (SOCKET, outsider.PORT):
        for line in asked:
            words = outsider.curl(address, "/v1/relays/chat/messages", "--data-binary", line)
            ran = trial.run(*outsider.NOBODY, *words)
            is_right = ran.returncode == 7 and "ack" not in ran.stdout
            trial.check(f"nobody posts to {address}", is_right, ran.stdout)
    for account in ("www-data", "desk-relay"):
        group = ["setpriv", "--reuid", account, "--regid", account, "--init-groups"]
        trial.does(f"{account} asks", *group, *outsider.curl(SOCKET, "/v1/messages"), says="^$")


def taken_over(trial: Trial, what: str) -> None:
    """While the desk is down, a program of nobody's cannot stand in its place, and a host gets no
    file through the front."""
    before = trial.read("/etc/sudoers.d/desk")
    with outsider.Usurper(SOCKET, outsider.PORT, before=("chroot", trial.root)) as usurper:
        status, said = fetch(trial)
    trial.check(f"{what}: its place", not usurper.has_taken(SOCKET), usurper.said)
    is_right = status == 1 and trial.read("/etc/sudoers.d/desk") == before
    trial.check(f"{what}: a host's file stays", is_right, trial.read("/etc/sudoers.d/desk") + said)
    trial.write("/etc/sudoers.d/desk", before)


def while_it_is_down(trial: Trial) -> None:
    """Stopped, the folder of the socket is gone; killed, it is there with a socket that nobody
    answers at, until the unit starts again. The next start replaces that."""
    taken_over(trial, "stopped")
    killed = Service(trial)
    killed.wait_ready()
    for pid in family(trial, killed.process.pid):
        with contextlib.suppress(ProcessLookupError):
            os.kill(pid, signal.SIGKILL)
    killed.process.communicate(timeout=PATIENCE)
    stale = trial.path(SOCKET.removeprefix("unix:"))
    trial.check("a socket is left", os.path.exists(stale))
    taken_over(trial, "killed")


def listens(port: int) -> bool:
    with socket.socket() as peer:
        return peer.connect_ex(("127.0.0.1", port)) == 0


def through_haproxy(trial: Trial) -> None:
    """The other front, as its own account, with the desk's group: a host fetches."""
    trial.run("nginx", "-s", "stop")
    pair = [trial.read(f"/etc/desk/front/server.{end}") for end in ("pem", "key")]
    trial.write("/etc/desk/front/server.both.pem", "".join(pair))
    cfg = f"{DOC}/examples/haproxy/desk.cfg"
    trial.does("haproxy", "haproxy", "-D", "-p", "/run/haproxy.pid", "-f", cfg)
    said = by_curl(trial, "host-db1", "/v1/hosts/db1/sudoers")
    trial.check("a host fetches through haproxy", said.endswith("\n 200"), said)
    os.kill(int(trial.read("/run/haproxy.pid")), signal.SIGTERM)
    until = time.monotonic() + PATIENCE
    while listens(443) and time.monotonic() < until:
        time.sleep(0.1)
    trial.does("nginx again", "nginx")


def rights(trial: Trial) -> None:
    """What sudo allows, at moments of its own."""
    for name in ("ann", "bob"):
        trial.run("useradd", name)
    day = time.strftime("%Y-%m-%d", TOMORROW)
    for hour, user, command, is_right in RIGHTS:
        moment = f"{day} {hour}"
        ran = trial.run(
            "faketime",
            "-f",
            moment,
            "sudo",
            "-n",
            "-l",
            "-U",
            user,
            "-h",
            "db1",
            "-u",
            "root",
            "--",
            *command,
        )
        trial.check(
            f"sudo, {moment} {user} {command}",
            (ran.returncode == 0) == is_right and ran.returncode in (0, 1),
            ran.stdout,
        )


def wrong_clocks(trial: Trial) -> None:
    """The host's clock a day off: the fetch succeeds and says so; years off: it is refused, and the
    line names the clock."""
    for what, shift, status, says in (
        (
            "a host's clock, a day early",
            "-1d",
            None,
            "(clock is -86[0-9]+ seconds from|clock is wrong: this host's says)",
        ),
        ("a host's clock, years late", "+9y", 1, "clock is wrong: this host's says"),
    ):
        ended, said = fetch(trial, ["faketime", "-f", shift])
        trial.check(
            what, status in (None, ended) and re.search(says, said) is not None, f"{ended}: {said}"
        )
    early_certificate(trial)


def early_certificate(trial: Trial) -> None:
    """A certificate from tomorrow on: to the front it is as if its own clock were a day early."""
    early = {
        f"{name}={time.strftime('%Y%m%d%H%M%SZ', time.gmtime(time.time() + days * 86_400))}"
        for name, days in (("FROM", 1), ("UNTIL", 2))
    }
    words = ["sh", f"{DOC}/examples/front-ca.sh", "/etc/desk/front", "host", "db1"]
    trial.does("a certificate from tomorrow on", "env", *early, *words)
    for kind in ("pem", "key"):
        shutil.copy(
            trial.path(f"/etc/desk/front/host-db1.{kind}"), trial.path(f"/etc/desk/host.{kind}")
        )
    ended, said = fetch(trial)
    is_told = "FAILED:certificate is not yet valid" in trial.read("/var/log/nginx/desk.log")
    trial.check(
        "a front whose clock is a day early",
        ended == 1 and is_told and "in its dates by the front's clock" in said,
        f"{ended}: {said}",
    )
    trial.run("nginx", "-s", "stop")


def relay(trial: Trial) -> None:
    """The relay beside a desk that serves, and its package's life."""
    package_relay.installed(trial)
    running = Service(trial)
    running.wait_ready()
    package_relay.used(trial)
    running.stop()
    later = remade(trial, RELAY, "etc/desk/relay.toml", "# The settings", "# These settings")
    package_relay.later_on(trial, the_deb(RELAY), later)
    empty(trial)


def doors_page(trial: Trial) -> None:
    """The page at which people sign, as its unit starts it: the front's account opens it, and no
    relay's."""
    settings = trial.read("/etc/desk/door.toml")
    new = settings.replace('origin = ""', 'origin = "https://door.example:8444"', 1)
    new = new.replace("relay_pages = []", 'relay_pages = ["https://desk.example:8443"]', 1)
    trial.write("/etc/desk/door.toml", new)
    made = service.make_runtime(trial.root, "desk-confirm.service")
    page = service.start(trial.root, "desk-confirm.service")
    asked = [*asking(AT_PAGE, "/passkey"), "-H", "X-Desk-Person: ann"]
    until = time.monotonic() + PATIENCE
    while trial.run(*asked).returncode and time.monotonic() < until:
        time.sleep(0.2)
    for account, status in (("www-data", 0), ("desk-relay", 7), ("desk-door", 7), ("nobody", 7)):
        group = trial.run("id", "-gn", account).stdout.strip()
        becomes = ["setpriv", "--reuid", account, "--regid", group, "--init-groups"]
        says = "" if status else "You sign as <strong>ann</strong>"
        trial.does(f"{account} at the door's page", *becomes, *asked, status=status, says=says)
    page.terminate()
    page.communicate(timeout=PATIENCE)
    service.remove(made)
    trial.write("/etc/desk/door.toml", settings)


def behind_a_door(trial: Trial) -> None:
    """By SIGNING's lines the socket that takes messages opens to the door and root alone, as the
    units start both; front and relay ask at the desk's other one, which takes no message, and bring
    messages to the door's, where nothing is taken that is not signed."""
    page = desk.read("docs", "SIGNING.md").splitlines()
    settings = trial.read("/etc/desk/serve.conf")
    for begins, ends in (("install -D ", "/door.conf"), ("sed -i ", "/etc/desk/serve.conf")):
        (line,) = [it for it in page if it.startswith(begins) and it.endswith(ends)]
        trial.does(f"a line of SIGNING: {begins}", "sh", "-c", line)
    starts = service.settings_of(trial.root, "desk.service")["ExecStartPre"]
    (makes,) = [it for it in starts if it.startswith("+/usr/bin/install ")]
    trial.does("the folder for messages", *makes.lstrip("+").split())
    running = Service(trial)
    told = running.wait_ready().decode()
    trial.check("the desk listens for messages", f"listening at unix:{AT_POSTS}" in told, told)
    made = service.make_runtime(trial.root, "desk-door.service")
    (before,) = service.settings_of(trial.root, "desk-door.service")["ExecStartPre"]
    as_door = ["setpriv", "--reuid", "desk-door", "--regid", "desk-front", "--clear-groups"]
    trial.does("root's folder", *as_door, *before.split())
    door = service.start(trial.root, "desk-door.service")
    until = time.monotonic() + PATIENCE
    while trial.run(*asking(AT_DOOR)).returncode and time.monotonic() < until:
        time.sleep(0.2)
    for account, is_open in (("www-data", True), ("desk-relay", True), ("nobody", False)):
        group = trial.run("id", "-gn", account).stdout.strip()
        becomes = ["setpriv", "--reuid", account, "--regid", group, "--init-groups"]
        status, posts = 0 if is_open else 7, asking(SOCKET[5:], "/v1/relays/chat/messages")
        trial.does(f"{account} at the socket for messages", *becomes, *asking(AT_POSTS), status=7)
        trial.does(f"{account} at the desk", *becomes, *asking(SOCKET[5:]), status=status)
        trial.does(f"{account} at the door", *becomes, *asking(AT_DOOR), status=status)
        said = "^T3 NoRoute$" if is_open else ""
        words = [*becomes, *posts, "--data-binary", desk.approval()]
        trial.does(f"{account} posts past the door", *words, status=status, says=said)
        trial.does(f"{account} at root's", *becomes, *asking(AT_DOORS_ROOT), status=7)
    relay = ["setpriv", "--reuid", "desk-relay", "--regid", "desk-relay", "--init-groups"]
    revoke = desk.approval(kind="revoke")
    for what, by, place, message, says in (
        ("an approval that nobody signed", relay, AT_DOOR, desk.approval(), "^P20 NotSigned$"),
        ("a revocation that nobody signed", relay, AT_DOOR, revoke, "^P20 NotSigned$"),
        ("root's approval", [], AT_DOORS_ROOT, desk.approval(), "^P20 NotSigned$"),
        ("root's revocation", [], AT_DOORS_ROOT, revoke, "^ack$"),
    ):
        words = [*asking(place, "/v1/relays/chat/messages"), "--data-binary", "@-"]
        trial.does(what, *by, *words, given=message, says=says)
    held = trial.run(*asking(AT_DOOR, "/v1/messages")).stdout
    trial.check("the desk has root's alone", held == f"{revoke}\n", held)
    doors_page(trial)
    door.terminate()
    said, _ = door.communicate(timeout=PATIENCE)
    trial.check("the door ends", door.returncode == 0 and "ended, as it was" in said, said)
    service.remove([*made, trial.path("/run/desk-posts")])
    running.stop()
    os.unlink(trial.path("/etc/systemd/system/desk.service.d/door.conf"))
    trial.write("/etc/desk/serve.conf", settings)
    empty(trial)


def asking(place: str, route: str = "/v1/count") -> list[str]:
    """What asks, or posts, at a socket."""
    return ["curl", "-sS", "-m", "60", "--unix-socket", place, f"http://desk{route}"]


def broker(trial: Trial) -> None:
    """A relay's messages through a broker to a desk that serves, and the package's life."""
    package_broker.installed(trial)
    running = Service(trial)
    running.wait_ready()
    package_broker.used(trial)
    running.stop()
    later = remade(trial, BROKER, "etc/desk/broker.conf", "# Where", "# This is where")
    package_broker.later_on(trial, the_deb(BROKER), later)
    empty(trial)


def the_deb(package: str = "steelnewt") -> str:
    """A package's file."""
    return next(
        f"/tmp/{name}"
        for name in sorted(os.listdir(DEBS))
        if name.startswith(f"{package}_") and name.endswith(".deb")
    )


def remade(trial: Trial, package: str, conf: str, was: str, becomes: str) -> str:
    """A package again, with a later version and another text in its configuration."""
    folder = trial.path(f"/tmp/remade-{package}")
    deb = os.path.basename(the_deb(package))
    subprocess.run(["dpkg-deb", "-R", os.path.join(DEBS, deb), folder], check=True)
    for name, old, new in (
        ("DEBIAN/control", "\nVersion: ", "\nVersion: 9."),
        (conf, was, becomes),
    ):
        with open(os.path.join(folder, name), encoding="utf-8") as file:
            text = file.read()
        with open(os.path.join(folder, name), "w", encoding="utf-8") as file:
            file.write(text.replace(old, new, 1))
    subprocess.run(
        [
            "dpkg-deb",
            "--root-owner-group",
            "-Z",
            "none",
            "-b",
            folder,
            trial.path(f"/tmp/later-{package}.deb"),
        ],
        check=True,
        stdout=subprocess.DEVNULL,
    )
    return f"/tmp/later-{package}.deb"


def answer(trial: Trial) -> str:
    return trial.run(
        *DESK, "print", "/etc/desk/roster.toml", "/etc/desk/base.sudo", STORE, "db1"
    ).stdout


def later_on(trial: Trial) -> None:
    """Upgraded, removed, installed again and purged: what was acknowledged is there after each."""
    was, deb = answer(trial), the_deb()
    new = remade(trial, "steelnewt", "etc/desk/serve.conf", "# What", "# This is what")
    trial.check("what was acknowledged", f"NOTAFTER={DAY}110000Z /usr/bin/id\n" in was, was)
    trial.write("/etc/desk/serve.conf", trial.read("/etc/desk/serve.conf") + "# ours\n")
    for what, words, is_there in (
        ("upgrade", ["--force-confdef", "--force-confold", "-i", new], True),
        ("remove", ["-r", "steelnewt"], False),
        ("install again", ["--force-confold", "-i", deb], True),
        ("purge", ["-P", "steelnewt"], False),
        ("install once more", ["-i", deb], True),
    ):
        said = trial.does(what, *DPKG, *words)
        kept = (
            os.path.exists(trial.path(STORE))
            and os.stat(trial.path("/var/lib/desk")).st_mode & 0o777 == 0o700
        )
        trial.check(f"{what}: the store stands", kept, said)
        if is_there:
            trial.check(f"{what}: the same answer", answer(trial) == was, answer(trial))
        if what in ("upgrade", "remove", "install again"):
            trial.check(
                f"{what}: our configuration stays", "# ours" in trial.read("/etc/desk/serve.conf")
            )
        if what == "purge":
            trial.check(
                "purge says what stays",
                "stay in /var/lib/desk" in said
                and not os.path.exists(trial.path("/etc/desk/serve.conf")),
                said,
            )
    empty(trial)
    purged(trial)


def purged(trial: Trial) -> None:
    """Nothing is left but what sudo reads, and each file of that is named, with what it gives."""
    other = "/etc/sudoers.d/site-desk"
    rows = ["User_Alias A = ann", "A db1 = (root) NOTAFTER=20260105110000Z /usr/bin/id", "# no"]
    trial.write(other, "\n".join([*rows, "dba ALL = (postgres) ALL", ""]))
    conf = trial.read("/etc/desk/fetch.conf")
    trial.write("/etc/desk/fetch.conf", re.sub("(?m)^FILE=.*", f"FILE={other}", conf))
    trial.write(f"/etc/sudoers.d/desk.new.{'a' * 16}", "killed")
    trial.write("/etc/sudoers.d/desk.new.ours", "an administrator's")
    said = trial.does("purge of a desk without messages", *DPKG, "-P", *NAMES, *DOOR)
    rules = [it for it in trial.read("/etc/sudoers.d/desk").splitlines() if it[:1] not in ("", "#")]
    ends = sum("NOTAFTER=" in it for it in rules)
    is_told = "/etc/sudoers.d/desk stays" in said and f" {ends} of its {len(rules)} rules" in said
    trial.check("it says that the host's file stays", is_told and 0 < ends < len(rules), said)
    is_told = f"{other} stays" in said and " 1 of its 2 rules end by their dates" in said
    trial.check("and where the settings had it", is_told, said)
    trial.check("and the host's key", "/etc/desk/host.key stays" in said, said)
    left = {it for it in os.listdir(trial.path("/etc/sudoers.d")) if it.startswith("desk")}
    trial.check("what is left", left == {"desk", "desk.new.ours"}, str(left))
    pam = [trial.read(f"/etc/pam.d/common-{it}") for it in ("account", "session-noninteractive")]
    trial.check("the step of PAM is gone", not any("desk-host" in text for text in pam), str(pam))
    settings = trial.read("/etc/sudo.conf")
    trial.check("the plugin's line is gone", "desk_host" not in settings, settings)
    trial.does("sudo works", "sudo", "-n", "true")
    trial.check("its folder is gone", not os.path.exists(trial.path("/var/lib/desk")))


def served(trial: Trial) -> None:
    """A start, questions meanwhile, and the end, with the lines of the log."""
    running = Service(trial)
    ready = running.wait_ready()
    trial.check(
        "ready when it listens",
        b"READY=1" in ready and f"listening at {SOCKET}".encode() in ready,
        repr(ready),
    )
    certify(trial)
    trial.does("nginx", "nginx")
    whose_socket(trial)
    through_the_front(trial)
    through_haproxy(trial)
    rights(trial)
    bad_stores(trial)
    status, said = running.stop()
    log = r"starting over roster /etc/desk/roster.toml \(sha256 [0-9a-f]{16}\), .* a new store"
    log += r"(.|\n)*listening at(.|\n)*ended, as it was asked to: 2 messages"
    trial.check(
        "the log",
        status == 0
        and re.search(log, said) is not None
        and "was not told" not in said
        and "WARNING" not in said,
        f"{status}: {said}",
    )
    while_it_is_down(trial)
    again = Service(trial)
    again.wait_ready()
    wrong_clocks(trial)
    status, said = again.stop()
    trial.check("a second start", status == 0 and "2 messages in" in said, said)
    over_tcp(trial)


def over_tcp(trial: Trial) -> None:
    """An address of TCP is served as well, and the log says what it means."""
    running = Service(trial, {"ADDR": outsider.PORT})
    running.wait_ready()
    trial.does("over TCP", *outsider.NOBODY, *outsider.curl(outsider.PORT, "/v1/parked"))
    status, said = running.stop()
    told = re.search("WARNING: EVERY ACCOUNT OF THIS MACHINE .*: set ADDR=unix:/run/desk/", said)
    trial.check("what it means", status == 0 and told is not None, said)


def furnish(folder: str, fresh: str) -> str:
    """The root, with its own /proc, /tmp, /run and /dev/shm (where `faketime` leaves semaphores by
    the id of its process: a namespace has ids that others had)."""
    subprocess.run(["mount", "-t", "tmpfs", "tmpfs", folder], check=True)
    for name in ("up", "work", "root"):
        os.mkdir(os.path.join(folder, name))
    root = os.path.join(folder, "root")
    options = f"lowerdir={fresh or '/'},upperdir={folder}/up,workdir={folder}/work"
    subprocess.run(["mount", "-t", "overlay", "overlay", "-o", options, root], check=True)
    subprocess.run(["mount", "-t", "proc", "proc", f"{root}/proc"], check=True)
    subprocess.run(["mount", "--rbind", "/dev", f"{root}/dev"], check=True)
    for name in ("tmp", "dev/shm"):
        words = ["mount", "-t", "tmpfs", "-o", "mode=1777", "tmpfs", f"{root}/{name}"]
        subprocess.run(words, check=True)
    subprocess.run(["mount", "-t", "tmpfs", "-o", "mode=755", "tmpfs", f"{root}/run"], check=True)
    for name in ("etc/desk", "var/lib/desk", "etc/sudoers.d/desk"):
        subprocess.run(["rm", "-rf", f"{root}/{name}"], check=True)
    with open(f"{root}/usr/sbin/policy-rc.d", "w", encoding="utf-8") as file:
        file.write("#!/bin/sh\nexit 101\n")
    os.chmod(f"{root}/usr/sbin/policy-rc.d", 0o755)
    return root


def inside(fresh: str) -> None:
    subprocess.run(["ip", "link", "set", "lo", "up"], check=True)
    with tempfile.TemporaryDirectory() as folder:
        trial = Trial(furnish(folder, fresh))
        try:
            for part in (
                install, tools, tour, bad_starts, relay, behind_a_door, broker, traced, served,
                later_on,
            ):  # fmt: skip
                began = time.monotonic()
                part(trial)
                print(f"{part.__name__}: {time.monotonic() - began:.1f} s", flush=True)
        finally:
            subprocess.run(["umount", "--lazy", folder], check=True)
    print(f"the packages in a root of their own: {trial.checks} checks, {trial.wrong} wrong")
    sys.exit(1 if trial.wrong else 0)


def fresh_root() -> str:
    """The folder that FRESH names, with a root of debootstrap's; nothing where it names none."""
    folder = os.environ.get("FRESH", "")
    if folder and not os.path.exists(os.path.join(folder, "etc", "debian_version")):
        words = ["debootstrap", "--variant=minbase", f"--include={NEEDED}", "stable", folder]
        subprocess.run(words, check=True, stdout=subprocess.DEVNULL)
    return folder


def main() -> None:
    if os.geteuid() != 0:
        sys.exit("package-test needs root: it installs packages in a root of its own")
    words = ["unshare", "--mount", "--net", "--pid", "--ipc", "--uts", "--fork", "--kill-child"]
    # (the broker finds its own process below /proc)
    words += ["--mount-proc", "--propagation", "private", *desk.again()]
    sys.exit(subprocess.run([*words, "--inside", fresh_root()], check=False).returncode)


if __name__ == "__main__":
    if sys.argv[1:2] == ["--inside"]:
        inside(sys.argv[2])
    main()
