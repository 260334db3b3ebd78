"""The package steelnewt-broker in package_test.py's root: its programs between a real broker and a
desk that serves, the consumer as its unit says; then upgraded, removed, purged."""

import json
import os
import pathlib
import subprocess
import tempfile
import time
from collections.abc import Callable
from typing import TYPE_CHECKING

from tests.common import outsider
from tests.packages import service, syscalls
from tests.several.nodes import Cluster
from tests.several.programs import programs

if TYPE_CHECKING:
    from tests.packages.package_test import Trial

UNIT = "desk-consume@.service"
PROGRAMS = ("consume", "publish", "refused", "fill", "snapshot", "compare", "check-queues")
NAMES = [f"desk-{it}" for it in (*PROGRAMS, "broker-definitions")]
CONF, PASSWORD = "/etc/desk/broker.conf", "/etc/desk/consume-a.password"
STORE, SOCKET = "/var/lib/desk/desk.db", "unix:/run/desk/desk.sock"
EXAMPLES = "/usr/share/doc/steelnewt/examples"
TRACES = "/var/lib/consume-traces"
COLUMNS = ("name", "messages", "consumers", "online", "--formatter", "json")
PATIENCE = 180  # seconds: the machine may be busy


def installed(trial: "Trial") -> None:
    """Each program answers an account that is nobody's, and has its page."""
    for name in NAMES:
        trial.does(name, *outsider.NOBODY, name, "--help", says=f"^usage: {name} ")
        trial.does(f"{name}(1)", "test", "-s", f"/usr/share/man/man1/{name}.1.gz")
    trial.does("desk-broker(7)", "test", "-s", "/usr/share/man/man7/desk-broker.7.gz")
    listed = trial.run("ls", "/usr/share/doc/steelnewt-broker/examples").stdout.split()
    trial.check("the broker's settings", listed == ["rabbitmq.conf", "tls.conf"], str(listed))


def until_so(trial: "Trial", what: str, ask: Callable[[], str], says: str) -> str:
    """Asks until the answer has this in it."""
    until = time.monotonic() + PATIENCE
    while says not in (said := ask()) and time.monotonic() < until:
        time.sleep(0.2)
    trial.check(what, says in said, said)
    return said


def as_account(name: str) -> list[str]:
    return ["env", f"BROKER_PASSWORD_FILE=/tmp/passwords/{name}"]


def set_up(trial: "Trial", cluster: Cluster, folder: str) -> None:
    """What docs/SEVERAL.md has an administrator do, for one desk and one relay."""
    trial.run("install", "-d", "-m", "0700", "/tmp/passwords")
    words = ["--desks", "a", "--relays", "chat", "--passwords", "/tmp/passwords"]
    made = trial.does("definitions", "desk-broker-definitions", *words, says='"desk.messages"')
    path = pathlib.Path(folder, "definitions.json")
    path.write_text(made, encoding="utf-8")
    cluster.control("import_definitions", str(path))
    trial.write(CONF, f"# ours\nBROKERS={cluster.addresses()}\n")
    trial.run("install", "-m", "0600", "/tmp/passwords/desk-a", PASSWORD)


def queues(trial: "Trial", cluster: Cluster) -> str:
    rows = cluster.control("list_queues", *COLUMNS)
    return trial.run("desk-check-queues", "--replicas", "1", given=rows).stdout


def published(trial: "Trial", cluster: Cluster) -> None:
    """A relay's messages reach the desk; what it refuses is read, and put by once it was."""
    messages = trial.read(f"{EXAMPLES}/approved.messages")
    words = [*as_account("relay-chat"), "desk-publish", "chat"]
    trial.does("published", *words, given=messages + "{}\n", says="^(confirmed\n){3}$")
    file = outsider.curl(SOCKET, "/v1/hosts/db1/sudoers")
    wanted = "NOTAFTER=20260105110000Z /usr/bin/id\n"
    until_so(trial, "it is in force", lambda: trial.run(*file).stdout, wanted)
    reader = [*as_account("refused-reader"), "desk-refused"]
    said = until_so(trial, "refused", lambda: trial.run(*reader).stdout, '"code"')
    row = json.loads(said.splitlines()[0]) if said.startswith("{") else {}
    told = [row.get(it) for it in ("body", "desk", "relay")]
    trial.check("what was refused", told == ["{}", "a", "chat"], said)
    told = "desk.refused: 1 messages were refused"
    until_so(trial, "the check tells of it", lambda: queues(trial, cluster), told)
    trial.does("it is taken off", *reader, "--take", says='"code"')
    told = "3 queues, nothing is wrong"
    until_so(trial, "the check is content", lambda: queues(trial, cluster), told)


def copied(trial: "Trial") -> None:
    """The messages of the desk that serves, listed, posted again and compared."""
    wanted = sorted(trial.read(f"{EXAMPLES}/approved.messages").splitlines())
    said = trial.does("snapshot", "desk-snapshot", STORE)
    trial.check("all of it", said.splitlines() == wanted, said)
    trial.does("fill", "desk-fill", SOCKET, "chat", given=said, says="^2 taken, 0 refused\n$")
    for name in ("a", "b"):
        trial.write(f"/tmp/{name}.messages", trial.run("desk-snapshot", STORE).stdout)
    words = ["desk-compare", "messages", "a=/tmp/a.messages", "b=/tmp/b.messages"]
    trial.does("compare messages", *words, says="they agree\n$")
    words = ["desk-compare", "answers", "/etc/desk/roster.toml", SOCKET, SOCKET]
    trial.does("compare answers", *words, says="they agree\n$")


def used(trial: "Trial") -> None:
    """All of it, with the consumer as its unit says; it makes no call that this does not allow."""
    os.mkdir(trial.path(TRACES))
    os.chmod(trial.path(TRACES), 0o777)
    strace = ["strace", "-f", "-qq", "-o", f"{TRACES}/trace"]
    with tempfile.TemporaryDirectory() as folder, programs() as started:
        cluster = Cluster(pathlib.Path(folder), started, 1)
        cluster.start()
        set_up(trial, cluster, folder)
        lacking = service.start(trial.root, UNIT, "a", extra={"BROKERS": ""})
        said, _ = lacking.communicate(timeout=PATIENCE)
        is_right = lacking.returncode == 2 and "BROKERS is not set" in said
        trial.check("a setting is missing", is_right, said)
        consumer = service.start(trial.root, UNIT, "a", strace, more=(TRACES,))
        try:
            published(trial, cluster)
            copied(trial)
        finally:
            pid = trial.read(f"/proc/{consumer.pid}/task/{consumer.pid}/children").split()[0]
            trial.run("kill", pid)
            said, _ = consumer.communicate(timeout=PATIENCE)
    is_right = consumer.returncode == 0 and "desk a: connected to" in said
    trial.check("it ends", is_right and "desk a: ended" in said and "Traceback" not in said, said)
    allowed = syscalls.allowed(service.settings_of(trial.root, UNIT)["SystemCallFilter"])
    made = syscalls.traced(trial.path(f"{TRACES}/trace"))
    beyond = made - allowed
    trial.check("its system calls", not beyond and "connect" in made, f"not let through: {beyond}")
    subprocess.run(["rm", "-rf", trial.path(TRACES), trial.path(service.CREDENTIALS)], check=True)


def later_on(trial: "Trial", deb: str, later: str) -> None:
    """Upgraded, removed, installed again and purged: what an administrator wrote stays, and the
    purge names what it leaves."""
    dpkg = ["dpkg", "--force-unsafe-io", "--no-triggers"]
    for what, words, is_there in (
        ("upgrade", ["--force-confdef", "--force-confold", "-i", later], True),
        ("remove", ["-r", "steelnewt-broker"], False),
        ("install again", ["--force-confold", "-i", deb], True),
    ):
        said = trial.does(f"broker: {what}", *dpkg, *words)
        kept = trial.read(CONF).startswith("# ours\n") and os.path.exists(trial.path(PASSWORD))
        trial.check(f"broker: {what}: its settings stay", kept, said)
        status = trial.run("desk-publish", "--help").returncode
        left = os.path.exists(trial.path("/usr/lib/python3/dist-packages/desk_broker"))
        is_right = (status == 0) == is_there == left
        trial.check(f"broker: {what}: its programs", is_right, f"status {status}")
    said = trial.does("broker: purge", *dpkg, "-P", "steelnewt-broker")
    is_gone = not os.path.exists(trial.path(CONF)) and os.path.exists(trial.path(PASSWORD))
    trial.check("broker: purge", is_gone and f"{PASSWORD} stays: remove it" in said, said)
    os.unlink(trial.path(PASSWORD))
