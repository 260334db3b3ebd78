"""The package steelnewt-relay in package_test.py's root: installed, used, upgraded, removed."""

import os
import re
import subprocess
import time
from typing import TYPE_CHECKING

from tests.packages import service

if TYPE_CHECKING:
    from tests.packages.package_test import Trial

ASK = "ask db-care --on db1 --as root --for 1h --why disk full --yes /usr/bin/id"
FOLDER = "/var/lib/desk-relay"
OUTBOX, KEYS = f"{FOLDER}/outbox.db", f"{FOLDER}/.ssh/authorized_keys"
PAGE_KEYS = ("page.secret", "page.key", "page.front", "page.apache")
FRONTS = ("desk-page.conf", "desk-page-gssapi.conf", "desk-page-openidc.conf")
AS_RELAY = ["setpriv", "--reuid", "desk-relay", "--regid", "desk-relay", "--init-groups"]
NOTIFY = """
[notify]
program = ["/usr/bin/tee", "-a", "/var/lib/desk-relay/told"]
"""
# What somebody would do who has the page: their own key, in a folder of theirs.
TAKE = f"""cd {FOLDER} && touch probe && rm probe && echo it may write here
mv .ssh taken && mkdir .ssh && echo ssh-ed25519 AAAA > .ssh/authorized_keys
echo ssh-ed25519 AAAA >> .ssh/authorized_keys"""
PATIENCE = 180  # seconds: the machine may be busy


def modes(trial: "Trial", *names: str) -> str:
    return trial.run("stat", "-c", "%n %U:%G %a", *names).stdout


def call(trial: "Trial", person: str, line: str) -> tuple[int, str]:
    """A call as sshd makes it: the command of the person's key, by the account's shell."""
    for row in trial.read(KEYS).splitlines():
        if found := re.search(rf'command="([^"]* --person {person} [^"]*)"', row):
            shell = ["env", f"SSH_ORIGINAL_COMMAND={line}", "sh", "-c", found[1]]
            ran = trial.run(*AS_RELAY, *shell)
            return ran.returncode, ran.stdout
    return 255, "no key"


def installed(trial: "Trial") -> None:
    """What the package put in place, whose it is, and who may call."""
    trial.does("the relay's account", "getent", "passwd", "desk-relay", says=f":{FOLDER}:/bin/sh$")
    said = modes(trial, FOLDER, f"{FOLDER}/.ssh", *(f"/etc/desk/{it}" for it in PAGE_KEYS))
    wanted = f"{FOLDER} desk-relay:desk-relay 700\n{FOLDER}/.ssh root:root 755\n"
    wanted += "".join(f"/etc/desk/page.{it} desk-relay:root 600\n" for it in ("secret", "key"))
    wanted += "".join(f"/etc/desk/page.{it} root:root 600\n" for it in ("front", "apache"))
    trial.check("whose it is", said == wanted, said)
    secret = trial.read("/etc/desk/page.secret").strip()
    lines = [trial.read(f"/etc/desk/page.{it}") for it in ("front", "apache")]
    is_right = lines[0] == f"proxy_set_header X-Desk-Front {secret};\n"
    is_right &= lines[1] == f"RequestHeader set X-Desk-Front {secret}\n"
    trial.check("the front's lines", is_right)
    for name in ("ann", "bob"):
        trial.run("ssh-keygen", "-q", "-t", "ed25519", "-N", "", "-f", f"/tmp/{name}")
        add = ["desk-relay-person", "add", name, f"/tmp/{name}.pub"]
        trial.does(f"{name} may call", *add, says="may call with SHA256")
    early = ["/usr/share/steelnewt-relay/relays/desk-relay", "--help"]
    trial.does("a key's line of an earlier version", *early, says="^usage: desk-relay ")
    held = "ls -A /tmp /run"
    demo = ["sh", "-c", f"{held} > /root/held; desk-demo && {held} | diff /root/held -"]
    trial.does("the demo, without a service", *demo, says="\nann 1  granted ")
    pages = ("man1/desk-demo.1", "man1/desk-relay.1", "man5/desk-relay.toml.5")
    for page in (*pages, "man8/desk-relay-person.8"):
        trial.does(page, "test", "-s", f"/usr/share/man/{page}.gz")
    mime = trial.run("sh", "-c", "ls /usr/share/doc/steelnewt-relay/examples").stdout
    for name in (*FRONTS, "front-ca.sh"):
        trial.check(f"the example {name}", f"{name}\n" in mime, mime)


def keys_stay(trial: "Trial", name: str) -> None:
    """Whatever runs in a unit lets nobody call: it puts no folder in the place of root's, and adds
    nothing to that."""
    before = trial.read(KEYS)
    taking = service.start(trial.root, name, before=["sh", "-c", TAKE])
    said = taking.communicate(timeout=PATIENCE)[0]
    is_kept = trial.read(KEYS) == before and not os.path.exists(trial.path(f"{FOLDER}/taken"))
    is_refused = "Device or resource busy" in said and "it may write here" in said
    trial.check(f"{name}: the keys stay", is_kept and is_refused, said)


def used(trial: "Trial") -> None:
    """The relay's units beside a desk that serves: asked, told, approved, seen on the page."""
    units = [f"desk-relay-{it}.service" for it in ("post", "notify", "page")]
    for each in units:
        keys_stay(trial, each)
    folders = service.make_runtime(trial.root, "desk-relay-page.service")
    trial.write("/etc/desk/relay.toml", trial.read("/etc/desk/relay.toml") + NOTIFY)
    running = [service.start(trial.root, it) for it in units]
    try:
        until = time.monotonic() + PATIENCE
        page = trial.path("/run/desk-relay/page.sock")
        while not (os.path.exists(page) and is_told_from(trial)) and time.monotonic() < until:
            time.sleep(0.2)
        status, said = call(trial, "ann", ASK)
        trial.check("ann asks", status == 0 and "Kept as ann 1." in said, f"{status}: {said}")
        status, said = call(trial, "bob", "approve ann 1 --yes")
        trial.check("bob approves", status == 0 and "It is in force" in said, f"{status}: {said}")
        secret = trial.read("/etc/desk/page.secret").strip()
        words = ["curl", "-sS", "--unix-socket", "/run/desk-relay/page.sock", "http://page/"]
        words += ["-H", f"X-Desk-Front: {secret}", "-H", "X-Desk-Person: ann"]
        front = ["setpriv", "--reuid", "www-data", "--regid", "www-data", "--init-groups"]
        trial.does("the page, by the front's account", *front, *words, says="It is in force")
        trial.does("and by nobody", "setpriv", "--reuid", "nobody", "--regid", "nogroup",
                   "--clear-groups", *words, status=7)  # fmt: skip
        told, until = "", time.monotonic() + PATIENCE
        while told.count('"disk full"') < 2 and time.monotonic() < until:
            time.sleep(0.2)
            told = trial.run("cat", f"{FOLDER}/told").stdout
        # (whoever approves is not told what they did)
        kinds = re.findall(r'"event": "([a-z-]+)"', told)
        trial.check("they are told", kinds == ["asked", "granted"], told)
        line = trial.run(*AS_RELAY, "desk-relay", "reasons").stdout
        trial.check("the evidence", '"why": "disk full"' in line, line)
    finally:
        for each in running:
            each.terminate()
        ends = [each.communicate(timeout=PATIENCE)[0] for each in running]
        service.remove(folders)
    trial.check("its units end", not any("Traceback" in it for it in ends), "\n".join(ends))


def is_told_from(trial: "Trial") -> bool:
    """Whether the unit that tells people has begun."""
    if not os.path.exists(trial.path(OUTBOX)):
        return False
    return "told_from" in trial.run("sqlite3", OUTBOX, ".tables").stdout


def later_on(trial: "Trial", deb: str, later: str) -> None:
    """Upgraded, removed, installed again and purged: what people confirmed stays."""
    keys = [trial.read(f"/etc/desk/{it}") for it in PAGE_KEYS]
    dpkg = ["dpkg", "--force-unsafe-io", "--no-triggers"]
    # (as an earlier version wrote them: the upgrade names each line's key)
    trial.write(KEYS, re.sub(' --key [^"]*', "", trial.read(KEYS)))
    for what, words, is_there in (
        ("upgrade", ["--force-confdef", "--force-confold", "-i", later], True),
        ("remove", ["-r", "steelnewt-relay"], False),
        ("install again", ["--force-confold", "-i", deb], True),
    ):
        said = trial.does(f"relay: {what}", *dpkg, *words)
        same = [trial.read(f"/etc/desk/{it}") for it in PAGE_KEYS] == keys
        kept = os.path.exists(trial.path(OUTBOX))
        kept = kept and "[notify]" in trial.read("/etc/desk/relay.toml")
        trial.check(f"relay: {what}: all of it stays", same and kept, said)
        status, said = call(trial, "ann", "help")
        is_right = status == 0 and "You are ann" in said if is_there else status == 127
        trial.check(f"relay: {what}: a call", is_right, f"{status}: {said}")
        left = os.path.exists(trial.path("/usr/lib/python3/dist-packages/steelnewt_relay"))
        trial.check(f"relay: {what}: its programs", left == is_there)
    said = trial.does("relay: purge", *dpkg, "-P", "steelnewt-relay")
    gone = [f"/etc/desk/{it}" for it in (*PAGE_KEYS, "relay.toml")] + [KEYS]
    is_gone = not any(os.path.exists(trial.path(it)) for it in gone)
    is_kept = os.path.exists(trial.path(OUTBOX)) and f"stays in {FOLDER}" in said
    trial.check("relay: purge: what goes and what stays", is_gone and is_kept, said)
    subprocess.run(["rm", "-rf", trial.path(FOLDER)], check=True)
