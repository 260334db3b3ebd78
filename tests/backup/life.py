"""One life of the machine that machines.sh boots: it is set up, or made again of its backups; then
three days go by, and it is lost. /run/out is what other machines keep: the backups, the hosts, a
second desk, and what the test knows."""

from __future__ import annotations

import json
import os
import re
import subprocess
import sys
import time
from typing import Any

OUT = "/run/out"
BACKUPS, HOSTS, SECOND = f"{OUT}/backups", f"{OUT}/hosts", f"{OUT}/second"
STATE, KEY = f"{OUT}/state.json", f"{OUT}/backup.key"
NAMES = ("db1", "web1")
DAYS, EACH = 3, 10
DAY = 86_400
PATIENCE = 240
FILES = ("/etc/desk/roster.toml", "/etc/desk/base.sudo")
MOMENTS = "/var/lib/desk/history/moments"
PEOPLE = ("desk", "desk-relay")
UNITS = ("desk", "desk-relay-post", "nginx")
# How each life ends: what others have of what came after the last backup.
ENDS = ("nobody", "second", "follow", "outbox", "late second", "at once")
DATED = re.compile(r"\S+ \S+ = \(\S+\) NOTBEFORE=")
ROSTER = """\
relays = ["chat"]
hosts = ["db1", "web1"]
duties = ["approve", "operate"]
conflicts = []

[people]
ann = ["operate"]
bob = ["approve"]
carol = ["operate"]
dave = ["approve"]

[ceilings.care]
ask = "operate"
approve = "approve"
needs = 1
hosts = ["db1", "web1"]
runas = ["root"]
commands = ["ALL"]
longest = 2592000
"""


def sh(script: str, given: str = "") -> subprocess.CompletedProcess[str]:
    words = ["bash", "-c", script]
    return subprocess.run(words, input=given, capture_output=True, text=True, check=False)


def read(path: str) -> str:
    with open(path, encoding="utf-8") as file:
        return file.read()


def write(path: str, text: str) -> None:
    os.makedirs(os.path.dirname(path), exist_ok=True)
    with open(path, "w", encoding="utf-8") as file:
        file.write(text)


def block(page: str, heading: str, at: int) -> str:
    """A block of commands of a page, as it stands there."""
    part = read(f"{OUT}/docs/{page}").split(f"\n## {heading}\n", 1)[1].split("\n## ", 1)[0]
    return str(re.findall(r"^```sh\n(.*?)^```$", part, re.MULTILINE | re.DOTALL)[at])


class Life:
    """What happens between two losses, and what the test knows of all lives."""

    def __init__(self) -> None:
        number, lives = map(int, read(f"{OUT}/life").split())
        self.number, self.lives = number, lives
        self.checks = self.wrong = 0
        self.known: dict[str, Any] = {"acked": [], "lost": [], "names": [], "gone": {}, "began": 0}
        if os.path.exists(STATE):
            self.known = json.loads(read(STATE))

    def check(self, what: str, is_right: bool, found: object = "") -> None:
        self.checks += 1
        if not is_right:
            self.wrong += 1
            print(f"life {self.number}, {what}: otherwise. {str(found)[-1200:]}", flush=True)

    def does(self, what: str, script: str, given: str = "") -> str:
        ran = sh(script, given)
        self.check(what, ran.returncode == 0, ran)
        return ran.stdout

    # ---- the machine

    def packages(self) -> None:
        """What the packages' installation does (the machine has no dpkg of them)."""
        for name in ("steelnewt", "steelnewt-relay", "steelnewt-door"):
            script = f"{OUT}/packaging/debian/{name}.postinst"
            self.does(f"{name} is installed", f"sh {script} configure")
        active = [it for it in UNITS if self.is_active(it)]
        self.check("nothing runs yet", not active, active)

    def is_active(self, unit: str) -> bool:
        return sh(f"systemctl is-active {unit}").stdout.strip() == "active"

    def set_up(self) -> None:
        """As OPERATING and RELAYS have it."""
        # (so that the last day of all is yesterday, and no right is over before it has to be)
        self.known["began"] = int(time.time()) - (self.lives * DAYS + 1) * DAY
        write(FILES[0], ROSTER)
        write(FILES[1], "dba ALL = (root) /usr/bin/id\n")
        ca = "sh /usr/share/doc/steelnewt/examples/front-ca.sh /etc/desk/front"
        made = " && ".join(f"{ca} host {it}" for it in NAMES)
        self.does("the authority", f"{ca} init && {ca} server desk.example && {made}")
        for name in NAMES:
            here = f"{HOSTS}/{name}"
            copied = f"cd /etc/desk/front && cp host-{name}.* ca.pem {here}"
            self.does("a host's key", f"mkdir -p {here} && {copied}")
        front = "/usr/share/doc/steelnewt/examples/nginx/desk.conf"
        self.does("the front", f"cp {front} /etc/nginx/conf.d/")
        self.does("its key", f"age-keygen -o {KEY} && mkdir -m 0700 {BACKUPS}")
        to = re.search("age1[a-z0-9]+", read(KEY))
        named = f'recipients = ["{to[0] if to else ""}"]\n'
        write("/etc/desk/backup.toml", f'dir = "/srv/desk-backup"\n{named}')
        self.does("a key of the machine", "ssh-keygen -q -A")
        self.mount()
        self.does("all is enabled", f"systemctl enable --now {' '.join(UNITS)}")
        self.does("nginx has its files", "systemctl restart nginx")
        last = block("OPERATING.md", "Backups", 0).splitlines()[-1]
        self.does("the backup is enabled", last)

    def mount(self) -> None:
        there = "/srv/desk-backup"
        self.does("the backups' disk", f"mkdir -p {there} && mount --bind {BACKUPS} {there}")

    def restored(self) -> None:
        """The runbook, from an empty root."""
        self.mount()
        how = ENDS[(self.number - 1) % len(ENDS)]
        write(f"{OUT}/listed", self.elsewhere(how))
        self.does("the key from the safe", f"cp {KEY} /root/backup.key")
        # (hosts and the second desk are other machines: what they have is below /run/out)
        stand_in = """ssh() {
    case $* in
        *"cat /var/lib/desk-host/"*) cat "/run/out/hosts/$1/$1.json" ;;
        *"cat /etc/sudoers.d/desk") cat "/run/out/hosts/$1/desk" ;;
        "desk2 curl"*) cat /run/out/listed ;;
        *) exit 9 ;;
    esac
}
"""
        begun = block("RESTORING.md", "The machine is lost", 0).replace("in db1;", "in db1 web1;")
        ran = sh(f"set -e\n{stand_in}{begun}")
        said = ran.stdout
        self.check("the restore", ran.returncode in (0, 1), ran)
        if "OPEN: " in said:
            early = [it for it in UNITS if self.is_active(it)]
            self.check("nothing starts while a revocation is open", not early, early)
            settled = block("RESTORING.md", "The machine is lost", 1)
            ran = sh(settled)
            said += ran.stdout
            self.check("settled", ran.returncode in (0, 1) and "OPEN: " not in ran.stdout, ran)
        for unit in UNITS:
            self.check(f"{unit} runs", self.is_active(unit), said)
        self.named(how, said)
        came = read(MOMENTS)
        self.check("the history is there", came == self.known["served"], came)
        ours = f"{ROSTER}# of life {self.number - 1}\n"
        self.check("and what was served", self.is_served() and read(FILES[0]) == ours, came)
        guards = sh("find /etc/systemd -name zz-restoring.conf").stdout
        self.check("every unit may start", not guards, guards)
        again = sh("desk-restore /srv/desk-backup --identity /root/backup.key")
        is_refused = again.returncode == 2 and "desk.service runs: a machine that" in again.stderr
        self.check("a machine that serves is not restored", is_refused, again)

    def elsewhere(self, how: str) -> str:
        """What the second desk has, and what the relay on another machine sent."""
        return read(f"{OUT}/second.listed") if "second" in how or how == "outbox" else ""

    def named(self, how: str, said: str) -> None:
        """What is not there is named, and what somebody had is there."""
        held = set(self.listed())
        lost = [it for it in self.known["acked"] if it not in held]
        if how in ("second", "follow", "outbox", "at once"):
            self.check(f"{how}: 0 acknowledged messages are lost", not lost, lost)
        count = len(self.known["acked"])
        print(f"life {self.number} ({how}): {len(lost)} of {count} are lost", flush=True)
        unnamed = [it for it in lost if not self.is_named(it, said)]
        self.check(f"{how}: each that is lost is named", not unnamed, (unnamed, said))
        counted = re.findall(r"^LOST: (\w+) has heard of .*: (\d+) are in no source$", said, re.M)
        by_host = {host: int(left) for host, left in counted}
        wanted = dict.fromkeys(NAMES, len(lost)) if lost else {}
        self.check(f"{how}: they are counted", by_host == wanted, (len(lost), said))
        self.known["acked"] = [it for it in self.known["acked"] if it in held]
        self.known["lost"] += lost

    def is_named(self, message: str, said: str) -> bool:
        """Whether a lost message is behind its asker's last number, or is named by its request. (A
        verdict on a right that is over changes nothing on any host, so it is only counted.)"""
        told = json.loads(message)
        who = told.get("of", told["by"])
        last = re.search(rf"^{who} asked up to {who} (\d+):", said, re.M)
        if told["no"] > (int(last[1]) if last else 0) or f"{who} {told['no']}:" in said:
            return True
        return self.until(who, told["no"]) < time.strftime("%Y%m%d%H%M%SZ", time.gmtime())

    def until(self, who: str, no: int) -> str:
        """When the right ends that a request asks for."""
        for message in self.known["acked"]:
            told = json.loads(message)
            if told["kind"] == "request" and (told["by"], told["no"]) == (who, no):
                return str(told["until"])
        return ""

    # ---- a day

    def listed(self) -> list[str]:
        words = "curl -sSf --unix-socket /run/desk/desk.sock http://desk/v1/messages"
        return self.does("what the desk holds", words).splitlines()

    def day(self, number: int) -> None:
        """Ten messages by the relay's outbox and its unit that posts, and a fetch of each host."""
        at = self.known["began"] + number * DAY
        words = f"cd {OUT} && setpriv --reuid desk-relay --regid desk-relay --init-groups"
        said = self.does(f"day {number}", f"{words} /usr/bin/python3 -m tests.backup.speak {at}")
        told = json.loads(said or '{"messages": [], "names": []}')
        twice = [it for it in told["names"] if it in self.known["names"]]
        self.check("no number twice", not twice, twice)
        self.known["names"] += told["names"]
        self.known["acked"] += told["messages"]
        self.check("each is acknowledged", len(told["messages"]) == EACH, told)
        self.fetch()

    def fetch(self) -> None:
        for name in NAMES:
            here = f"{HOSTS}/{name}"
            before = self.lines(name)
            words = f"--cert {here}/host-{name}.pem --key {here}/host-{name}.key --ca {here}/ca.pem"
            words += f" --state {here} https://desk.example {name} {here}/desk"
            ran = sh(f"desk-host fetch {words}")
            behind = "holds" in ran.stdout + ran.stderr
            self.check(f"{name} fetches, or keeps what it has", ran.returncode == 0 or behind, ran)
            self.check(f"{name}: visudo -c", sh(f"visudo -cf {here}/desk").returncode == 0)
            now, gone = self.lines(name), set(self.known["gone"].get(name, []))
            back = now & gone
            self.check(f"{name} never goes back", not back, back)
            self.known["gone"][name] = sorted(gone | before - now)

    def lines(self, name: str) -> set[str]:
        path = f"{HOSTS}/{name}/desk"
        found = read(path).splitlines() if os.path.exists(path) else []
        return {it for it in found if DATED.match(it)}

    def feed(self) -> None:
        """The second desk has what the first one has now."""
        write(f"{OUT}/second.listed", "".join(f"{it}\n" for it in self.listed()))

    def live(self) -> None:
        """Three days; the backup is taken by its unit, and then more comes."""
        how = ENDS[self.number % len(ENDS)]
        first = self.number * DAYS
        verb = "start" if how == "follow" else "stop"
        self.does(f"desk-follow: {verb}", f"systemctl {verb} desk-follow")
        self.day(first + 1)
        self.day(first + 2)
        if how == "late second":
            self.feed()
        if how == "at once":
            self.day(first + 3)
        self.change_roster()
        self.does("the backup", "systemctl start desk-backup.service")
        self.known["served"] = read(MOMENTS)
        if how != "at once":
            self.day(first + 3)
        if how == "outbox":
            # (as if the relay were on another machine)
            words = "setpriv --reuid desk-relay --regid desk-relay --init-groups desk-relay sent"
            write(f"{OUT}/second.listed", self.does("what was sent", words))
        if how == "second":
            self.feed()
        if how == "follow":
            self.wait_for_said()
        self.does("the drill", "systemctl start desk-drill.service")
        still = sh("pgrep -f 'serve /var/lib/desk-backup/drill'").stdout
        self.check("the drill's desk ends", not still, still)
        words = f"--desk unix:/run/desk/desk.sock --backup {BACKUPS}"
        checked = sh(f"/usr/lib/nagios/plugins/check_desk {words}")
        self.check("check_desk", checked.returncode == 0, checked)

    def change_roster(self) -> None:
        """Another roster is served, as RUNBOOKS has it; no grant changes."""
        write("/root/new.toml", f"{ROSTER}# of life {self.number}\n")
        words = f"desk-change-roster /root/new.toml --yes --why 'life {self.number}'"
        said = self.does("a roster is changed", words)
        self.check("it is served", "serves the new roster" in said, said)
        self.check("and is in the history", self.is_served(), read(MOMENTS))

    def is_served(self) -> bool:
        """Whether the history's last moment has the roster that is in its place."""
        last = read(MOMENTS).splitlines()[-1].split(" ")[0]
        return read(f"/var/lib/desk/history/{last}/roster.toml") == read(FILES[0])

    def wait_for_said(self) -> None:
        until, last = time.monotonic() + PATIENCE, self.known["acked"][-1]
        while time.monotonic() < until:
            if sh(f"cat {BACKUPS}/said-*").stdout.find(last) >= 0:
                return
            time.sleep(0.2)
        self.check("what is said is written", False, sh("systemctl status desk-follow"))

    def end(self) -> None:
        """The machine is lost: no unit is stopped, and nothing of it stays."""
        write(STATE, json.dumps(self.known))
        count = len(self.known["acked"]), len(self.known["lost"]), len(self.known["names"])
        write(f"{OUT}/summary", "a machine that is lost, %d times: %d messages held, %d lost and"
              " named, %d numbers, none twice\n" % (self.number, *count))
        print(f"life {self.number}: {self.checks} checks, {self.wrong} wrong", flush=True)


def main() -> int:
    life = Life()
    life.packages()
    if life.number == 0:
        life.set_up()
    else:
        life.restored()
    if life.number < life.lives:
        life.live()
    else:
        life.fetch()
    life.end()
    return 0


if __name__ == "__main__":
    sys.exit(main())
