#!/usr/bin/env python3
"""Follows docs/RUNBOOKS.md over build/desk, or the program that DESK names: each block of commands
is run as it stands there, and its output is compared with the page.

It is done in a root of its own, this machine's under an overlay that is thrown away, with
namespaces for mounts, processes and network. The service is `desk-serve` as the unit's account;
`systemctl`, `ssh db1`, `ssh desk`, `sendmail`, `apt install` and the editor are stand-ins
(STAND_INS), all else is Debian's: a block that the page has and nothing here runs is a fault. (On
machines that boot, systemd, apt and ssh are real: tests/machines/books.py.) Needs root, and
Debian's packages sudo, faketime, curl, nginx-light, openssl and iproute2; what the relay needs it
installs.
"""

from __future__ import annotations

import os
import re
import shutil
import socket
import subprocess
import sys
import tempfile
import time

from tests.common import desk
from tests.common.sudo_peer import host_program
from tests.packages.package_test import furnish

SECOND = "\n## A second desk\n"
# (and the one of docs/SEVERAL.md)
PAGE = desk.read("docs", "RUNBOOKS.md")
PAGE += SECOND + desk.read("docs", "SEVERAL.md").split(SECOND)[1]
PROGRAM = os.path.abspath(os.environ.get("DESK", desk.PROGRAM[0]))
BOOK = "/runbooks"  # the folder of the stand-ins
HERE = "/var/lib/desk"
PATH = f"{BOOK}:/usr/local/bin:/usr/sbin:/usr/bin:/sbin:/bin"
HOUR = 3_600
TIMED = "/etc/cron.d/feed-desk"
DOC = "/usr/share/doc/steelnewt/examples"
PATIENCE = 600  # the seconds after which something hangs: the machine may be busy
FILES = ("/etc/desk/roster.toml", "/etc/desk/base.sudo")
SOCKET = "/run/desk/desk.sock"
ROOTS = "/etc/desk/roots"  # a file that is root's alone, and that the account `desk` would like
FRONT_CA = "sh /usr/local/bin/front-ca.sh /etc/desk/front"
STAND_INS = {
    # the service, started as its unit starts it; INSTANCE, STORE and ADDR make a second one
    "systemctl": """#!/bin/bash
pid=/run/${INSTANCE:-desk}.pid log=/run/${INSTANCE:-desk}.log
door=/etc/systemd/system/desk.service.d/door.conf
state() { sed -n 's/^State:\\s*//p' "/proc/$1/status" 2> /dev/null | cut -c 1; }
runs() { case $(state "$1") in '' | Z) return 1 ;; esac; }
stop() {
    [ -e "$pid" ] || return 0
    kill -TERM "$(cat "$pid")"
    for _ in $(seq 1200); do runs "$(cat "$pid")" || break; sleep 0.1; done
    rm "$pid"
}
start() {
    : > "$log"
    [ -d /run/desk ] || install -d -o desk -g desk-front -m 0750 /run/desk
    [ -n "$ADDR" ] || [ ! -e /etc/desk/serve.conf ] || . /etc/desk/serve.conf
    [ ! -e "$door" ] || $(sed -n 's/^ExecStartPre=+//p' "$door")
    setsid setpriv --reuid desk --regid desk-front --groups desk env "PATH=$PATH" \\
        "STORE=$STORE" "ADDR=$ADDR" "QUESTIONS=$QUESTIONS" \\
        /usr/local/bin/desk-serve > "$log" 2>&1 < /dev/null &
    echo $! > "$pid"
    for _ in $(seq 1200); do
        grep -q 'listening at' "$log" && return 0
        runs "$(cat "$pid")" || break
        sleep 0.1
    done
    cat "$log" >&2
    return 1
}
reload() {
    setpriv --reuid desk --regid desk-front --groups desk /usr/local/bin/desk-serve --base &&
        kill -HUP "$(cat "$pid")"
}
halt() {
    # (`nginx -t` leaves an empty one)
    [ -s /run/nginx.pid ] || return 0
    nginx -s stop
    for _ in $(seq 600); do [ -e /run/nginx.pid ] || break; sleep 0.1; done
}
relay() { # a job of the relay's
    [ ! -e "/run/relay-$1.pid" ] || kill "$(cat "/run/relay-$1.pid")"
    setsid setpriv --reuid desk-relay --regid desk-relay --init-groups env -i PATH=/usr/bin:/bin \\
        /usr/local/bin/desk-relay "$1" --every 0.2 >> /tmp/relay.log 2>&1 < /dev/null &
    echo $! > "/run/relay-$1.pid"
}
case $* in
    'start desk-relay-post') relay post ;;
    'enable desk-relay-notify') ;;
    'restart desk-relay-notify') relay notify ;;
    'stop desk') stop ;;
    'start desk') start ;;
    'restart desk') stop; start ;;
    'reload desk') reload ;;
    'stop nginx') halt ;;
    'start nginx') nginx ;;
    'restart nginx') halt; nginx ;;
    'start desk-fetch@db1') desk-host fetch db1 ;;
    *) echo "systemctl: it is not known here: $*" >&2; exit 9 ;;
esac
""",
    # the host db1 is this machine; at desk, the relay is called as sshd does by the person's key
    "ssh": """#!/bin/bash
key=/root/ann
while [ "$1" = -o ]; do options+=" $2"; shift 2; done
if [ "$1" = -i ]; then
    # (an agent's keys are offered before a file's, but for these two)
    [ "$options" = ' IdentitiesOnly=yes IdentityAgent=none' ] && key=$2
    shift 2
fi
if [ "$1" = desk ]; then
    shift
    keys=/var/lib/desk-relay/.ssh/authorized_keys
    line=$(grep -F "$(cut -d ' ' -f 2 "$key.pub")" "$keys") || { echo denied; exit 255; }
    command=${line#*command=\\"}
    SSH_ORIGINAL_COMMAND="$*" setpriv --reuid desk-relay --regid desk-relay --init-groups \\
        sh -c "${command%%\\"*}"
    exit
fi
[ "$1" = db1 ] || exit 9
shift
if [ "$1" = sudo ]; then shift; exec /usr/bin/sudo -h db1 "$@"; fi
exec "$@"
""",
    "editor": f'#!/bin/sh\ncp {BOOK}/new.toml "$1"\n',
    # the package's upgrade restarts the service
    "apt": '#!/bin/sh\n[ "$1" = install ] && exec systemctl restart desk\n',
}


def section(heading: str) -> str:
    """What stands under a heading."""
    return PAGE.split(f"\n## {heading}\n", 1)[1].split("\n## ", 1)[0]


def blocks(text: str, kind: str) -> list[str]:
    """The blocks of a kind in a text, without their fences."""
    return re.findall(rf"^```{kind}\n(.*?)^```$", text, re.MULTILINE | re.DOTALL)


PREAMBLE = blocks(PAGE, "sh")[0]


class Room:
    """The root, what was tried in it, and which blocks of the page were run."""

    def __init__(self, root: str) -> None:
        self.root = root
        self.tried = self.wrong = 0
        self.done = {PREAMBLE}

    def holds(self, what: str, is_right: bool, found: object = "") -> None:
        self.tried += 1
        if not is_right:
            self.wrong += 1
            print(f"{what}: {str(found)[-600:]}", flush=True)

    def says(self, heading: str, *sentences: str) -> None:
        """The page says so, and with it what is tried here."""
        text = " ".join(section(heading).split())
        for sentence in sentences:
            self.holds(f"{heading}: it no longer says {sentence!r}", sentence in text)

    def path(self, name: str) -> str:
        return self.root + name

    def write(self, name: str, text: str, mode: int = 0o644) -> None:
        with open(self.path(name), "w", encoding="utf-8") as file:
            file.write(text)
        os.chmod(self.path(name), mode)

    def read(self, name: str) -> str:
        with open(self.path(name), encoding="utf-8") as file:
            return file.read()

    def run(self, script: str, **more: str) -> desk.Run:
        """Runs a script in the root, as its administrator."""
        held = {"PATH": PATH, "LC_ALL": "C", "TZ": "UTC", "HOME": "/root", **more}
        given = [f"{name}={value}" for name, value in held.items()]
        words = ["chroot", self.root, "env", "-i", *given, "bash", "-c", script]
        return desk.run(words, "", PATIENCE)

    def follow(self, heading: str, at: int, before: str = "", **more: str) -> desk.Run:
        """Runs a block of the page behind its first lines."""
        block = blocks(section(heading), "sh")[at]
        self.done.add(block)
        return self.run(f"{PREAMBLE}{before}\n{block}", **more)

    def text(self, route: str, path: str = SOCKET) -> str:
        """What the desk answers to a question."""
        return self.run(f"curl -sS -m 60 --unix-socket {path} http://desk{route}").stdout

    def post(self, *messages: str) -> list[str]:
        """What the desk answers to messages."""
        answers = []
        for message in messages:
            self.write(f"{BOOK}/message", message)
            ask = f"curl -sS --unix-socket {SOCKET} http://desk/v1/relays/chat/messages"
            answers.append(self.run(f"{ask} --data-binary @{BOOK}/message").stdout)
        return answers

    def may(self, command: str, before: str = "") -> bool:
        """Whether sudo lets ann run a command as root on db1, by this machine's files."""
        words = f"{before} sudo -n -l -U ann -h db1 -u root -- {command}"
        return self.run(words).returncode == 0

    def begin(self, *messages: str) -> None:
        """A desk of examples/ anew, with these messages."""
        self.run(
            f"systemctl stop desk; rm -rf {HERE} /root/* /etc/sudoers.d/desk /var/lib/desk-host;"
            f" install -d -m 0700 -o desk -g desk {HERE};"
            f" echo root > {ROOTS} && chmod 0600 {ROOTS}"
            # (whoever has the account plants a link where a page's line may take hold of it)
            f" && runuser -u desk -- ln -s {ROOTS} {HERE}/desk.db-x"
        )
        for name, source in zip(FILES, (desk.ROSTER, desk.BASE), strict=True):
            shutil.copy(source, self.path(name))
        started = self.run("systemctl start desk")
        self.holds("the desk starts", started.returncode == 0, started.stderr)
        answers = self.post(*messages)
        self.holds("it takes what it is told", answers == ["ack\n"] * len(messages), answers)


def near(hours: float) -> str:
    return desk.stamp(time.time() + hours * HOUR)


def granted_now() -> tuple[str, str]:
    """A request of an hour on either side of now, and its approval."""
    asked = desk.request(**{"at": near(-3), "from": near(-1), "until": near(0.9)})
    return asked, desk.approval(at=near(-2))


def listed(messages: tuple[str, ...] | list[str]) -> str:
    """Messages as the desk lists them."""
    return "".join(sorted(message + "\n" for message in messages))


def with_lines(lines: str) -> str:
    """The roster of examples/, in which these lines stand for those people."""
    text = desk.read("examples", "roster.toml")
    for line in lines.splitlines():
        name = line.split(" = ")[0]
        text, found = re.subn(rf"^{name} = .*$", lambda _: line, text, flags=re.MULTILINE)
        assert found == 1, line
    return text


SAYS_YES = 'desk-change-roster() { echo y | command desk-change-roster "$@"; }\n'


def change(room: Room, roster: str) -> desk.Run:
    """The runbook's one command, and a person who says yes."""
    room.write(f"{BOOK}/new.toml", roster)
    return room.follow("A roster is changed", 0, SAYS_YES)


def by_one_command(room: Room) -> None:
    asked, approved = granted_now()
    room.begin(asked, approved)
    old, new = room.read(FILES[0]), with_lines("bob = []")
    before = room.text(f"/v1/grants/{near(0)}")
    room.says("A roster is changed", "it shows which grants", "If it ends with status 3")
    done = change(room, new)
    room.holds("it is changed", done.returncode == 0, done)
    shown = re.search(r"ENDS\nann 7 .*\n(?s:.*) bob counts no more \(duty\)\n", done.stdout)
    room.holds("what ends", shown is not None, done)
    room.holds("it is there", room.read(FILES[0]) == new)
    room.holds("it is not granted", room.text(f"/v1/grants/{near(0)}") == "")
    kept = room.run("ls -lR /var/lib/desk; cat /var/lib/desk/history/*/roster.toml")
    lines = [it for it in kept.stdout.splitlines() if re.match(r"[-d][rwx-]{9}", it)]
    room.holds("the desk's own store", all(" desk desk" in it for it in lines), kept)
    room.holds("both are in the history", old + new in kept.stdout, kept)
    room.says("A roster is changed", "give it the earlier one of `/var/lib/desk/history`")
    done = change(room, old + "# again\n")
    room.holds("and back", done.returncode == 0, done)
    room.holds("as before", room.text(f"/v1/grants/{near(0)}") == before != "", before)


def leaver(room: Room) -> None:
    heading = "Somebody leaves"
    line = blocks(section(heading), "toml")[0]
    asked = desk.read("examples", "approved.messages").splitlines()
    room.begin(*asked)
    question = "/v1/grants/20260105093000Z"
    before = room.text(question)
    made = change(room, with_lines(line))
    room.holds("the roster is taken", made.returncode == 0, made)
    room.says(heading, "what they approved up to that day stays approved", "refused (`A3`)")
    room.holds("what was asked before stays", room.text(question) == before != "", before)
    last = {"at": "20261125235959Z", "from": "20261127000000Z", "until": "20261127010000Z"}
    late = {**last, "at": "20261126000000Z"}
    answers = room.post(desk.request(8, **last), desk.request(9, **late))
    room.holds("what is asked after it", answers == ["ack\n", "A3 NotAsker\n"], answers)
    approver = line.replace("ann", "bob").replace("operate", "approve")
    made = change(room, with_lines(approver))
    room.holds("an approver leaves", made.returncode == 0, made)
    room.holds("what was approved before stays", room.text(question) == before, before)
    room.says(heading, "`desk review` lists under `BARRED` an approval without the duty")
    room.post(desk.approval(8, at="20261126000000Z"))
    report = room.text("/v1/reviews/20261127000000Z").split("BARRED\n")[1].split()
    room.holds("what is approved after it", report[:4] == ["ann", "8", "bob", "duty"], report)


def on_call(room: Room) -> None:
    heading = "On-call rotation"
    room.write("/root/roster.toml", with_lines(blocks(section(heading), "toml")[0]))
    messages, window = [], {"from": "20261214000000Z", "until": "20261214010000Z"}
    for no, person, at in (
        (1, "bob", "20261130000000Z"),
        (2, "bob", "20261206235959Z"),
        (3, "bob", "20261207000000Z"),
        (4, "carol", "20261207000000Z"),
        (5, "carol", "20261206235959Z"),
    ):
        messages.append(desk.request(no, at="20261129000000Z", **window))
        messages.append(desk.approval(no, by=person, at=at))
    room.write("/root/messages", listed(messages))
    room.says(heading, "`desk review` lists under `BARRED` who approved without being on call")
    ran = room.run(
        "desk review /root/roster.toml /etc/desk/base.sudo - 20261214000000Z < /root/messages"
    )
    live, rest = ran.stdout.split("BARRED\n")
    numbers = re.findall(r"^ann +(\d) ", live, re.MULTILINE)
    barred = [line.split() for line in rest.split("CONFLICTS")[0].splitlines()]
    room.holds("who was on call", numbers == ["1", "2", "4"], ran.stdout + ran.stderr)
    wanted = [["ann", "3", "bob", "duty"], ["ann", "5", "carol", "duty"]]
    room.holds("who was not", barred == wanted, barred)


def revoked(room: Room) -> None:
    heading = "A right has to end now"
    asked, approved = granted_now()
    room.begin(asked, approved, asked.replace('"no":7,', '"no":70,'))
    room.run("systemctl start desk-fetch@db1")
    room.holds("ann may before it", room.may("/usr/bin/id"))
    found = re.search(r"`(ask -sf \"\$desk/v1/messages\" \| grep [^`]*)`", section(heading))
    grepped = room.run(f"{PREAMBLE}{found[1] if found else 'false'}").stdout
    room.holds("the request of a number", grepped == asked + "\n", grepped)
    done = room.follow(heading, 0)
    room.says(heading, "The right ends a second before the message's `at`")
    lines = done.stdout.splitlines()
    room.holds("the desk takes it", lines[:1] == ["ack"], done)
    room.holds("it is not there", not any(re.match("ann +7 ", line) for line in lines), lines)
    room.says(heading, "the last line says 1")
    room.holds("sudo on the host", lines[-1:] == ["1"], done)
    room.holds("ann may not after it", not room.may("/usr/bin/id"))
    at = re.search(r'"at":"(\d+Z)"', room.read("/root/revoked.txt"))
    ends = re.search(r"NOTAFTER=(\d+Z)", room.text("/v1/hosts/db1/sudoers"))
    moments = [time.strptime(it[1], "%Y%m%d%H%M%SZ") for it in (at, ends) if it]
    apart = [time.mktime(it) for it in moments]
    room.holds("a second before it", len(apart) == 2 and apart[0] - apart[1] == 1, (at, ends))


def mails(room: Room, *kinds: str) -> str:
    """The mails, once there is one of each kind of event."""
    text, until = "", time.monotonic() + PATIENCE
    while time.monotonic() < until:
        if os.path.exists(room.path("/tmp/mails")):
            text = room.read("/tmp/mails")
        if all(f"X-Desk-Event: {it}\n" in text for it in kinds):
            break
        time.sleep(0.1)
    return text


def with_relay(room: Room) -> None:
    """The desk with what examples/break-glass.toml adds, and a relay that rings the bells."""
    heading = "Nobody can approve"
    (notify,) = blocks(section(heading), "toml")
    example = desk.read("examples", "break-glass.toml")
    room.says(heading, "`examples/break-glass.toml` has a person `glass`")
    has_both = "\nglass = [" in example and "\n[ceilings.break-glass]\n" in example
    room.holds("the example has its part", has_both, example)
    shutil.copy(f"{desk.EXAMPLES}/break-glass.toml", room.path(DOC))
    on_call = example.replace("[people]\n", '[people]\nann = ["on-call"]\n')
    room.write(f"{BOOK}/new.toml", on_call)
    settings = desk.read("relays", "relay.example.toml")
    room.write("/etc/desk/relay.toml", settings.partition("[page]")[0] + notify)
    room.write("/etc/desk/bells", "# all\nbob robert@site\ndave dave@site\nann ann@site\n")
    added = room.follow(heading, 0, SAYS_YES)
    room.holds("it is added", added.returncode == 0, added)
    made = room.run(
        "systemctl start desk-relay-post;"
        " ssh-keygen -q -t ed25519 -N '' -f /root/ann && desk-relay-person add ann /root/ann.pub"
    )
    room.holds("the relay", made.returncode == 0, made)


def no_approver(room: Room) -> None:
    heading = "Nobody can approve"
    room.begin()
    with_relay(room)
    done = room.follow(heading, 1)
    phrase = re.search(r"for the envelope: \S{24}\n", done.stdout)
    room.holds("the envelope", phrase is not None, done)
    # (it tells what comes from its first round on; root's sqlite3 would make an outbox that is not
    # there, and the relay could not open that)
    box = "/var/lib/desk-relay/outbox.db"
    told = f"[ -s {box} ] && grep -q told_from <(sqlite3 {box} .dump)"
    room.run(f"for _ in $(seq 600); do {told} && break; sleep 0.1; done")
    room.says(heading, "its use rings every bell", "An asker's own approval counts under no")
    done = room.follow(heading, 2)
    room.holds("the key approves", "It is in force from" in done.stdout, done)
    room.holds("everything on the host", room.may("/usr/bin/env"), done)
    rung = mails(room, "asked", "granted")
    for kind in ("asked", "granted"):
        head = rung.partition(f"X-Desk-Event: {kind}\n")[0].split("\nTo: ")[-1]
        everybody = all(f"{it}@site" in head for it in ("ann", "dave", "robert"))
        is_told = "[desk] BREAK-GLASS: ann: root on db1, 1 hour: db1 is down" in head
        room.holds(f"every bell: {kind}", everybody and is_told, rung)
    done = room.follow(heading, 3)
    room.holds("it ends", done.returncode == 0 and not room.may("/usr/bin/env"), done)
    done = room.follow(heading, 4)
    reviewed = re.search(r"approve +\d+Z glass counts\n(?s:.*)nobody answers", done.stdout)
    room.holds("it is reviewed", reviewed is not None, done)
    alone = "-o IdentitiesOnly=yes -o IdentityAgent=none"
    gone = room.run(f"ssh {alone} -i /root/glass desk approve ann 2 --yes")
    room.holds("the key is gone", gone.stdout == "denied\n", gone)
    room.run("kill $(cat /run/relay-*.pid); rm /var/lib/desk-relay/outbox.db*")


def break_glass(room: Room) -> None:
    heading = "The desk is down and a right is needed"
    restart = "/usr/bin/systemctl restart postgresql"
    room.begin(*granted_now())
    room.run("systemctl start desk-fetch@db1; systemctl stop desk")
    room.says(heading, "hosts have their files, and sudo asks nobody", "for an hour")
    room.holds("what is granted still works", room.may("/usr/bin/id"))
    room.holds("and no more", not room.may(restart))
    done = room.follow(heading, 0)
    room.holds("visudo takes the line", "parsed OK" in done.stdout, done)
    room.holds("the right is there", room.may(restart), done)
    room.holds("for an hour", not room.may(restart, "faketime -f +3700s"))
    file = "/etc/sudoers.d/zz-break-glass"
    room.holds("its mode", os.stat(room.path(file)).st_mode & 0o777 == 0o440)
    os.unlink(room.path(file))
    block = blocks(section(heading), "sh")[0].replace("(root)", "(root")
    room.run(PREAMBLE + block)
    room.holds("a line that visudo refuses is gone", not os.path.exists(room.path(file)))


def disk_full(room: Room) -> None:
    heading = "The disk is full"
    room.begin(desk.request())
    small = f"{HERE}/small"
    room.run(f"systemctl stop desk; mkdir {small}; mount -t tmpfs -o size=2m,mode=777 none {small}")
    store = {"STORE": f"{small}/desk.db"}
    room.run("systemctl start desk", **store)
    room.post(desk.request())
    room.run(f"head -c 3000000 /dev/zero > {small}/old-copy")
    answers = room.post(*map(desk.approval, range(60)))
    room.says(heading, "`answered K4 Storage`", "refused with 503", "still answers with files")
    room.holds("a message", answers[-1] == "K4 Storage\n", answers[-3:])
    room.holds("its log", "answered K4 Storage" in room.read("/run/desk.log"))
    kept = [desk.approval(no) for no, said in enumerate(answers) if said == "ack\n"]
    # (once it has answered K4, a question may be K4 as well until there is room)
    done = room.follow(heading, 0, f"cd {small}\n")
    room.holds("what is seen", "100%" in done.stdout and "old-copy" in done.stdout, done)
    room.says(heading, "Move copies away (`as_desk tar c lost-*", "takes messages again as soon as")
    room.run(f"rm {small}/old-copy")
    again = room.post(desk.approval(99))
    room.holds("as soon as there is room", again == ["ack\n"], again)
    messages = room.text("/v1/messages").splitlines()
    lost = {desk.request(), *kept, desk.approval(99)} - {*messages}
    room.holds("nothing that was acknowledged is lost", not lost, lost)
    room.run(f"systemctl stop desk; umount {small}")


def upgrade(room: Room) -> None:
    heading = "An upgrade"
    messages = desk.read("examples", "approved.messages").splitlines()
    room.begin(*messages)
    done = room.follow(heading, 0)
    room.says(heading, "Both must print nothing")
    is_silent = (done.stdout, done.stderr, done.returncode) == ("", "", 0)
    room.holds("it prints nothing", is_silent, done)
    is_there = re.search(r"^ann +7 ", room.read("/root/before"), re.MULTILINE) is not None
    room.holds("the report has the grant", is_there)
    room.holds("the messages are kept", room.read("/root/messages.txt") == listed(messages))
    room.run("systemctl stop desk")
    done = room.run(f"{PREAMBLE}backup")
    is_kept = room.read("/root/messages.txt") == listed(messages)
    room.holds("no desk to copy from", done.returncode != 0 and is_kept, done)


def restore(room: Room) -> None:
    heading = "A restore"
    messages = desk.read("examples", "approved.messages").splitlines()
    room.begin(*messages)
    room.write("/root/messages.txt", room.text("/v1/messages"))
    room.post(desk.approval(50))
    # a page of the store is damaged, and its log is there
    room.run(
        "p=$(cat /run/desk.pid); kill -s KILL -- -$p; rm /run/desk.pid;"
        " while ps -o stat= -s $p | grep -qv Z; do sleep 0.05; done"
    )
    room.write(f"{HERE}/desk.db", "no database at all" * 300)
    done = room.follow(heading, 0)
    room.says(heading, "**Where it prints nothing the copy is empty**")
    room.holds("each is acknowledged", done.stdout.split() == ["2", "ack"], done)
    room.holds("what is there", room.text("/v1/messages") == listed(messages), done)
    lost = [name for name in os.listdir(room.path(HERE)) if name.startswith("lost-")]
    room.holds("the old file is kept", len(lost) == 1, os.listdir(room.path(HERE)))
    restore_archives(room, messages)
    for kind in ("with its log", "without a log", "as 'A backup' says"):
        restore_file(room, kind)


def restore_archives(room: Room, messages: list[str]) -> None:
    """What was cut out of the store is there again: hosts count it."""
    out = [desk.approval(number) for number in (51, 52, 53)]
    room.run(f"runuser -u desk -- mkdir -m 0700 {HERE}/archives; rm -rf {HERE}/lost-*")
    for name, some in (("20260201000000Z", out[:2]), ("20260202000000Z", out[2:])):
        room.write(f"{HERE}/archives/{name}.messages", listed(some))
    room.run(f"chown -R desk {HERE}/archives; chmod 0400 {HERE}/archives/*")
    done = room.follow("A restore", 0)
    room.holds("with what was cut out", done.stdout.split() == ["5", "ack"], done)
    held = room.text("/v1/messages")
    room.holds("all of it", held == listed([*messages, *out]), held)
    room.run(f"rm -rf {HERE}/archives {HERE}/lost-*")
    done = room.follow("A restore", 0)
    room.holds("and without an archive", done.stdout.split() == ["2", "ack"], done)


def after_incident(room: Room) -> None:
    """A copy from before an incident brings a forged grant back, and what was revoked by hand is
    revoked again."""
    heading, grants = "A restore", f"/v1/grants/{near(0)}"
    forged = granted_now()
    make_front(room)
    room.begin(*forged)
    room.write("/root/messages.txt", room.text("/v1/messages"))
    done = room.follow("A right has to end now", 0)
    room.holds("it is revoked", done.stdout.startswith("ack\n"), done)
    done = room.follow(heading, 0)
    room.holds("the copy is taken", done.stdout.split() == ["2", "ack"], done)
    room.says(heading, "**A copy from before an incident brings back what was forged.**")
    room.holds("it brings the grant back", "ann 7 " in room.text(grants), done)
    differ = " | ssh db1 diff /etc/sudoers.d/desk -\n"
    compare = next(it for it in blocks(section(heading), "sh") if differ in it).splitlines()[-1]
    shown = room.run(f"{PREAMBLE}{compare}").stdout
    room.holds("and the hosts' file shows it", "\n> ann db1 = " in f"\n{shown}", shown)
    done = room.follow(heading, 2)
    room.holds("what was revoked is posted again", done.stdout.startswith("ack\n"), done)
    room.holds("and the grant is over", "ann 7 " not in room.text(f"/v1/grants/{near(0)}"), done)
    room.holds("nothing is there that no host has", "\n>" not in done.stdout, done)


def restore_file(room: Room, what: str) -> None:
    """From a copy of the file, with its log or in one file, beside a log of what came later."""
    room.run(f"rm -rf {HERE}/lost-* /root/desk.backup*")
    before = room.text("/v1/messages")
    if what == "with its log":
        room.run(f"for end in '' -wal; do cp {HERE}/desk.db$end /root/desk.backup$end; done")
    else:
        copy_stopped(room, what)
    room.post(*map(desk.approval, range(60, 70)))
    done = room.follow("A restore", 1)
    after = room.text("/v1/messages")
    room.holds(f"the copy {what}", after == before != "", f"{done} {after}")


def copy_stopped(room: Room, what: str) -> None:
    """A copy of the file of a desk that is stopped meanwhile."""
    room.run("systemctl stop desk")
    if what == "without a log":
        merge = f"desk print {' '.join(FILES)} {HERE}/desk.db db1 > /dev/null"
        room.run(f"runuser -u desk -- {merge}; cp {HERE}/desk.db /root/desk.backup")
    else:
        made = room.follow("A backup", 0)
        room.holds("a copy of the file", made.returncode == 0, made)
    room.run("systemctl start desk")


def second_desk(room: Room) -> None:
    heading, second = "A second desk", "/var/lib/second"
    messages = desk.read("examples", "approved.messages").splitlines()
    room.begin(*messages)
    made_by = re.findall(r"`front-ca.sh DIR (auditor feed|server desk2.example)`", section(heading))
    room.holds("the second's certificates", len(made_by) == 2, made_by)
    make_front(room, *made_by)
    made = room.run(
        f"install -d -m 0700 -o desk -g desk {second} && cd /etc/desk/front &&"
        f" install -o desk -g desk -m 0400 auditor-feed.pem auditor-feed.key ca.pem {second}"
    )
    room.holds("its folder", made.returncode == 0, made)
    place = f"{os.path.dirname(SOCKET)}/second.sock"
    other = {"INSTANCE": "second", "STORE": f"{second}/desk.db", "ADDR": f"unix:{place}"}
    room.run("systemctl start desk", **other)
    for wanted in (2, 1, 0):
        done = room.follow(heading, 0, f"cd {second}\n", **other)
        said = f"feed-desk: {wanted} posted, 0 refused\n" if wanted else ""
        room.holds("what was posted", (done.returncode, done.stdout) == (0, said), done)
        first, copy = room.text("/v1/messages"), room.text("/v1/messages", place)
        room.says(heading, "Its `/v1/messages` is the first desk's, to the byte")
        room.holds("to the byte", first == copy != "", copy)
        if wanted == 2:
            room.post(desk.approval(50))
    timed(room, second, other)
    away(room, place)
    room.run("systemctl stop desk; systemctl stop nginx", **other)


def timed(room: Room, second: str, other: dict[str, str]) -> None:
    """What cron runs each minute, and what it says where the first desk does not answer."""
    times, user, words = re.fullmatch(r"((?:\* ){5})(\S+) (.*)\n", room.read(TIMED)).groups()
    room.holds("each minute, as the desk's account", (times, user) == ("* " * 5, "desk"), words)
    here = words.replace("/var/lib/desk ", f"{second} ").replace("| logger -t feed-desk", "")
    room.post(desk.approval(51))
    as_desk = "setpriv --reuid desk --regid desk --clear-groups sh -c"
    done = room.run(f"{as_desk} '{here}'", **other)
    room.holds("what cron runs", done.stdout == "feed-desk: 1 posted, 0 refused\n", done)
    done = room.run(f"{as_desk} '{here.replace('desk.example', 'desk.example:1')}'", **other)
    room.holds("without the first", "curl: (7)" in done.stdout + done.stderr, done)


def second_front(room: Room, place: str) -> None:
    """The second desk's front, at a port of its own, and a host that names both fronts."""
    conf = desk.read("examples", "nginx", "desk.conf")
    _, begin, server = conf.partition("\nserver {\n")
    for first, second in (
        ("listen 443 ", "listen 8443 "),
        ("/server.", "/server-desk2.example."),
        ("http://$desk_at;", f"http://unix:{place};"),
    ):
        room.holds(f"the front has {first}", first in server)
        server = server.replace(first, second)
    room.write("/etc/nginx/conf.d/second.conf", begin + server)
    room.run("systemctl restart nginx")
    both = "DESKS=https://desk.example https://desk2.example:8443\n"
    conf = desk.read("packaging", "fetch.conf").replace("DESKS=https://desk.example\n", both)
    room.write("/etc/desk/fetch.conf", conf)


def away(room: Room, place: str) -> None:
    """Hosts that name both, while the first desk is away: the second's file is taken once it holds
    as many messages."""
    room.says("A second desk", "they take the second's file if it holds at least as many messages")
    second_front(room, place)
    room.run("rm -rf /var/lib/desk-host")
    room.post(desk.approval(52))
    fetch = "systemctl start desk-fetch@db1"
    done = room.run(fetch)
    room.holds("from the first", done.returncode == 0, done)
    room.run("systemctl stop desk")
    done = room.run(fetch)
    is_told = "it holds 4 messages, and this host's file is made of 5" in done.stderr
    room.holds("a second desk that lags", done.returncode == 1 and is_told, done)
    room.run(
        f"printf %s '{desk.approval(52)}' | curl -sS --unix-socket {place} --data-binary @-"
        " http://desk/v1/relays/chat/messages"
    )
    done = room.run(fetch)
    room.holds("once it does not", done.returncode == 0, done)
    room.run("systemctl start desk; rm /etc/nginx/conf.d/second.conf")
    room.write("/etc/desk/fetch.conf", desk.read("packaging", "fetch.conf"))


def by_certificate(room: Room, name: str, target: str, *more: str) -> str:
    """The status that the front gives to a certificate, and the body."""
    words = ["curl", "-s", "-m", "60", "-w", "'%{http_code}'", *more]
    words += ["--cert", f"{name}.pem", "--key", f"{name}.key", "--cacert /etc/desk/front/ca.pem"]
    return room.run(" ".join([*words, f"https://desk.example{target}"])).stdout


def key_lost(room: Room) -> None:
    room.begin(desk.request())
    room.run(f"rm -rf /etc/desk/front; mkdir /root/stolen; {FRONT_CA} init")
    for words in ("server desk.example 127.0.0.1", "host db1", "relay chat", "auditor carol"):
        made = room.run(f"{FRONT_CA} {words} && cp /etc/desk/front/*-* /root/stolen")
        room.holds(words, made.returncode == 0 or "server" in words, made)
    # (each is made again: the thief has the older one)
    for words in ("host db1", "relay chat"):
        made = room.run(f"{FRONT_CA} {words}")
        room.holds("it says what holds", "revoke-older" in made.stderr, made)
    room.run("systemctl restart nginx")
    host_lost(room)
    relay_lost(room)
    relay_account_lost(room)
    authority_lost(room)
    room.run("systemctl stop nginx; rm -rf /etc/desk/front /root/front.lost /root/stolen")


def host_lost(room: Room) -> None:
    file, stolen, new = "/v1/hosts/db1/sudoers", "/root/stolen/host-db1", "/etc/desk/front/host-db1"
    before = by_certificate(room, stolen, file)
    room.holds("the thief reads the host's file", before.endswith("200"), before)
    done = room.follow("A key is lost", 0)
    room.says("A key is lost", "It prints 403", "also those whose file was overwritten long ago")
    room.holds("it prints 403", done.stdout == "403\n", done)
    after = by_certificate(room, stolen, file)
    room.holds("the thief reads no more", after.endswith("403"), after)
    again = by_certificate(room, new, file)
    room.holds("the host fetches by its new one", again.endswith("200"), again)


def relay_lost(room: Room) -> None:
    sent, forged = desk.approval(60), [desk.request(61), desk.approval(61)]
    target, stolen = "/v1/relays/chat/messages", "/root/stolen/relay-chat"
    for name, message in (
        ("/etc/desk/front/relay-chat", sent),
        *((stolen, message) for message in forged),
    ):
        room.write(f"{BOOK}/message", message)
        said = by_certificate(room, name, target, f"--data-binary @{BOOK}/message")
        room.holds("the desk takes what is forged", said == "ack\n200", said)
    table = "CREATE TABLE messages (body TEXT)"
    rows = "".join(f"INSERT INTO messages VALUES ('{it}');" for it in (sent, desk.request()))
    box = "/var/lib/desk-relay"
    made = room.run(f"mkdir -p {box} && sqlite3 {box}/outbox.db \"$SQL\"", SQL=f"{table};{rows}")
    room.holds("an outbox", made.returncode == 0, made)
    done = room.follow("A key is lost", 1)
    room.says("A key is lost", "Each line that it prints came through another relay, or is forged")
    room.holds("what is forged", done.stdout == listed(forged), done)
    after = by_certificate(room, stolen, target, f"--data-binary @{BOOK}/message")
    room.holds("the thief posts no more", after.endswith("403"), after)
    again = by_certificate(
        room, "/etc/desk/front/relay-chat", target, f"--data-binary @{BOOK}/message"
    )
    room.holds("the relay posts by its new one", again == "ack\n200", again)


def relay_account_lost(room: Room) -> None:
    """Whoever had the relay's account wrote the forged messages into its outbox, too: comparing
    the two tells nothing of them, and the page says so. The page replaces what the account could
    read."""
    heading, forged = "A key is lost", desk.approval(62)
    room.post(forged)
    sql = f"INSERT INTO messages VALUES ('{forged}')"
    room.run('sqlite3 /var/lib/desk-relay/outbox.db "$SQL"', SQL=sql)
    done = room.follow(heading, 1)
    room.holds("the forged line is held", forged in room.read("/root/held").splitlines(), done)
    is_shown = forged in done.stdout.splitlines()
    is_said = "its outbox proves nothing" in " ".join(section(heading).split())
    room.holds("a forged line in the outbox is shown, or said not to be", is_shown or is_said, done)
    room.says(heading, "`deluser desk-relay desk-front`; then as above, but **its outbox proves")
    room.says(heading, "ask people which lines of `/root/held` are theirs")
    made = room.run(f"{FRONT_CA} auditor web && cp /etc/desk/front/auditor-web.* /root/stolen")
    before = by_certificate(room, "/root/stolen/auditor-web", "/v1/messages")
    room.holds("the thief reads all", before.endswith("200"), (made, before))
    room.says(heading, "the reader's certificate (`$ca revoke auditor-web`)")
    done = room.run(f"{PREAMBLE}$ca revoke auditor-web && nginx -t && systemctl restart nginx")
    after = by_certificate(room, "/root/stolen/auditor-web", "/v1/messages")
    room.holds("and then no more", after.endswith("403"), (done, after))
    room.says(heading, "with `numbers` past those in `/root/held`")
    room.says(heading, "the page's secret and key ([RELAYS.md](RELAYS.md)), the webhook, the")


def authority_lost(room: Room) -> None:
    file = "/v1/hosts/db1/sudoers"
    names = ("host-db1", "relay-chat", "auditor-carol")
    kept = room.run("cp -r /etc/desk/front /root/kept")
    room.holds("the thief has all of it", kept.returncode == 0, kept)
    done = room.follow("A key is lost", 2)
    room.holds("the authority is replaced", done.returncode == 0, done)
    made = [name for name in names if os.path.exists(room.path(f"/etc/desk/front/{name}.pem"))]
    room.holds("each client has a new one", made == [*names], done)
    again = by_certificate(room, "/etc/desk/front/host-db1", file)
    room.holds("the host fetches by its new one", again.endswith("200"), again)
    made = room.run("sh /usr/local/bin/front-ca.sh /root/kept host db1")
    room.holds("the thief makes another one", made.returncode == 0, made)
    after = by_certificate(room, "/root/kept/host-db1", file)
    room.holds("and it is refused", after.endswith("403"), after)


BOOKS = (
    by_one_command,
    leaver,
    on_call,
    revoked,
    break_glass,
    no_approver,
    key_lost,
    disk_full,
    upgrade,
    restore,
    after_incident,
    second_desk,
)


def make_front(room: Room, *more: str) -> None:
    """A front anew, and a certificate of its authority at the host db1; `more` is made as well."""
    clients = " && ".join(f"{FRONT_CA} {words}" for words in ("host db1", *more))
    made = room.run(
        f"rm -rf /etc/desk/front; {FRONT_CA} init && {FRONT_CA} server desk.example 127.0.0.1 &&"
        f" {clients} && cd /etc/desk/front && cp ca.pem .. && cp host-db1.pem ../host.pem &&"
        " cp host-db1.key ../host.key && systemctl restart nginx"
    )
    room.holds("the front", made.returncode == 0, made)


def prepare_tools(room: Room) -> None:
    """The tools and the relay, as they are installed, and a sendmail that keeps the mails."""
    folder, name = os.path.split(PROGRAM)
    audit = os.path.join(folder, name.replace("desk", "desk-audit", 1))
    shutil.copy(audit, room.path("/usr/local/bin/desk-audit"))
    for source in ("steelnewt_client", "steelnewt_relay", "relays", "tools", "packaging"):
        place = f"/usr/local/share/desk/{source}"
        shutil.copytree(os.path.join(desk.ROOT, source), room.path(place), dirs_exist_ok=True)
        programs = ("desk-relay", "desk-relay-person", "desk-change-roster", "desk-lint")
        for program in programs:
            if os.path.exists(room.path(f"{place}/{program}")):
                room.run(f"ln -sfn {place}/{program} /usr/local/bin/{program}")
    os.makedirs(room.path("/usr/libexec/steelnewt"), exist_ok=True)
    room.run("cp /usr/local/share/desk/relays/notify-mail /usr/libexec/steelnewt/")
    # (it may be a link to elsewhere)
    room.run("rm -f /usr/sbin/sendmail")
    room.write("/usr/sbin/sendmail", "#!/bin/sh\numask 0\ncat >> /tmp/mails\n", 0o755)


def prepare(room: Room) -> None:
    """The stand-ins, the programs and the accounts."""
    os.mkdir(room.path(BOOK))
    for name, text in STAND_INS.items():
        room.write(f"{BOOK}/{name}", text, 0o755)
    for source, name in (
        (PROGRAM, "desk"),
        (os.path.join(desk.ROOT, "packaging", "desk-serve"), "desk-serve"),
        (os.path.join(desk.ROOT, "packaging", "desk-signals"), "desk-signals"),
        (os.path.join(desk.ROOT, "packaging", "desk-history"), "desk-history"),
        (os.path.join(desk.EXAMPLES, "front-ca.sh"), "front-ca.sh"),
    ):
        shutil.copy(source, room.path(f"/usr/local/bin/{name}"))
        os.chmod(room.path(f"/usr/local/bin/{name}"), 0o755)
    host_program(room.path("/usr/local/bin/desk-host"))
    for folder in (DOC, "/etc/desk", "/etc/cron.d", "/etc/nginx/conf.d"):
        os.makedirs(room.path(folder), exist_ok=True)
    for name in ("front-ca.sh", "feed-desk.sh"):
        shutil.copy(os.path.join(desk.EXAMPLES, name), room.path(DOC))
    shutil.copy(f"{desk.EXAMPLES}/ring-bells.py", room.path(DOC))
    prepare_tools(room)
    room.write("/etc/nginx/conf.d/desk.conf", desk.read("examples", "nginx", "desk.conf"))
    room.write("/etc/desk/fetch.conf", desk.read("packaging", "fetch.conf"))
    names = f"localhost desk.example desk2.example {socket.gethostname()}"
    room.write("/etc/hosts", f"127.0.0.1 {names}\n")
    for name, source in zip(FILES, (desk.ROSTER, desk.BASE), strict=True):
        shutil.copy(source, room.path(name))
    room.run("useradd --system desk; groupadd --system desk-front; useradd ann")
    room.run("usermod --append --groups desk-front www-data")
    room.run("id desk-relay || useradd --system --user-group --shell /bin/sh desk-relay")
    room.run("usermod --append --groups desk-front desk-relay; rm -rf /var/lib/desk-relay")
    room.run("install -d -o desk-relay -g desk-relay -m 0700 /var/lib/desk-relay")
    room.run("install -d -m 0755 /var/lib/desk-relay/.ssh")
    make_front(room)


def inside() -> None:
    subprocess.run(["ip", "link", "set", "lo", "up"], check=True)
    with tempfile.TemporaryDirectory() as folder:
        room = Room(furnish(folder, ""))
        try:
            prepare(room)
            for book in BOOKS:
                book(room)
                whose = room.run(f"stat -c '%U %a' {ROOTS}; cat {ROOTS}").stdout
                room.holds(f"{book.__name__}: root's file", whose == "root 600\nroot\n", whose)
            room.run("systemctl stop desk")
        finally:
            subprocess.run(["umount", "--lazy", folder], check=True)
    for block in blocks(PAGE, "sh"):
        room.holds("a block that is not followed", block in room.done, block)
    print(f"the runbooks: {room.tried} checks, {room.wrong} wrong")
    sys.exit(1 if room.wrong else 0)


def in_a_root(*more: str) -> int:
    """Runs the script again with the word --inside and more, where all that it does is thrown
    away."""
    words = ["unshare", "--mount", "--net", "--pid", "--ipc", "--fork", "--kill-child"]
    words += ["--propagation", "private", *desk.again()]
    return subprocess.run([*words, "--inside", *more], check=False).returncode


def main() -> None:
    if os.geteuid() != 0:
        sys.exit("check_runbooks.py needs root: it follows the page in a root of its own")
    installs = [os.path.join(desk.ROOT, "relays", "install.sh"), "openssh-client"]
    subprocess.run(["bash", *installs], check=True)
    sys.exit(in_a_root())


if __name__ == "__main__":
    if sys.argv[1:2] == ["--inside"]:
        inside()
    main()
